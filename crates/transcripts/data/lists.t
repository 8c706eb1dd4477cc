What lines leave in a log, as it is listed.

  $ write script
  > data 16
  > log 32
  > w a 5 1 61
  > c a
  > w b 5 1 62 fua
  > c b
  > f g
  > c g
  > close
  $ dmlw record script log
  a ok
  b ok
  g ok
  4 6
  $ dmlw list log
  super version 1 entries 4 sectorsize 512
  0 @1 write 5+1
  1 @3 write 5+1 fua
  2 @5 flush
  3 @6 mark dm-log-writes-end
  $ write script
  > data 16
  > log 32
  > w a 5 1 61
  > c a
  > f f0
  > f f1
  > c f1
  > w x 9 1 63 fua
  > c x
  > c f0
  > close
  $ dmlw record script log
  a ok
  f1 ok
  x ok
  f0 ok
  5 7
  $ dmlw list log
  super version 1 entries 5 sectorsize 512
  0 @1 write 5+1
  1 @3 flush
  2 @4 write 9+1 fua
  3 @6 flush
  4 @7 mark dm-log-writes-end
  $ write script
  > data 16
  > log 32
  > w q 9 1 44
  > c q
  > w a 5 2 11
  > c a
  > w b 6 2 22
  > c b
  > w x 7 1 33 fua
  > c x
  > close
  $ dmlw record script log
  q ok
  a ok
  b ok
  x ok
  5 11
  $ dmlw list log
  super version 1 entries 5 sectorsize 512
  0 @1 write 5+2
  1 @4 write 6+2
  2 @7 write 7+1 fua
  3 @9 write 9+1
  4 @11 mark dm-log-writes-end
  $ write script
  > data 16
  > log 32
  > w a 1 1 7f
  > c a
  > d b 1 1
  > c b
  > f g
  > c g
  > close
  $ dmlw record script log
  a ok
  b ok
  g ok
  4 5
  $ dmlw list log
  super version 1 entries 4 sectorsize 512
  0 @1 write 1+1
  1 @3 discard 1+1
  2 @4 flush
  3 @5 mark dm-log-writes-end
  $ write script
  > data 16
  > log 32
  > w a 4 1 11
  > c a
  > w b 8 2 22 flush fua
  > c b
  > turn
  > turn
  > crash
  $ dmlw record script log
  a ok
  b ok
  2 5
  $ dmlw list log
  super version 1 entries 2 sectorsize 512
  0 @1 write 4+1
  1 @3 write 8+2 flush fua
  $ write script
  > data 16
  > log 32
  > w a 4 1 11
  > c a
  > w b 8 2 22 flush fua
  > c b
  > close
  $ dmlw record script log
  a ok
  b ok
  3 6
  $ dmlw list log
  super version 1 entries 3 sectorsize 512
  0 @1 write 4+1
  1 @3 write 8+2 flush fua
  2 @6 mark dm-log-writes-end
  $ write script
  > data 16
  > log 32
  > w a 5 1 41
  > c a
  > mark here
  > close
  $ dmlw record script log
  a ok
  3 4
  $ dmlw list log
  super version 1 entries 3 sectorsize 512
  0 @1 mark here
  1 @2 write 5+1
  2 @4 mark dm-log-writes-end
  $ write script
  > data 16
  > log 32
  > w a 5 1 41 flush meta
  > c a
  > close
  $ dmlw record script log
  a ok
  2 3
  $ dmlw list log
  super version 1 entries 2 sectorsize 512
  0 @1 write 5+1 flush meta
  1 @3 mark dm-log-writes-end
  $ write script
  > data 16
  > log 32
  > mark 
  > close
  $ dmlw record script log
  2 2
  $ dmlw list log
  super version 1 entries 2 sectorsize 512
  0 @1 mark 
  1 @2 mark dm-log-writes-end
  $ write script
  > data 16
  > log 32
  > mark  two  spaces 
  > turn
  > mark # late
  > crash
  $ dmlw record script log
  1 1
  $ dmlw list log
  super version 1 entries 1 sectorsize 512
  0 @1 mark  two  spaces 
  $ write script
  > data 16
  > log 32
  > close
  > mark late
  > d a 0 16
  > c a
  $ dmlw record script log
  a ok
  1 1
  $ dmlw list log
  super version 1 entries 1 sectorsize 512
  0 @1 mark dm-log-writes-end
  $ write script
  > data 16
  > log 3
  > mark a
  > turn
  > mark b
  > turn
  > mark c
  $ dmlw record script log
  1 1 logging_disabled
  [3]
  $ dmlw list log
  super version 1 entries 1 sectorsize 512
  0 @1 mark a
  $ write script
  > data 16
  > log 32
  > w a 0 1 01
  > c a
  > w b 1 1 02 meta
  > c b
  > w c 2 1 03 fua
  > c c
  > w d 3 1 04 fua meta
  > c d
  > w e 4 1 05 flush
  > c e
  > w f 5 1 06 flush meta
  > c f
  > w g 6 1 07 flush fua
  > c g
  > w h 7 1 08 flush fua meta
  > c h
  > r 0 8
  > close
  $ dmlw record script log
  a ok
  b ok
  c ok
  d ok
  e ok
  f ok
  g ok
  h ok
  read 0+8 ok 0102030405060708
  9 17
  $ dmlw list log
  super version 1 entries 9 sectorsize 512
  0 @1 write 2+1 fua
  1 @3 write 3+1 fua meta
  2 @5 write 0+1
  3 @7 write 1+1 meta
  4 @9 write 4+1 flush
  5 @11 write 5+1 flush meta
  6 @13 write 6+1 flush fua
  7 @15 write 7+1 flush fua meta
  8 @17 mark dm-log-writes-end

The flags of a write with a flush that is metadata are 17.

  $ write script
  > data 16
  > log 32
  > w a 5 1 41 flush meta
  > c a
  > close
  $ dmlw record script log
  a ok
  2 3
  $ show log
  16384 bytes
  0: 72 68 73 77 66 73 6a 00 01 00*7 02 00*8 02 00*486
  1: 05 00*7 01 00*7 11 00*495
  2: 41*512
  3: 00*16 08 00*7 11 00*7 64 6d 2d 6c 6f 67 2d 77 72 69 74 65 73 2d 65 6e 64 00*463
