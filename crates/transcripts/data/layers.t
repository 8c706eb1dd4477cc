Scripts with layers over their disks, with moments and with messages.


Layers.

  $ remove log
  $ write script
  > data 16
  > log 32
  > log-layer 0 32 fuse disk 0 4
  > w a 5 1 41 fua
  > c a
  > turn
  > crash
  $ dmlw record script log
  a ok
  1 2 logging_disabled
  [3]
  $ dmlw list log
  super version 1 entries 0 sectorsize 512
  $ remove log
  $ write script
  > data 16
  > log 32
  > log-layer 0 32 fuse disk 0 5
  > w a 5 1 41 fua
  > c a
  > turn
  > crash
  $ dmlw record script log
  a ok
  1 2
  $ dmlw list log
  super version 1 entries 1 sectorsize 512
  0 @1 write 5+1 fua
  $ remove log
  $ write script
  > data 16
  > log 32
  > data-layer 0 16 flakey disk 0 10 5 1 drop_writes
  > at 12000
  > w a 5 1 41
  > c a
  > r 5 1
  > close
  $ dmlw record script log
  a ok
  read 5+1 ok 00
  2 3
  lies 1 0
  $ dmlw list log
  super version 1 entries 2 sectorsize 512
  0 @1 write 5+1
  1 @3 mark dm-log-writes-end
  $ remove log
  $ write script
  > data 16
  > log 32
  > log-layer 0 32 flakey disk 0 0 5 1 drop_writes
  > close
  $ dmlw record script log
  1 1
  lies 0 4
  $ dmlw list log
  ! dmlw: 13 BadMagic
  [1]
  $ remove log
  $ write script
  > data 16
  > log 32
  > log-layer 0 32 error
  > close
  $ dmlw record script log
  ! dmlw: 19 Device
  [3]
  $ show log
  no such file
  $ remove log
  $ write script
  > data 16
  > log 32
  > log-layer 0 16 linear disk 8
  > w a 5 1 41
  > c a
  > f b
  > c b
  > close
  $ dmlw record script log
  a ok
  b ok
  3 4
  $ dmlw list log
  ! dmlw: 13 BadMagic
  [1]
  $ show log
  16384 bytes
  8: 72 68 73 77 66 73 6a 00 01 00*7 03 00*8 02 00*486
  9: 05 00*7 01 00*503
  10: 41*512
  11: 00*16 01 00*495
  12: 00*16 08 00*7 11 00*7 64 6d 2d 6c 6f 67 2d 77 72 69 74 65 73 2d 65 6e 64 00*463
  $ remove log
  $ write script
  > data 16
  > log 32
  > data-layer 0 16 flakey disk 0 10 5
  > f a
  > at 9999
  > c a
  > f b
  > at 10000
  > c b
  > f c
  > at 14999
  > c c
  > f d
  > at 15000
  > c d
  > at 18446744073709551615
  > at 18446744073709551615
  $ dmlw record script log
  a ok
  b failed
  c failed
  d ok
  0 0
  $ dmlw list log
  super version 1 entries 0 sectorsize 512
  $ remove log
  $ write script
  > data 16
  > log 32
  > data-layer 0 16 linear disk 0
  > data-layer 0 16 error
  > r 0 1
  > d a 0 1
  > c a
  > close
  $ dmlw record script log
  read 0+1 failed
  a failed
  2 2
  $ dmlw list log
  super version 1 entries 2 sectorsize 512
  0 @1 discard 0+1
  1 @2 mark dm-log-writes-end
  $ remove log
  $ write script
  > data 16
  > log 32
  > log-layer 0 32 flakey disk 0 1 1
  > at 1000
  > mark a
  > turn
  > at 2000
  > turn
  > close
  $ dmlw record script log
  0 0 logging_disabled
  [3]
  $ dmlw list log
  super version 1 entries 0 sectorsize 512
  $ remove log
  $ write script
  > data 16
  > log 32
  > data-layer 0 8 linear disk 4
  > data-layer 0 4 linear disk 2
  > w a 3 1 41
  > c a
  > r 0 4
  > r 4 1
  $ dmlw record script log
  ! dmlw: line 8: 3 PastEnd
  [1]
  $ show log
  no such file
  $ remove log
  $ write script
  > data 16
  > log 32
  > data-layer 0 8 linear disk 4
  > data-layer 0 4 linear disk 2
  > w a 3 1 41
  > c a
  > r 0 4
  > close
  $ dmlw record script log
  a ok
  read 0+4 ok 00000041
  2 3
  $ dmlw list log
  super version 1 entries 2 sectorsize 512
  0 @1 write 3+1
  1 @3 mark dm-log-writes-end
  $ remove log
  $ write script
  > data 16
  > log 32
  > log-layer 0 16
  > close
  $ dmlw record script log
  ! dmlw: line 3: 10 WrongCount
  [1]
  $ show log
  no such file
  $ remove log
  $ write script
  > data 16
  > log 32
  > log-layer 0 16 zero
  > close
  $ dmlw record script log
  ! dmlw: line 3: 9 UnknownTarget
  [1]
  $ show log
  no such file
  $ remove log
  $ write script
  > data 16
  > log 32
  > log-layer 0 16 linear disk x
  > close
  $ dmlw record script log
  ! dmlw: line 3: 11 BadNumber
  [1]
  $ show log
  no such file
  $ remove log
  $ write script
  > data 16
  > log 32
  > log-layer 0 16 flakey disk 0 10 5 1 corrupt_bio_byte
  > close
  $ dmlw record script log
  ! dmlw: line 3: 29 BadFeature
  [1]
  $ show log
  no such file
  $ remove log
  $ write script
  > data 16
  > log 32
  > log-layer 0 32 linear disk 8
  > close
  $ dmlw record script log
  ! dmlw: line 3: 12 OutOfRange
  [1]
  $ show log
  no such file
  $ remove log
  $ write script
  > data 16
  > log 32
  > close
  > log-layer 0 32 error
  $ dmlw record script log
  ! dmlw: line 4: 30 BadLine
  [1]
  $ show log
  no such file
  $ remove log
  $ write script
  > data 16
  > log 32
  > at 2
  > at 1
  $ dmlw record script log
  ! dmlw: line 4: 30 BadLine
  [1]
  $ show log
  no such file
  $ remove log
  $ write script
  > data 16
  > log 32
  > log-layer 0 16 dust disk 0 100
  > close
  $ dmlw record script log
  ! dmlw: line 3: 12 OutOfRange
  [1]
  $ show log
  no such file
  $ remove log
  $ write script
  > data 16
  > log 32
  > log-layer 0 16 delay a 0 1 b 0 1
  > close
  $ dmlw record script log
  ! dmlw: line 3: 12 OutOfRange
  [1]
  $ show log
  no such file
  $ remove log
  $ write script
  > data 16
  > log 32
  > data-layer 0 16 flakey disk 0 10 5
  > data-layer 0 16 delay disk 0 0 disk 0 1
  > at 9999
  > r 0 1
  > w a 0 1 11
  > c a
  > close
  $ dmlw record script log
  read 0+1 ok 00
  a failed
  2 3
  $ dmlw list log
  super version 1 entries 2 sectorsize 512
  0 @1 write 0+1
  1 @3 mark dm-log-writes-end

Messages to layers with bad blocks.

  $ remove log
  $ write script
  > data 16
  > log 32
  > data-layer 0 16 dust disk 0 512
  > message data 1 addbadblock 6 1
  > message data 1 enable
  > w a 6 1 11
  > c a
  > w b 6 1 22
  > c b
  > r 6 1
  > f g
  > c g
  > close
  $ dmlw record script log
  a failed
  b ok
  read 6+1 ok 22
  g ok
  4 6
  $ dmlw list log
  super version 1 entries 4 sectorsize 512
  0 @1 write 6+1
  1 @3 write 6+1
  2 @5 flush
  3 @6 mark dm-log-writes-end
  $ remove log
  $ write script
  > data 16
  > log 32
  > data-layer 0 16 dust disk 0 512
  > message data 1 addbadblock 6 1
  > w a 6 1 11
  > c a
  > w b 6 1 22
  > c b
  > close
  $ dmlw record script log
  a ok
  b ok
  3 5
  $ dmlw list log
  super version 1 entries 3 sectorsize 512
  0 @1 write 6+1
  1 @3 write 6+1
  2 @5 mark dm-log-writes-end
  $ remove log
  $ write script
  > data 16
  > log 32
  > data-layer 0 16 dust disk 0 512
  > data-layer 0 14 linear disk 2
  > data-layer 0 12 dust disk 2 1024
  > data-layer 0 12 delay disk 0 10 disk 0 20
  > message data 1 addbadblock 6 1
  > message data 3 addbadblock 0
  > message data 3 enable
  > message data 1 enable
  > r 0 1
  > w a 0 2 11
  > c a
  > r 0 2
  > w b 2 1 22
  > c b
  > w d 2 1 33
  > c d
  > r 2 1
  > message data 3 disable
  > close
  $ dmlw record script log
  read 0+1 failed
  a ok
  read 0+2 ok 1111
  b failed
  d ok
  read 2+1 ok 33
  4 8
  $ dmlw list log
  super version 1 entries 4 sectorsize 512
  0 @1 write 0+2
  1 @4 write 2+1
  2 @6 write 2+1
  3 @8 mark dm-log-writes-end
  $ remove log
  $ write script
  > data 16
  > log 32
  > log-layer 0 32 dust disk 0 512
  > message log 1 addbadblock 1 1
  > message log 1 enable
  > w a 5 1 41 fua
  > c a
  > turn
  > close
  $ dmlw record script log
  a ok
  0 0 logging_disabled
  [3]
  $ dmlw list log
  super version 1 entries 0 sectorsize 512
  $ remove log
  $ write script
  > data 16
  > log 32
  > log-layer 0 32 dust disk 0 512
  > message log 1 addbadblock 0 1
  > message log 1 enable
  > message log 1 removebadblock 0
  > close
  $ dmlw record script log
  1 1
  $ dmlw list log
  super version 1 entries 1 sectorsize 512
  0 @1 mark dm-log-writes-end
  $ remove log
  $ write script
  > data 16
  > log 32
  > data-layer 0 16 dust disk 0 512
  > message data 1 addbadblock 16
  > close
  $ dmlw record script log
  ! dmlw: line 4: 6 BadMessage
  [1]
  $ show log
  no such file
  $ remove log
  $ write script
  > data 16
  > log 32
  > data-layer 0 16 dust disk 0 512
  > message data 1 addbadblock 15
  > message data 1 addbadblock 15
  > close
  $ dmlw record script log
  ! dmlw: line 5: 7 AlreadyBad
  [1]
  $ show log
  no such file
  $ remove log
  $ write script
  > data 16
  > log 32
  > data-layer 0 16 dust disk 0 512
  > message data 1 removebadblock 3
  > close
  $ dmlw record script log
  ! dmlw: line 4: 8 NotBad
  [1]
  $ show log
  no such file
  $ remove log
  $ write script
  > data 16
  > log 32
  > data-layer 0 16 dust disk 0 512
  > w a 1 1 11
  > c a
  > message data 1 queryblock 3
  > close
  $ dmlw record script log
  a ok
  ! dmlw: line 6: 6 BadMessage
  [1]
  $ show log
  no such file
  $ remove log
  $ write script
  > data 16
  > log 32
  > data-layer 0 16 dust disk 0 512
  > message data 2 enable
  $ dmlw record script log
  ! dmlw: line 4: 6 BadMessage
  [1]
  $ show log
  no such file
  $ remove log
  $ write script
  > data 16
  > log 32
  > data-layer 0 16 dust disk 0 512
  > message data 0 enable
  $ dmlw record script log
  ! dmlw: line 4: 6 BadMessage
  [1]
  $ show log
  no such file
  $ remove log
  $ write script
  > data 16
  > log 32
  > data-layer 0 16 dust disk 0 512
  > message log 1 enable
  $ dmlw record script log
  ! dmlw: line 4: 6 BadMessage
  [1]
  $ show log
  no such file
  $ remove log
  $ write script
  > data 16
  > log 32
  > data-layer 0 16 linear disk 0
  > message data 1 enable
  $ dmlw record script log
  ! dmlw: line 4: 6 BadMessage
  [1]
  $ show log
  no such file
  $ remove log
  $ write script
  > data 16
  > log 32
  > message data 1
  $ dmlw record script log
  ! dmlw: line 3: 30 BadLine
  [1]
  $ show log
  no such file
