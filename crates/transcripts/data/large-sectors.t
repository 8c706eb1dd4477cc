A log with sectors of 4,096 bytes: the head line `log` has the word 4096. The entries' numbers count sectors of that size, and the status counts sectors of 512.

  $ write script
  > data 64
  > log 256 4096
  > w a 8 8 41
  > c a
  > f b
  > c b
  > close
  $ dmlw record script log
  a ok
  b ok
  3 39
  $ dmlw status log
  3 39
  $ dmlw list log
  super version 1 entries 3 sectorsize 4096
  0 @1 write 1+1
  1 @3 flush
  2 @4 mark dm-log-writes-end

The image, byte for byte: the super block, an entry's own sector, and a mark's each stand at the beginning of 8 sectors of 512.

  $ show log
  131072 bytes
  0: 72 68 73 77 66 73 6a 00 01 00*7 03 00*8 10 00*486
  8: 01 00*7 01 00*503
  16: 41*512
  17: 41*512
  18: 41*512
  19: 41*512
  20: 41*512
  21: 41*512
  22: 41*512
  23: 41*512
  24: 00*16 01 00*495
  32: 00*16 08 00*7 11 00*7 64 6d 2d 6c 6f 67 2d 77 72 69 74 65 73 2d 65 6e 64 00*463

Its replay writes the sectors of the request, and the verdict on what each beginning leaves is yes.

  $ image zeroes 32768
  $ dmlw replay log zeroes image entries:3
  replayed 3
  $ show image
  32768 bytes
  8: 41*512
  9: 41*512
  10: 41*512
  11: 41*512
  12: 41*512
  13: 41*512
  14: 41*512
  15: 41*512
  $ dmlw judge script 5 image
  yes
  $ dmlw judge script 2 zeroes
  yes
  $ dmlw judge script 4 zeroes
  no sector 8 ruled out by event 0
  [1]

A request that isn't whole log sectors is refused when the script is read, a read too.

  $ write script
  > data 64
  > log 256 4096
  > w a 8 7 41
  $ dmlw record script log
  ! dmlw: line 3: 28 Unaligned
  [1]
  $ write script
  > data 64
  > log 256 4096
  > d a 4 8
  $ dmlw record script log
  ! dmlw: line 3: 28 Unaligned
  [1]
  $ write script
  > data 64
  > log 256 4096
  > r 60 4
  $ dmlw record script log
  ! dmlw: line 3: 28 Unaligned
  [1]
  $ write script
  > data 64
  > log 256 4096
  > r 60 8
  $ dmlw record script log
  ! dmlw: line 3: 3 PastEnd
  [1]

The end mark takes a log sector, and one stays free behind the entries: a log of two log sectors has room for none.

  $ write script
  > data 16
  > log 16 4096
  > close
  $ dmlw record script log
  0 0 logging_disabled
  [3]
  $ dmlw list log
  super version 1 entries 0 sectorsize 4096
  $ write script
  > data 16
  > log 24 4096
  > close
  $ dmlw record script log
  1 15
  $ dmlw list log
  super version 1 entries 1 sectorsize 4096
  0 @1 mark dm-log-writes-end
  $ write script
  > data 16
  > log 31 4096
  > mark one
  > mark two
  > close
  $ dmlw record script log
  1 15 logging_disabled
  [3]
  $ dmlw list log
  super version 1 entries 1 sectorsize 4096
  0 @1 mark one

Power fails: what no settle made sure is lost, and the super block counts none of it, whichever of its sectors are kept.

  $ write script
  > data 64
  > log 256 4096
  > w a 8 8 41
  > c a
  > f b
  > c b
  > turn
  > turn
  > crash 1 0 1 1 0 1 0 1 1 1
  $ dmlw record script log
  a ok
  b ok
  2 31
  $ dmlw list log
  super version 1 entries 0 sectorsize 4096

A FUA write settles the log, which counts it then; the write behind it isn't counted.

  $ write script
  > data 64
  > log 256 4096
  > w a 16 8 41 fua
  > c a
  > turn
  > w b 24 8 42
  > c b
  > f c
  > c c
  > turn
  > turn
  > crash
  $ dmlw record script log
  a ok
  b ok
  c ok
  3 47
  $ dmlw list log
  super version 1 entries 1 sectorsize 4096
  0 @1 write 2+1 fua
  $ image zeroes 32768
  $ dmlw replay log zeroes image entries:1
  replayed 1
  $ dmlw judge script 2 image
  yes

Each kind of entry: the order is that of a log with small sectors.

  $ write script
  > data 64
  > log 512 4096
  > w a 0 16 41
  > c a
  > d b 8 8
  > c b
  > w c 8 8 43 flush meta
  > c c
  > w d 0 8 44 fua
  > c d
  > f e
  > c e
  > mark here
  > close
  $ dmlw record script log
  a ok
  b ok
  c ok
  d ok
  e ok
  7 95
  $ dmlw list log
  super version 1 entries 7 sectorsize 4096
  0 @1 write 0+2
  1 @4 discard 1+1
  2 @5 write 1+1 flush meta
  3 @7 write 0+1 fua
  4 @9 flush
  5 @10 mark here
  6 @11 mark dm-log-writes-end

A mark of 480 bytes stands whole; in a log with sectors of 512 it would be cut to 479.

  $ write script
  > data 8
  > log 64 4096
  > mark mmmmmmmmmmmmmmmmmmmmmmmmmmmmmmmmmmmmmmmmmmmmmmmmmmmmmmmmmmmmmmmmmmmmmmmmmmmmmmmmmmmmmmmmmmmmmmmmmmmmmmmmmmmmmmmmmmmmmmmmmmmmmmmmmmmmmmmmmmmmmmmmmmmmmmmmmmmmmmmmmmmmmmmmmmmmmmmmmmmmmmmmmmmmmmmmmmmmmmmmmmmmmmmmmmmmmmmmmmmmmmmmmmmmmmmmmmmmmmmmmmmmmmmmmmmmmmmmmmmmmmmmmmmmmmmmmmmmmmmmmmmmmmmmmmmmmmmmmmmmmmmmmmmmmmmmmmmmmmmmmmmmmmmmmmmmmmmmmmmmmmmmmmmmmmmmmmmmmmmmmmmmmmmmmmmmmmmmmmmmmmmmmmmmmmmmmmmmmmmmmmmmmmmmmmmmmmmmmmmmmmmmmmmmmmmmmmmmmmmmmmmmmmmmmmmmmmmmmmmmmmmmmmmmmmmmmmmmmmmm
  > turn
  $ dmlw record script log
  1 15
  $ dmlw list log
  super version 1 entries 1 sectorsize 4096
  0 @1 mark mmmmmmmmmmmmmmmmmmmmmmmmmmmmmmmmmmmmmmmmmmmmmmmmmmmmmmmmmmmmmmmmmmmmmmmmmmmmmmmmmmmmmmmmmmmmmmmmmmmmmmmmmmmmmmmmmmmmmmmmmmmmmmmmmmmmmmmmmmmmmmmmmmmmmmmmmmmmmmmmmmmmmmmmmmmmmmmmmmmmmmmmmmmmmmmmmmmmmmmmmmmmmmmmmmmmmmmmmmmmmmmmmmmmmmmmmmmmmmmmmmmmmmmmmmmmmmmmmmmmmmmmmmmmmmmmmmmmmmmmmmmmmmmmmmmmmmmmmmmmmmmmmmmmmmmmmmmmmmmmmmmmmmmmmmmmmmmmmmmmmmmmmmmmmmmmmmmmmmmmmmmmmmmmmmmmmmmmmmmmmmmmmmmmmmmmmmmmmmmmmmmmmmmmmmmmmmmmmmmmmmmmmmmmmmmmmmmmmmmmmmmmmmmmmmmmmmmmmmmmmmmmmmmmmmmmmmmmmmmm

A layer that moves the log by less than a log sector: the image of the disk has the log from there on.

  $ write script
  > data 16
  > log 40 4096
  > log-layer 0 32 linear disk 8
  > mark here
  > close
  $ dmlw record script log
  2 23
  $ dmlw list log
  ! dmlw: 13 BadMagic
  [1]

Where the log's device fails in the middle of a settle, the super block that counts what was settled before stays.

  $ write script
  > data 64
  > log 256 4096
  > log-layer 0 256 flakey disk 0 10 60
  > w a 8 8 41 fua
  > c a
  > turn
  > at 11000
  > w b 16 8 42 fua
  > c b
  > turn
  $ dmlw record script log
  a ok
  b ok
  1 23 logging_disabled
  [3]
  $ dmlw list log
  super version 1 entries 1 sectorsize 4096
  0 @1 write 1+1 fua
