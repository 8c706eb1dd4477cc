What a crash leaves of a log: its sectors that aren't zeroes, and how many entries it counts.

  $ write script
  > data 16
  > log 32
  > w a 5 1 41
  > c a
  > f b
  > c b
  > turn
  > turn
  > crash 1 1 1
  $ dmlw record script log
  a ok
  b ok
  2 3
  $ show log
  16384 bytes
  0: 72 68 73 77 66 73 6a 00 01 00*16 02 00*486
  1: 05 00*7 01 00*503
  2: 41*512
  3: 00*16 01 00*495
  $ dmlw list log
  super version 1 entries 0 sectorsize 512
  $ write script
  > data 16
  > log 32
  > w a 5 1 41
  > c a
  > f b
  > c b
  > turn
  > turn
  > crash
  $ dmlw record script log
  a ok
  b ok
  2 3
  $ show log
  16384 bytes
  0: 72 68 73 77 66 73 6a 00 01 00*16 02 00*486
  $ dmlw list log
  super version 1 entries 0 sectorsize 512
  $ write script
  > data 16
  > log 32
  > w a 5 1 41
  > c a
  > f b
  > c b
  > turn
  > turn
  > crash 0 1
  $ dmlw record script log
  a ok
  b ok
  2 3
  $ show log
  16384 bytes
  0: 72 68 73 77 66 73 6a 00 01 00*16 02 00*486
  2: 41*512
  $ dmlw list log
  super version 1 entries 0 sectorsize 512
  $ write script
  > data 16
  > log 32
  > w a 5 1 41
  > c a
  > f b
  > c b
  > turn
  > turn
  $ dmlw record script log
  a ok
  b ok
  2 3
  $ show log
  16384 bytes
  0: 72 68 73 77 66 73 6a 00 01 00*16 02 00*486
  1: 05 00*7 01 00*503
  2: 41*512
  3: 00*16 01 00*495
  $ dmlw list log
  super version 1 entries 0 sectorsize 512
  $ write script
  > data 16
  > log 32
  > w a 5 1 41
  > c a
  > f b
  > c b
  > close
  > crash
  $ dmlw record script log
  a ok
  b ok
  3 4
  $ show log
  16384 bytes
  0: 72 68 73 77 66 73 6a 00 01 00*7 03 00*8 02 00*486
  1: 05 00*7 01 00*503
  2: 41*512
  3: 00*16 01 00*495
  4: 00*16 08 00*7 11 00*7 64 6d 2d 6c 6f 67 2d 77 72 69 74 65 73 2d 65 6e 64 00*463
  $ dmlw list log
  super version 1 entries 3 sectorsize 512
  0 @1 write 5+1
  1 @3 flush
  2 @4 mark dm-log-writes-end
  $ write script
  > data 16
  > log 5
  > w a 5 1 41
  > c a
  > f b
  > c b
  > close
  $ dmlw record script log
  a ok
  b ok
  2 3 logging_disabled
  [3]
  $ show log
  2560 bytes
  0: 72 68 73 77 66 73 6a 00 01 00*16 02 00*486
  1: 05 00*7 01 00*503
  2: 41*512
  3: 00*16 01 00*495
  $ dmlw list log
  super version 1 entries 0 sectorsize 512
  $ write script
  > data 16
  > log 5
  > w a 5 1 41
  > c a
  > f b
  > c b
  > close
  > crash
  $ dmlw record script log
  a ok
  b ok
  2 3 logging_disabled
  [3]
  $ show log
  2560 bytes
  0: 72 68 73 77 66 73 6a 00 01 00*16 02 00*486
  $ dmlw list log
  super version 1 entries 0 sectorsize 512
