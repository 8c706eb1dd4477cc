A write with FUA is settled at once: a crash keeps it, and the write before it that its flush made sure.

  $ write script
  > data 16
  > log 32
  > w a 4 1 11
  > c a
  > w b 8 2 22 flush fua
  > c b
  > turn
  > turn
  > crash
  $ dmlw record script log
  a ok
  b ok
  2 5
  $ dmlw list log
  super version 1 entries 2 sectorsize 512
  0 @1 write 4+1
  1 @3 write 8+2 flush fua

With a close in place of the crash the end mark stands behind them.

  $ write script
  > data 16
  > log 32
  > w a 4 1 11
  > c a
  > w b 8 2 22 flush fua
  > c b
  > turn
  > turn
  > close
  $ dmlw record script log
  a ok
  b ok
  3 6
  $ dmlw list log
  super version 1 entries 3 sectorsize 512
  0 @1 write 4+1
  1 @3 write 8+2 flush fua
  2 @6 mark dm-log-writes-end
