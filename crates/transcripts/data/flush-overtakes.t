Of two open flushes the later one ends first. The write that it made sure is logged with it, before its end, event 4, and doesn't wait for the earlier one.

  $ write script
  > data 16
  > log 32
  > w a 5 1 61
  > c a
  > f f0
  > f f1
  > c f1
  > w x 9 1 63 fua
  > c x
  > c f0
  > close
  $ dmlw record script log
  a ok
  f1 ok
  x ok
  f0 ok
  5 7
  $ dmlw list log
  super version 1 entries 5 sectorsize 512
  0 @1 write 5+1
  1 @3 flush
  2 @4 write 9+1 fua
  3 @6 flush
  4 @7 mark dm-log-writes-end
  $ image zeroes 8192
  $ dmlw replay log zeroes image entries:1
  replayed 1
  $ dmlw judge script 5 image
  yes
