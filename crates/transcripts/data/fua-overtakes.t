A FUA write is logged at its own end, and an older write of the same sector that waits for a flush is logged before it: replaying both leaves what the later one wrote.

  $ write script
  > data 16
  > log 32
  > w a 5 1 61
  > c a
  > w b 5 1 62 fua
  > c b
  > f g
  > c g
  > close
  $ dmlw record script log
  a ok
  b ok
  g ok
  4 6
  $ dmlw list log
  super version 1 entries 4 sectorsize 512
  0 @1 write 5+1
  1 @3 write 5+1 fua
  2 @5 flush
  3 @6 mark dm-log-writes-end
  $ image zeroes 8192
  $ dmlw replay log zeroes image entries:4
  replayed 4
  $ show image
  8192 bytes
  5: 62*512
  $ dmlw judge script 7 image
  yes
