A discard is logged with no data, and replayed as zeroes.

  $ write script
  > data 16
  > log 32
  > w a 1 1 7f
  > c a
  > d b 1 1
  > c b
  > f g
  > c g
  > close
  $ dmlw record script log
  a ok
  b ok
  g ok
  4 5
  $ dmlw list log
  super version 1 entries 4 sectorsize 512
  0 @1 write 1+1
  1 @3 discard 1+1
  2 @4 flush
  3 @5 mark dm-log-writes-end
  $ image zeroes 8192
  $ dmlw replay log zeroes image entries:4
  replayed 4
  $ same image zeroes
  same
  $ dmlw replay log zeroes image entries:1
  replayed 1
  $ show image
  8192 bytes
  1: 7f*512
