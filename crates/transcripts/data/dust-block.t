A bad block of the data disk fails one write, and the next one mends it. The log has both: it doesn't look at how a request ended.

  $ write script
  > data 100
  > log 32
  > data-layer 0 100 dust disk 0 512
  > message data 1 addbadblock 60 1
  > message data 1 enable
  > w a 60 1 11
  > c a
  > w b 60 1 22
  > c b
  > r 60 1
  > f g
  > c g
  > close
  $ dmlw record script log
  a failed
  b ok
  read 60+1 ok 22
  g ok
  4 6
  $ dmlw list log
  super version 1 entries 4 sectorsize 512
  0 @1 write 60+1
  1 @3 write 60+1
  2 @5 flush
  3 @6 mark dm-log-writes-end

Without `enable` the layer passes all.

  $ write script
  > data 100
  > log 32
  > data-layer 0 100 dust disk 0 512
  > message data 1 addbadblock 60 1
  > w a 60 1 11
  > c a
  > w b 60 1 22
  > c b
  > r 60 1
  > f g
  > c g
  > close
  $ dmlw record script log
  a ok
  b ok
  read 60+1 ok 22
  g ok
  4 6
