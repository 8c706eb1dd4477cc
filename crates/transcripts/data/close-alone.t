A recording of nothing: the log has the end mark alone.

  $ write script
  > data 16
  > log 32
  > close
  $ dmlw record script log
  1 1
  $ dmlw list log
  super version 1 entries 1 sectorsize 512
  0 @1 mark dm-log-writes-end
