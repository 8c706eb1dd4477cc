The log's device fails after four calls: the creation, the entry, its data and the flush pass, the super block fails. The write isn't acknowledged, and a crash leaves an empty log.

  $ write script
  > data 16
  > log 32
  > log-layer 0 32 fuse disk 0 4
  > w a 5 1 41 fua
  > c a
  > turn
  > crash
  $ dmlw record script log
  a ok
  1 2 logging_disabled
  [3]
  $ dmlw list log
  super version 1 entries 0 sectorsize 512

With one call more it is settled, and a crash keeps it.

  $ write script
  > data 16
  > log 32
  > log-layer 0 32 fuse disk 0 5
  > w a 5 1 41 fua
  > c a
  > turn
  > crash
  $ dmlw record script log
  a ok
  1 2
  $ dmlw list log
  super version 1 entries 1 sectorsize 512
  0 @1 write 5+1 fua
