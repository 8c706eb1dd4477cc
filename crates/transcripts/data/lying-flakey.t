A layer that drops writes tells of writes that it didn't do; each is counted as a lie.

  $ write script
  > data 16
  > log 32
  > data-layer 0 16 flakey disk 0 10 5 1 drop_writes
  > at 12000
  > w a 5 1 41
  > c a
  > r 5 1
  > close
  $ dmlw record script log
  a ok
  read 5+1 ok 00
  2 3
  lies 1 0

Over the log nothing is left of it: what is promised of a log asks that its device doesn't lie.

  $ write script
  > data 16
  > log 32
  > log-layer 0 32 flakey disk 0 0 5 1 drop_writes
  > close
  $ dmlw record script log
  1 1
  lies 0 4
  $ dmlw list log
  ! dmlw: 13 BadMagic
  [1]

Each call of the log's device begins at the script's moment: at 12,000 each of the three entries has its own sector, its flush and its super block dropped.

  $ write script
  > data 16
  > log 32
  > log-layer 0 32 flakey disk 0 10 5 1 drop_writes
  > at 12000
  > mark a
  > mark b
  > turn
  > turn
  > close
  $ dmlw record script log
  3 3
  lies 0 9
  $ dmlw list log
  super version 1 entries 0 sectorsize 512
