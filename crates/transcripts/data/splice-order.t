At a flush the writes that had ended before it are logged, in the order of their ends. `w1`, which ends after the flush was submitted, comes after it.

  $ write script
  > data 64
  > log 32
  > w w1 10 1 11
  > w w2 20 1 22
  > w w3 30 1 33
  > c w3
  > c w2
  > f wf
  > c w1
  > c wf
  > close
  $ dmlw record script log
  w3 ok
  w2 ok
  w1 ok
  wf ok
  5 8
  $ dmlw list log
  super version 1 entries 5 sectorsize 512
  0 @1 write 30+1
  1 @3 write 20+1
  2 @5 flush
  3 @6 write 10+1
  4 @8 mark dm-log-writes-end
