Scripts that are run.

  $ write script
  > data 16
  > log 32
  > w a 5 1 41
  > c a
  > f b
  > c b
  > close
  $ dmlw record script log
  a ok
  b ok
  3 4
  $ write script
  > data 16
  > log 32
  > close
  > close
  $ dmlw record script log
  1 1
  $ write script
  > data 16
  > log 5
  > w a 5 1 41
  > c a
  > f b
  > c b
  > close
  $ dmlw record script log
  a ok
  b ok
  2 3 logging_disabled
  [3]
  $ write script
  > data 16
  > log 32
  > w a 5 1 41
  > c a
  $ dmlw record script log
  a ok
  0 0
  $ write script
  > data 16
  > log 32
  > close
  > w a 5 1 41
  > f b
  > c b
  > c a
  $ dmlw record script log
  b ok
  a ok
  1 1
  $ write script
  > data 16
  > log 32
  > w a 5 1 41
  > c a
  > w b 6 1 42
  > close
  $ dmlw record script log
  a ok
  ! dmlw: line 6: 24 Busy
  [1]
  $ write script
  > data 16
  > log 2
  > f a
  > close
  $ dmlw record script log
  ! dmlw: line 4: 24 Busy
  [1]
  $ write script
  > data 16
  > log 32
  > w a 5 1 41
  > r 5 1
  > c a
  > r 5 1
  > r 4 4
  $ dmlw record script log
  read 5+1 ok 00
  a ok
  read 5+1 ok 41
  read 4+4 ok 00410000
  0 0
  $ write script
  > data 16
  > log 32
  > turn
  > w a 5 1 41
  > turn
  > c a
  > f b
  > turn
  > c b
  > turn
  $ dmlw record script log
  a ok
  b ok
  1 2
  $ write script
  > data 16
  > log 32
  > w a 5 1 41
  > c a
  > f b
  > c b
  > turn
  > turn
  > turn
  $ dmlw record script log
  a ok
  b ok
  2 3
  $ write script
  > data 16
  > log 32
  > w a 5 1 41
  > c a
  > f b
  > c b
  > turn
  > close
  > turn
  $ dmlw record script log
  a ok
  b ok
  3 4
  $ write script
  > data 16
  > log 32
  > w a 5 1 61
  > c a
  > w b 5 1 62 fua
  > c b
  > f g
  > c g
  > close
  $ dmlw record script log
  a ok
  b ok
  g ok
  4 6
  $ write script
  > data 16
  > log 32
  > w a 5 1 61
  > c a
  > f f0
  > f f1
  > c f1
  > w x 9 1 63 fua
  > c x
  > c f0
  > close
  $ dmlw record script log
  a ok
  f1 ok
  x ok
  f0 ok
  5 7
  $ write script
  > data 16
  > log 32
  > w a 1 1 7f
  > c a
  > r 1 1
  > d b 1 1
  > r 1 1
  > c b
  > r 1 1
  > f g
  > c g
  > close
  $ dmlw record script log
  a ok
  read 1+1 ok 7f
  read 1+1 ok 7f
  b ok
  read 1+1 ok 00
  g ok
  4 5
  $ write script
  > data 16
  > log 32
  > w a 4 1 11
  > c a
  > w b 8 2 22 flush fua
  > c b
  > turn
  > turn
  $ dmlw record script log
  a ok
  b ok
  2 5
  $ write script
  > data 16
  > log 32
  > w a 5 1 41
  > c a
  > mark here
  > close
  $ dmlw record script log
  a ok
  3 4
  $ write script
  > data 16
  > log 32
  > mark here
  > turn
  $ dmlw record script log
  1 1
  $ write script
  > data 16
  > log 32
  > close
  > mark late
  > turn
  $ dmlw record script log
  1 1
  $ write script
  > data 16
  > log 1
  > mark a
  > turn
  > mark b
  $ dmlw record script log
  0 0 logging_disabled
  [3]
  $ write script
  > data 16
  > log 32
  > w a 5 1 41 flush meta
  > c a
  > close
  $ dmlw record script log
  a ok
  2 3
  $ write script
  > data 16
  > log 32
  > w a 5 1 41 flush fua meta
  > r 5 1
  > c a
  > r 5 1
  > turn
  $ dmlw record script log
  read 5+1 ok 00
  a ok
  read 5+1 ok 41
  1 2
