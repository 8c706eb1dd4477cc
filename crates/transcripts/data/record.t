Scripts that are recorded: what each prints, and whether a log is written.

  $ escaped script
  > data 16
  > log 32
  > close\
  $ dmlw record script log
  1 1
  $ write script
  > data 16
  > log 32
  > w a 5 1 41
  > c a
  $ dmlw record script log
  a ok
  0 0
  $ write script
  > data 16
  > log 1
  > # comment
  >
  > w a 0 1 00
  $ dmlw record script log
  0 0
  $ write script
  > data 16
  > log 32
  > w a 5 1 41
  > close
  $ dmlw record script log
  ! dmlw: line 4: 24 Busy
  [1]
  $ write script
  > data 16
  > log 32
  > w a 5 1 41
  > c a
  > #
  >
  > f b
  > close
  $ dmlw record script log
  a ok
  ! dmlw: line 8: 24 Busy
  [1]
  $ write script
  > data 16
  > log 32
  > w a 16 1 41
  $ dmlw record script log
  ! dmlw: line 3: 3 PastEnd
  [1]
  $ write script
  > data 16
  > log 32
  > no a 1 1
  $ dmlw record script log
  ! dmlw: line 3: 30 BadLine
  [1]
  $ write script
  > data 16
  > log 32
  > w a 5 1 41
  > c a
  > c a
  $ dmlw record script log
  ! dmlw: line 5: 31 BadId
  [1]
  $ escaped script
  > \
  $ dmlw record script log
  ! dmlw: line 1: 30 BadLine
  [1]
  $ write script
  > data 16
  > log 5
  > w a 5 1 41
  > c a
  > f b
  > c b
  > close
  > f z
  > c z
  $ dmlw record script log
  a ok
  b ok
  z ok
  2 3 logging_disabled
  [3]
  $ write script
  > data 16
  > log 6
  > w a 5 1 41
  > c a
  > f b
  > c b
  > close
  $ dmlw record script log
  a ok
  b ok
  3 4
  $ write script
  > data 16
  > log 2
  > close
  $ dmlw record script log
  0 0 logging_disabled
  [3]
  $ write script
  > data 16
  > log 1
  > close
  $ dmlw record script log
  0 0 logging_disabled
  [3]
  $ write script
  > data 16
  > log 32
  > close
  > f a
  > close
  $ dmlw record script log
  1 1
  $ write script
  > data 16
  > log 32
  > f a
  > close
  > c a
  > close
  $ dmlw record script log
  ! dmlw: line 4: 24 Busy
  [1]
  $ write script
  > data 16
  > log 32
  > close
  > w a 5 1 41
  > c a
  > close
  > f b
  $ dmlw record script log
  a ok
  1 1
  $ write script
  > data 16
  > log 32
  > r 5 1
  > w a 5 1 41
  > r 5 1
  > c a
  > r 4 3
  $ dmlw record script log
  read 5+1 ok 00
  read 5+1 ok 00
  a ok
  read 4+3 ok 004100
  0 0
  $ write script
  > data 16
  > log 32
  > w a 5 1 41
  > c a
  > f b
  > f c
  > c c
  > c b
  > close
  $ dmlw record script log
  a ok
  c ok
  b ok
  4 5
  $ write script
  > data 16
  > log 32
  > r 15 2
  $ dmlw record script log
  ! dmlw: line 3: 3 PastEnd
  [1]
  $ write script
  > data 16
  > log 32
  > crash
  > close
  $ dmlw record script log
  ! dmlw: line 4: 30 BadLine
  [1]

What logs hold, sector by sector: the sectors that are not zeroes.

  $ write script
  > data 16
  > log 32
  > w a 5 1 41
  > c a
  > f b
  > c b
  > close
  $ dmlw record script log
  a ok
  b ok
  3 4
  $ show log
  16384 bytes
  0: 72 68 73 77 66 73 6a 00 01 00*7 03 00*8 02 00*486
  1: 05 00*7 01 00*503
  2: 41*512
  3: 00*16 01 00*495
  4: 00*16 08 00*7 11 00*7 64 6d 2d 6c 6f 67 2d 77 72 69 74 65 73 2d 65 6e 64 00*463
