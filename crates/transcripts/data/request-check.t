Which requests a device of 16 sectors takes. The first test that fails is told.

  $ write script
  > data 16
  > log 32
  > w a 16 1 41
  $ dmlw record script log
  ! dmlw: line 3: 3 PastEnd
  [1]
  $ write script
  > data 1048576
  > log 32
  > w a 0 2049 41
  $ dmlw record script log
  ! dmlw: line 3: 4 TooLong
  [1]
  $ write script
  > data 16
  > log 32
  > w a 0 0 41
  $ dmlw record script log
  ! dmlw: line 3: 5 NotWhole
  [1]
  $ write script
  > data 16
  > log 32
  > w a 15 1 41
  > c a
  $ dmlw record script log
  a ok
  0 0
