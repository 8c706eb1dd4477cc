A request ends once.

  $ write script
  > data 16
  > log 32
  > w a 5 1 41
  > c a
  > c a
  > close
  $ dmlw record script log
  ! dmlw: line 5: 31 BadId
  [1]
