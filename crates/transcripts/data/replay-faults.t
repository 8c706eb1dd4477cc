Files that a replay is refused by.

  $ write script
  > data 16
  > log 32
  > w a 5 1 41
  > c a
  > f b
  > c b
  > close
  $ quiet dmlw record script log
  $ image log 16384 0:=09
  $ image first 8192
  $ dmlw replay log first out entries:0
  ! dmlw: 13 BadMagic
  [1]
  $ quiet dmlw record script log
  $ image log 16384 8:=09
  $ image first 8192
  $ dmlw replay log first out entries:0
  ! dmlw: 14 BadVersion
  [1]
  $ quiet dmlw record script log
  $ image log 16384 24:=09
  $ image first 8192
  $ dmlw replay log first out entries:0
  ! dmlw: 15 BadSectorSize
  [1]
  $ quiet dmlw record script log
  $ remove first
  $ image first 8192
  $ dmlw replay log first first flush
  replayed 2
  $ show first
  8192 bytes
  5: 41*512
  $ remove first
  $ image first 8192
  $ dmlw replay log first fixed flush
  replayed 2
  ! dmlw: 32 File
  [1]
  $ remove first
  $ image first 8192
  $ dmlw replay log first log flush
  ! dmlw: 32 File
  [1]
  $ remove first
  $ image first 8192
  $ dmlw replay none first out flush
  ! dmlw: 32 File
  [1]
  $ remove first
  $ image first 8192
  $ dmlw replay log none out flush
  ! dmlw: 32 File
  [1]
  $ remove first
  $ image first 8192
  $ dmlw replay first first out flush
  ! dmlw: 13 BadMagic
  [1]
