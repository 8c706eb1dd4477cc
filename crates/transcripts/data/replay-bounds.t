How far a log is replayed, and what refuses it.

  $ write script
  > data 16
  > log 32
  > w a 5 1 41
  > c a
  > f b
  > c b
  > close
  $ quiet dmlw record script log
  $ image five 2560
  $ image first 8192
  $ dmlw replay log five out entries:3
  ! dmlw: 27 PastTarget after 0 entries
  [1]
  $ dmlw replay log first out mark:none
  ! dmlw: 25 NoSuchMark after 0 entries
  [1]
  $ dmlw replay log first out entries:4
  ! dmlw: 33 PastEntries after 0 entries
  [1]
  $ show out
  no such file
  $ dmlw replay log first out flush
  replayed 2
  $ dmlw replay log first out mark:dm-log-writes-end
  replayed 3
  $ show out
  8192 bytes
  5: 41*512
