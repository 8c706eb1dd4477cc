Logs that are replayed, and what image is left.

  $ write script
  > data 16
  > log 32
  > w a 5 1 41
  > c a
  > f b
  > c b
  > close
  $ quiet dmlw record script log
  $ remove first
  $ remove out
  $ image first 8192
  $ dmlw replay log first out flush
  replayed 2
  $ show out
  8192 bytes
  5: 41*512
  $ remove first
  $ remove out
  $ image first 8192
  $ dmlw replay log first out mark:dm-log-writes-end
  replayed 3
  $ show out
  8192 bytes
  5: 41*512
  $ remove first
  $ remove out
  $ image first 8192
  $ dmlw replay log first out entries:1
  replayed 1
  $ show out
  8192 bytes
  5: 41*512
  $ remove first
  $ remove out
  $ image first 8192
  $ dmlw replay log first out entries:0
  replayed 0
  $ show out
  8192 bytes
  $ remove first
  $ remove out
  $ image first 2097152
  $ dmlw replay log first out entries:3
  replayed 3
  $ show out
  2097152 bytes
  5: 41*512
  $ remove first
  $ remove out
  $ image first 8192
  $ dmlw replay log first out entries:4
  ! dmlw: 33 PastEntries after 0 entries
  [1]
  $ show out
  no such file
  $ remove first
  $ remove out
  $ image first 8192
  $ dmlw replay log first out mark:none
  ! dmlw: 25 NoSuchMark after 0 entries
  [1]
  $ show out
  no such file
  $ remove first
  $ remove out
  $ image first 2560
  $ dmlw replay log first out flush
  ! dmlw: 27 PastTarget after 0 entries
  [1]
  $ show out
  no such file
  $ write script
  > data 64
  > log 32
  > w w1 10 1 11
  > w w2 20 1 22
  > w w3 30 1 33
  > c w3
  > c w2
  > f wf
  > c w1
  > c wf
  > close
  $ quiet dmlw record script log
  $ remove first
  $ remove out
  $ image first 32768
  $ dmlw replay log first out entries:0
  replayed 0
  $ show out
  32768 bytes
  $ remove first
  $ remove out
  $ image first 32768
  $ dmlw replay log first out entries:1
  replayed 1
  $ show out
  32768 bytes
  30: 33*512
  $ remove first
  $ remove out
  $ image first 32768
  $ dmlw replay log first out entries:2
  replayed 2
  $ show out
  32768 bytes
  20: 22*512
  30: 33*512
  $ remove first
  $ remove out
  $ image first 32768
  $ dmlw replay log first out entries:3
  replayed 3
  $ show out
  32768 bytes
  20: 22*512
  30: 33*512
  $ remove first
  $ remove out
  $ image first 32768
  $ dmlw replay log first out entries:5
  replayed 5
  $ show out
  32768 bytes
  10: 11*512
  20: 22*512
  30: 33*512
  $ write script
  > data 16
  > log 32
  > w a 5 1 61
  > c a
  > w b 5 1 62 fua
  > c b
  > f g
  > c g
  > close
  $ quiet dmlw record script log
  $ remove first
  $ remove out
  $ image first 8192
  $ dmlw replay log first out entries:1
  replayed 1
  $ show out
  8192 bytes
  5: 61*512
  $ remove first
  $ remove out
  $ image first 8192
  $ dmlw replay log first out entries:2
  replayed 2
  $ show out
  8192 bytes
  5: 62*512
  $ remove first
  $ remove out
  $ image first 8192
  $ dmlw replay log first out entries:4
  replayed 4
  $ show out
  8192 bytes
  5: 62*512
  $ write script
  > data 16
  > log 32
  > w a 5 1 61
  > c a
  > f f0
  > f f1
  > c f1
  > w x 9 1 63 fua
  > c x
  > c f0
  > close
  $ quiet dmlw record script log
  $ remove first
  $ remove out
  $ image first 8192
  $ dmlw replay log first out entries:1
  replayed 1
  $ show out
  8192 bytes
  5: 61*512
  $ remove first
  $ remove out
  $ image first 8192
  $ dmlw replay log first out entries:2
  replayed 2
  $ show out
  8192 bytes
  5: 61*512
  $ remove first
  $ remove out
  $ image first 8192
  $ dmlw replay log first out entries:5
  replayed 5
  $ show out
  8192 bytes
  5: 61*512
  9: 63*512
  $ write script
  > data 16
  > log 32
  > w a 1 1 7f
  > c a
  > d b 1 1
  > c b
  > f g
  > c g
  > close
  $ quiet dmlw record script log
  $ remove first
  $ remove out
  $ image first 8192
  $ dmlw replay log first out entries:1
  replayed 1
  $ show out
  8192 bytes
  1: 7f*512
  $ remove first
  $ remove out
  $ image first 8192
  $ dmlw replay log first out entries:2
  replayed 2
  $ show out
  8192 bytes
  $ remove first
  $ remove out
  $ image first 8192
  $ dmlw replay log first out entries:4
  replayed 4
  $ show out
  8192 bytes
  $ remove log
  $ image log 16384 0:=7268737766736a00 8:1,1,1024 1024:5,2,0,0 2048:=01*512 2560:=02*512 3072:=03*512 3584:=04*512
  $ remove first
  $ remove out
  $ image first 8192
  $ dmlw replay log first out entries:1
  replayed 1
  $ show out
  8192 bytes
  10: 01*512
  11: 02*512
  12: 03*512
  13: 04*512
  $ remove first
  $ remove out
  $ image first 6656
  $ dmlw replay log first out entries:1
  ! dmlw: 27 PastTarget after 0 entries
  [1]
  $ show out
  no such file
  $ write script
  > data 16
  > log 32
  > w a 5 1 41
  > c a
  > f b
  > c b
  > close
  $ quiet dmlw record script log
  $ image log 2048
  $ remove first
  $ remove out
  $ image first 8192
  $ dmlw replay log first out entries:1
  replayed 1
  $ show out
  8192 bytes
  5: 41*512
  $ remove first
  $ remove out
  $ image first 8192
  $ dmlw replay log first out entries:2
  replayed 2
  $ show out
  8192 bytes
  5: 41*512
  $ remove first
  $ remove out
  $ image first 8192
  $ dmlw replay log first out flush
  replayed 2
  $ show out
  8192 bytes
  5: 41*512
  $ remove first
  $ remove out
  $ image first 8192
  $ dmlw replay log first out entries:3
  ! dmlw: 21 CutShort after 2 entries
  [1]
  $ show out
  no such file
  $ remove first
  $ remove out
  $ image first 8192
  $ dmlw replay log first out entries:4
  ! dmlw: 33 PastEntries after 0 entries
  [1]
  $ show out
  no such file
  $ remove first
  $ remove out
  $ image first 8192
  $ dmlw replay log first out mark:none
  ! dmlw: 21 CutShort after 0 entries
  [1]
  $ show out
  no such file
  $ image log 1536
  $ remove first
  $ remove out
  $ image first 8192
  $ dmlw replay log first out entries:1
  ! dmlw: 21 CutShort
  [1]
  $ show out
  no such file
  $ image log 512
  $ remove first
  $ remove out
  $ image first 8192
  $ dmlw replay log first out entries:0
  ! dmlw: 21 CutShort
  [1]
  $ show out
  no such file
