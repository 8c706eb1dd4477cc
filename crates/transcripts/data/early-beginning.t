A beginning of the log of one entry, and whether it could have been on the disk: before the flush ended it could, afterwards it couldn't.

  $ write script
  > data 64
  > log 32
  > w w1 10 1 11
  > w w2 20 1 22
  > w w3 30 1 33
  > c w3
  > c w2
  > f wf
  > c w1
  > c wf
  > close
  $ quiet dmlw record script log
  $ image zeroes 32768
  $ dmlw replay log zeroes image entries:1
  replayed 1
  $ show image
  32768 bytes
  30: 33*512
  $ dmlw judge script 7 image
  yes
  $ dmlw judge script 8 image
  no sector 20 ruled out by event 1
  [1]
