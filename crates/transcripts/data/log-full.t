A log of five sectors has no room for the end mark, since the last sector is never used: logging ends. Nothing was settled, so the super block counts no entry.

  $ write script
  > data 16
  > log 5
  > w a 5 1 41
  > c a
  > f b
  > c b
  > close
  $ dmlw record script log
  a ok
  b ok
  2 3 logging_disabled
  [3]
  $ dmlw list log
  super version 1 entries 0 sectorsize 512
