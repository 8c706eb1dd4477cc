A log is copied to one with sectors of 4,096 bytes, entry by entry: each keeps its place and its length in bytes.

  $ write script
  > data 64
  > log 64
  > w a 8 16 41
  > c a
  > f b
  > c b
  > close
  $ dmlw record script log
  a ok
  b ok
  3 19
  $ dmlw copy log out 256
  copied 3
  $ dmlw list out
  super version 1 entries 3 sectorsize 4096
  0 @1 write 1+2
  1 @4 flush
  2 @5 mark dm-log-writes-end
  $ dmlw status out
  3 47
  $ show out
  131072 bytes
  0: 72 68 73 77 66 73 6a 00 01 00*7 03 00*8 10 00*486
  8: 01 00*7 02 00*503
  16: 41*512
  17: 41*512
  18: 41*512
  19: 41*512
  20: 41*512
  21: 41*512
  22: 41*512
  23: 41*512
  24: 41*512
  25: 41*512
  26: 41*512
  27: 41*512
  28: 41*512
  29: 41*512
  30: 41*512
  31: 41*512
  32: 00*16 01 00*495
  40: 00*16 08 00*7 11 00*7 64 6d 2d 6c 6f 67 2d 77 72 69 74 65 73 2d 65 6e 64 00*463

Each beginning of the copy replays to what that beginning of the log replays to.

  $ image zeroes 32768
  $ dmlw replay log zeroes one entries:0
  replayed 0
  $ dmlw replay out zeroes other entries:0
  replayed 0
  $ same one other
  same
  $ dmlw replay log zeroes one entries:1
  replayed 1
  $ dmlw replay out zeroes other entries:1
  replayed 1
  $ same one other
  same
  $ dmlw replay log zeroes one entries:3
  replayed 3
  $ dmlw replay out zeroes other entries:3
  replayed 3
  $ same one other
  same

A copy of that copy is the same.

  $ dmlw copy out again 256
  copied 3
  $ same out again
  same

A log whose image ends inside a unit of 4,096 bytes (33 sectors are 16,896 bytes) is copied like any other.

  $ write script
  > data 64
  > log 33
  > w a 8 16 41
  > c a
  > f b
  > c b
  > close
  $ quiet dmlw record script odd
  $ dmlw copy odd again 256
  copied 3
  $ same out again
  same

The new log is full before the end mark: one log sector stays free behind its entries. Nothing is written.

  $ remove out
  $ dmlw copy log out 48
  ! dmlw: 18 Full after 2 entries
  [1]
  $ dmlw list out
  ! dmlw: 32 File
  [1]
  $ dmlw copy log out 55
  ! dmlw: 18 Full after 2 entries
  [1]
  $ dmlw copy log out 56
  copied 3
  $ dmlw copy log out 8
  ! dmlw: 18 Full after 0 entries
  [1]
  $ dmlw status out
  3 47

An entry whose place or length is no multiple of 4,096 bytes stops the copy, and nothing of it is placed.

  $ write script
  > data 16
  > log 32
  > w a 5 1 41
  > c a
  > f b
  > c b
  > close
  $ quiet dmlw record script log
  $ dmlw copy log none 256
  ! dmlw: 28 Unaligned after 0 entries
  [1]
  $ dmlw list none
  ! dmlw: 32 File
  [1]
  $ write script
  > data 64
  > log 64
  > mark first
  > w a 8 8 41
  > c a
  > f b
  > c b
  > d c 8 9
  > c c
  > close
  $ quiet dmlw record script log
  $ dmlw copy log none 256
  ! dmlw: 28 Unaligned after 3 entries
  [1]

Each kind of entry, with its flags.

  $ write script
  > data 64
  > log 128
  > w a 8 8 41 flush fua meta
  > c a
  > d b 16 8
  > c b
  > mark the mark
  > w c 0 8 42
  > c c
  > f d
  > c d
  > close
  $ quiet dmlw record script log
  $ dmlw list log
  super version 1 entries 6 sectorsize 512
  0 @1 write 8+8 flush fua meta
  1 @10 mark the mark
  2 @11 discard 16+8
  3 @12 write 0+8
  4 @21 flush
  5 @22 mark dm-log-writes-end
  $ dmlw copy log out 256
  copied 6
  $ dmlw list out
  super version 1 entries 6 sectorsize 4096
  0 @1 write 1+1 flush fua meta
  1 @3 mark the mark
  2 @4 discard 2+1
  3 @5 write 0+1
  4 @7 flush
  5 @8 mark dm-log-writes-end
  $ dmlw replay log zeroes one entries:6
  replayed 6
  $ dmlw replay out zeroes other entries:6
  replayed 6
  $ same one other
  same

A log of no entries.

  $ write script
  > data 16
  > log 32
  $ quiet dmlw record script log
  $ dmlw copy log out 8
  copied 0
  $ dmlw list out
  super version 1 entries 0 sectorsize 4096
  $ dmlw status out
  0 0

A log that is damaged is copied up to its fault, which stops the copy; OUT stays.

  $ image bad 4096 0:=7268737766736a00 8:1,2,512,0 512:0,0,8,2 544:=6162
  $ dmlw list bad
  super version 1 entries 2 sectorsize 512
  0 @1 mark ab
  1 @2 write 0+0
  $ image bad 4096 0:=7268737766736a00 8:1,2,512,0 512:0,0,8,2 544:=6162 1024:0,0,8,481
  $ dmlw copy bad out 64
  ! dmlw: 16 BadMark after 1 entries
  [1]
  $ dmlw status out
  0 0

What isn't a log, files that aren't there, and a copy over the log itself.

  $ dmlw copy zeroes out 64
  ! dmlw: 13 BadMagic
  [1]
  $ dmlw copy absent out 64
  ! dmlw: 32 File
  [1]
  $ dmlw copy log log 64
  ! dmlw: 32 File
  [1]
  $ dmlw copy log fixed 64
  copied 0
  ! dmlw: 32 File
  [1]
  $ dmlw --explain copy log log 64
  ! dmlw: 32 File
  !   log and log are one file: what is written would replace the log
  [1]

What helps: of a log that is too small, and of an entry that isn't aligned.

  $ write script
  > data 64
  > log 64
  > w a 8 16 41
  > c a
  > w b 24 1 42
  > c b
  > f c
  > c c
  > close
  $ quiet dmlw record script log
  $ dmlw --explain copy log out 16
  ! dmlw: 18 Full after 0 entries
  !   the next entry of log, in sectors of 512 bytes: 0 @1 write 8+16
  !   it doesn't fit: give the new log more sectors
  [1]
  $ dmlw --explain copy log out 64
  ! dmlw: 28 Unaligned after 1 entries
  !   the next entry of log, in sectors of 512 bytes: 1 @18 write 24+1
  !   its place or its length isn't a multiple of 4096 bytes, which a log with such sectors needs
  [1]

A SECTORS that is none is a usage fault, before any file is read.

  $ dmlw copy absent out 7
  ! error: invalid value '7' for '<SECTORS>'
  !   [possible values: a number from 8 to 1048576]
  ! 
  ! For more information, try 'dmlw help copy'.
  [2]
  $ dmlw copy absent out 1048577
  ! error: invalid value '1048577' for '<SECTORS>'
  !   [possible values: a number from 8 to 1048576]
  ! 
  ! For more information, try 'dmlw help copy'.
  [2]
  $ dmlw copy absent out many
  ! error: invalid value 'many' for '<SECTORS>'
  !   [possible values: a number from 8 to 1048576]
  ! 
  ! For more information, try 'dmlw help copy'.
  [2]
