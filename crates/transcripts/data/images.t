Logs whose super block and first entry are given field by field: what `list`, `status` and a replay
of all counted entries print. The image of each log is given as `image` explains it: the magic, then
the version, the count of entries and the sector size; and then, in the second log sector, the
entry's sector, its number of sectors, its flags and the length of its data.

  $ image zeroes 8192

  $ remove log
  $ image log 4096 0:=7268737766736a00 8:1,7,512 512:0,6,0,0
  $ dmlw list log
  super version 1 entries 7 sectorsize 512
  0 @1 write 0+6
  ! dmlw: 21 CutShort
  [1]
  $ dmlw status log
  ! dmlw: 21 CutShort
  [1]
  $ dmlw replay log zeroes out entries:7
  ! dmlw: 21 CutShort after 1 entries
  [1]

  $ remove log
  $ image log 4096 0:=7268737766736a00 8:1,1,512 512:0,7,0,0
  $ dmlw list log
  super version 1 entries 1 sectorsize 512
  ! dmlw: 21 CutShort
  [1]
  $ dmlw status log
  ! dmlw: 21 CutShort
  [1]
  $ dmlw replay log zeroes out entries:1
  ! dmlw: 21 CutShort after 0 entries
  [1]

  $ remove log
  $ image log 4096 0:=7268737766736a00 8:1,1,512 512:0,0,8,480
  $ dmlw list log
  super version 1 entries 1 sectorsize 512
  0 @1 mark \00\00\00\00\00\00\00\00\00\00\00\00\00\00\00\00\00\00\00\00\00\00\00\00\00\00\00\00\00\00\00\00\00\00\00\00\00\00\00\00\00\00\00\00\00\00\00\00\00\00\00\00\00\00\00\00\00\00\00\00\00\00\00\00\00\00\00\00\00\00\00\00\00\00\00\00\00\00\00\00\00\00\00\00\00\00\00\00\00\00\00\00\00\00\00\00\00\00\00\00\00\00\00\00\00\00\00\00\00\00\00\00\00\00\00\00\00\00\00\00\00\00\00\00\00\00\00\00\00\00\00\00\00\00\00\00\00\00\00\00\00\00\00\00\00\00\00\00\00\00\00\00\00\00\00\00\00\00\00\00\00\00\00\00\00\00\00\00\00\00\00\00\00\00\00\00\00\00\00\00\00\00\00\00\00\00\00\00\00\00\00\00\00\00\00\00\00\00\00\00\00\00\00\00\00\00\00\00\00\00\00\00\00\00\00\00\00\00\00\00\00\00\00\00\00\00\00\00\00\00\00\00\00\00\00\00\00\00\00\00\00\00\00\00\00\00\00\00\00\00\00\00\00\00\00\00\00\00\00\00\00\00\00\00\00\00\00\00\00\00\00\00\00\00\00\00\00\00\00\00\00\00\00\00\00\00\00\00\00\00\00\00\00\00\00\00\00\00\00\00\00\00\00\00\00\00\00\00\00\00\00\00\00\00\00\00\00\00\00\00\00\00\00\00\00\00\00\00\00\00\00\00\00\00\00\00\00\00\00\00\00\00\00\00\00\00\00\00\00\00\00\00\00\00\00\00\00\00\00\00\00\00\00\00\00\00\00\00\00\00\00\00\00\00\00\00\00\00\00\00\00\00\00\00\00\00\00\00\00\00\00\00\00\00\00\00\00\00\00\00\00\00\00\00\00\00\00\00\00\00\00\00\00\00\00\00\00\00\00\00\00\00\00\00\00\00\00\00\00\00\00\00\00\00\00\00\00\00\00\00\00\00\00\00\00\00\00\00\00\00\00\00\00\00\00\00\00\00\00\00\00\00\00\00\00\00\00\00\00\00\00\00\00\00\00\00\00\00\00\00
  $ dmlw status log
  1 1
  $ dmlw replay log zeroes out entries:1
  replayed 1

  $ remove log
  $ image log 4096 0:=7268737766736a00 8:1,1,512 512:0,0,8,481
  $ dmlw list log
  super version 1 entries 1 sectorsize 512
  ! dmlw: 16 BadMark
  [1]
  $ dmlw status log
  ! dmlw: 16 BadMark
  [1]
  $ dmlw replay log zeroes out entries:1
  ! dmlw: 16 BadMark after 0 entries
  [1]

  $ remove log
  $ image log 4096 0:=7268737766736a00 8:1,1,512 512:0,1,8,0
  $ dmlw list log
  super version 1 entries 1 sectorsize 512
  ! dmlw: 16 BadMark
  [1]
  $ dmlw status log
  ! dmlw: 16 BadMark
  [1]
  $ dmlw replay log zeroes out entries:1
  ! dmlw: 16 BadMark after 0 entries
  [1]

  $ remove log
  $ image log 4096 0:=7268737766736a00 8:1,1,512 512:0,0,12,0
  $ dmlw list log
  super version 1 entries 1 sectorsize 512
  0 @1 mark 
  $ dmlw status log
  1 1
  $ dmlw replay log zeroes out entries:1
  replayed 1

  $ remove log
  $ image log 4096 0:=7268737766736a00 8:1,1,512 512:0,18014398509481983,4,0
  $ dmlw list log
  super version 1 entries 1 sectorsize 512
  0 @1 discard 0+18014398509481983
  $ dmlw status log
  1 1
  $ dmlw replay log zeroes out entries:1
  ! dmlw: 27 PastTarget after 0 entries
  [1]

  $ remove log
  $ image log 4096 0:=7268737766736a00 8:1,1,512 512:0,18014398509481984,4,0
  $ dmlw list log
  super version 1 entries 1 sectorsize 512
  ! dmlw: 17 TooLarge
  [1]
  $ dmlw status log
  ! dmlw: 17 TooLarge
  [1]
  $ dmlw replay log zeroes out entries:1
  ! dmlw: 17 TooLarge after 0 entries
  [1]

  $ remove log
  $ image log 4096 0:=7268737766736a00 8:1,1,512 512:18446744073709551615,1,4,0
  $ dmlw list log
  super version 1 entries 1 sectorsize 512
  ! dmlw: 17 TooLarge
  [1]
  $ dmlw status log
  ! dmlw: 17 TooLarge
  [1]
  $ dmlw replay log zeroes out entries:1
  ! dmlw: 17 TooLarge after 0 entries
  [1]

  $ remove log
  $ image log 4096 0:=7268737766736a00 8:1,1,512 512:18446744073709551615,0,0,0
  $ dmlw list log
  super version 1 entries 1 sectorsize 512
  0 @1 write 0+0
  $ dmlw status log
  1 1
  $ dmlw replay log zeroes out entries:1
  replayed 1

  $ remove log
  $ image log 4096 0:=7268737766736a00 8:1,1,512 512:0,1,32,9
  $ dmlw list log
  super version 1 entries 1 sectorsize 512
  0 @1 write 0+1
  $ dmlw status log
  1 2
  $ dmlw replay log zeroes out entries:1
  replayed 1

  $ remove log
  $ image log 512 0:=7268737766736a00 8:1,0,4096
  $ dmlw list log
  super version 1 entries 0 sectorsize 4096
  $ dmlw status log
  0 0
  $ dmlw replay log zeroes out entries:0
  replayed 0

  $ remove log
  $ image log 512 0:=7268737766736a00 8:1,1,4096
  $ dmlw list log
  ! dmlw: 21 CutShort
  [1]
  $ dmlw status log
  ! dmlw: 21 CutShort
  [1]
  $ dmlw replay log zeroes out entries:1
  ! dmlw: 21 CutShort
  [1]
