Logs whose numbers say more than there is.

  $ remove log
  $ image log 4096 0:=7268737766736a00 8:1,18446744073709551615,512
  $ dmlw list log
  ! dmlw: 21 CutShort
  [1]
  $ remove log
  $ image log 4096 0:=7268737766736a00 8:1,1,512 512:0,9223372036854775808
  $ dmlw list log
  super version 1 entries 1 sectorsize 512
  ! dmlw: 17 TooLarge
  [1]
  $ remove log
  $ image log 1536 0:=7268737766736a00 8:1,1,512 512:0,5,0,0
  $ dmlw list log
  super version 1 entries 1 sectorsize 512
  ! dmlw: 21 CutShort
  [1]
