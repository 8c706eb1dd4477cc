Logs of any bytes, as they are listed.

  $ remove image
  $ image image 4096 0:=7268737766736a00 8:1,1,512,0 512:0,6,0,0
  $ dmlw list image
  super version 1 entries 1 sectorsize 512
  0 @1 write 0+6
  $ dmlw status image
  1 7
  $ remove image
  $ image image 4096 0:=7268737766736a00 8:1,1,512,0 512:0,7,0,0
  $ dmlw list image
  super version 1 entries 1 sectorsize 512
  ! dmlw: 21 CutShort
  [1]
  $ dmlw status image
  ! dmlw: 21 CutShort
  [1]
  $ remove image
  $ image image 4096 0:=7268737766736a00 8:1,1,512,0 512:0,9223372036854775808,0,0
  $ dmlw list image
  super version 1 entries 1 sectorsize 512
  ! dmlw: 17 TooLarge
  [1]
  $ dmlw status image
  ! dmlw: 17 TooLarge
  [1]
  $ remove image
  $ image image 4096 0:=7268737766736a00 8:1,1,512,0 512:0,0,8,481
  $ dmlw list image
  super version 1 entries 1 sectorsize 512
  ! dmlw: 16 BadMark
  [1]
  $ dmlw status image
  ! dmlw: 16 BadMark
  [1]
  $ remove image
  $ image image 4096 0:=7268737766736a00 8:1,1,512,0 512:0,1,8,0
  $ dmlw list image
  super version 1 entries 1 sectorsize 512
  ! dmlw: 16 BadMark
  [1]
  $ dmlw status image
  ! dmlw: 16 BadMark
  [1]
  $ remove image
  $ image image 4096 0:=7268737766736a00 8:1,1,512,0 512:0,0,12,0
  $ dmlw list image
  super version 1 entries 1 sectorsize 512
  0 @1 mark 
  $ dmlw status image
  1 1
  $ remove image
  $ image image 4096 0:=7268737766736a00 8:1,1,512,0 512:0,18014398509481983,4,0
  $ dmlw list image
  super version 1 entries 1 sectorsize 512
  0 @1 discard 0+18014398509481983
  $ dmlw status image
  1 1
  $ remove image
  $ image image 4096 0:=7268737766736a00 8:1,1,512,0 512:0,18014398509481984,4,0
  $ dmlw list image
  super version 1 entries 1 sectorsize 512
  ! dmlw: 17 TooLarge
  [1]
  $ dmlw status image
  ! dmlw: 17 TooLarge
  [1]
  $ remove image
  $ image image 4096 0:=7268737766736a00 8:1,1,512,0 512:18446744073709551615,0,19,0
  $ dmlw list image
  super version 1 entries 1 sectorsize 512
  0 @1 flush fua meta
  $ dmlw status image
  1 1
  $ remove image
  $ image image 4096 0:=7268737766736a00 8:1,1,512,0 512:5,2,19,18446744073709551615
  $ dmlw list image
  super version 1 entries 1 sectorsize 512
  0 @1 write 5+2 flush fua meta
  $ dmlw status image
  1 3
  $ remove image
  $ image image 4096 0:=7268737766736a00 8:1,1,512,0 512:3,131072,5,0
  $ dmlw list image
  super version 1 entries 1 sectorsize 512
  0 @1 discard 3+131072
  $ dmlw status image
  1 1
  $ remove image
  $ image image 4096 0:=7268737766736a00 8:1,1,512,0 512:0,0,8,12 544:=615c6220001f207e7fc3a97a
  $ dmlw list image
  super version 1 entries 1 sectorsize 512
  0 @1 mark a\5cb \00\1f ~\7f\c3\a9z
  $ dmlw status image
  1 1
  $ remove image
  $ image image 4096 0:=7268737766736a00 8:1,1,1024,0 1024:5,2,0,0
  $ dmlw list image
  super version 1 entries 1 sectorsize 1024
  0 @1 write 5+2
  $ dmlw status image
  1 7
  $ remove image
  $ image image 3584 0:=7268737766736a00 8:1,1,1024,0 1024:5,2,0,0
  $ dmlw list image
  super version 1 entries 1 sectorsize 1024
  ! dmlw: 21 CutShort
  [1]
  $ dmlw status image
  ! dmlw: 21 CutShort
  [1]
  $ remove image
  $ image image 4096 0:=7268737766736a00 8:1,7,512,0 512:0,6,0,0
  $ dmlw list image
  super version 1 entries 7 sectorsize 512
  0 @1 write 0+6
  ! dmlw: 21 CutShort
  [1]
  $ dmlw status image
  ! dmlw: 21 CutShort
  [1]
  $ remove image
  $ image image 4096 0:=7268737766736a00 8:1,0,512,0 512:1,1,4,0
  $ dmlw list image
  super version 1 entries 0 sectorsize 512
  $ dmlw status image
  0 0
  $ remove image
  $ image image 512 0:=7268737766736a00 8:1,0,4096,0
  $ dmlw list image
  super version 1 entries 0 sectorsize 4096
  $ dmlw status image
  0 0
  $ remove image
  $ image image 8704 0:=7268737766736a00 8:1,1,4096,0 4096:9,0,1,0
  $ dmlw list image
  super version 1 entries 1 sectorsize 4096
  0 @1 flush
  $ dmlw status image
  1 15
  $ remove image
  $ image image 4198400 0:=7268737766736a00 8:1,2,512,0 512:77,8192,16,0 4195328:0,0,1,0 4195840:0,9,8,0
  $ dmlw list image
  super version 1 entries 2 sectorsize 512
  0 @1 write 77+8192 meta
  1 @8194 flush
  $ dmlw status image
  2 8194
  $ remove image
  $ image image 4096 0:=7268737766736a00 8:1,18446744073709551615,512,0
  $ dmlw list image
  ! dmlw: 21 CutShort
  [1]
  $ dmlw status image
  ! dmlw: 21 CutShort
  [1]
  $ remove image
  $ image image 4096 0:=7268737766736a00 8:1,8,512,0
  $ dmlw list image
  ! dmlw: 21 CutShort
  [1]
  $ dmlw status image
  ! dmlw: 21 CutShort
  [1]
  $ remove image
  $ image image 512 0:=7268737766736a00 8:1,1,4096,0
  $ dmlw list image
  ! dmlw: 21 CutShort
  [1]
  $ dmlw status image
  ! dmlw: 21 CutShort
  [1]
  $ remove image
  $ image image 4096 0:=7268737766736a00 8:1,1,8192,0
  $ dmlw list image
  ! dmlw: 15 BadSectorSize
  [1]
  $ dmlw status image
  ! dmlw: 15 BadSectorSize
  [1]
  $ remove image
  $ image image 4096 0:=7268737766736a00 8:1,1,0,0
  $ dmlw list image
  ! dmlw: 15 BadSectorSize
  [1]
  $ dmlw status image
  ! dmlw: 15 BadSectorSize
  [1]
  $ remove image
  $ image image 4096 0:=7268737766736a00 8:2,1,512,0
  $ dmlw list image
  ! dmlw: 14 BadVersion
  [1]
  $ dmlw status image
  ! dmlw: 14 BadVersion
  [1]
  $ remove image
  $ image image 4096 0:=7268737766736a00 0:1,2,3,4
  $ dmlw list image
  ! dmlw: 13 BadMagic
  [1]
  $ dmlw status image
  ! dmlw: 13 BadMagic
  [1]

Cut logs.

  $ write script
  > data 16
  > log 32
  > w a 5 1 41
  > c a
  > f b
  > c b
  > close
  $ dmlw record script log
  a ok
  b ok
  3 4
  $ copy log cut
  $ image cut 512
  $ dmlw list cut
  ! dmlw: 21 CutShort
  [1]
  $ dmlw status cut
  ! dmlw: 21 CutShort
  [1]
  $ copy log cut
  $ image cut 1024
  $ dmlw list cut
  ! dmlw: 21 CutShort
  [1]
  $ dmlw status cut
  ! dmlw: 21 CutShort
  [1]
  $ copy log cut
  $ image cut 1536
  $ dmlw list cut
  ! dmlw: 21 CutShort
  [1]
  $ dmlw status cut
  ! dmlw: 21 CutShort
  [1]
  $ copy log cut
  $ image cut 2048
  $ dmlw list cut
  super version 1 entries 3 sectorsize 512
  0 @1 write 5+1
  1 @3 flush
  ! dmlw: 21 CutShort
  [1]
  $ dmlw status cut
  ! dmlw: 21 CutShort
  [1]
  $ copy log cut
  $ image cut 2560
  $ dmlw list cut
  super version 1 entries 3 sectorsize 512
  0 @1 write 5+1
  1 @3 flush
  2 @4 mark dm-log-writes-end
  $ dmlw status cut
  3 4
  $ copy log cut
  $ image cut 3072
  $ dmlw list cut
  super version 1 entries 3 sectorsize 512
  0 @1 write 5+1
  1 @3 flush
  2 @4 mark dm-log-writes-end
  $ dmlw status cut
  3 4
  $ copy log cut
  $ image cut 3584
  $ dmlw list cut
  super version 1 entries 3 sectorsize 512
  0 @1 write 5+1
  1 @3 flush
  2 @4 mark dm-log-writes-end
  $ dmlw status cut
  3 4
  $ copy log cut
  $ image cut 4096
  $ dmlw list cut
  super version 1 entries 3 sectorsize 512
  0 @1 write 5+1
  1 @3 flush
  2 @4 mark dm-log-writes-end
  $ dmlw status cut
  3 4
  $ copy log cut
  $ image cut 4608
  $ dmlw list cut
  super version 1 entries 3 sectorsize 512
  0 @1 write 5+1
  1 @3 flush
  2 @4 mark dm-log-writes-end
  $ dmlw status cut
  3 4
  $ copy log cut
  $ image cut 5120
  $ dmlw list cut
  super version 1 entries 3 sectorsize 512
  0 @1 write 5+1
  1 @3 flush
  2 @4 mark dm-log-writes-end
  $ dmlw status cut
  3 4
  $ copy log cut
  $ image cut 5632
  $ dmlw list cut
  super version 1 entries 3 sectorsize 512
  0 @1 write 5+1
  1 @3 flush
  2 @4 mark dm-log-writes-end
  $ dmlw status cut
  3 4
  $ copy log cut
  $ image cut 6144
  $ dmlw list cut
  super version 1 entries 3 sectorsize 512
  0 @1 write 5+1
  1 @3 flush
  2 @4 mark dm-log-writes-end
  $ dmlw status cut
  3 4
  $ copy log cut
  $ image cut 6656
  $ dmlw list cut
  super version 1 entries 3 sectorsize 512
  0 @1 write 5+1
  1 @3 flush
  2 @4 mark dm-log-writes-end
  $ dmlw status cut
  3 4
  $ copy log cut
  $ image cut 7168
  $ dmlw list cut
  super version 1 entries 3 sectorsize 512
  0 @1 write 5+1
  1 @3 flush
  2 @4 mark dm-log-writes-end
  $ dmlw status cut
  3 4
  $ copy log cut
  $ image cut 7680
  $ dmlw list cut
  super version 1 entries 3 sectorsize 512
  0 @1 write 5+1
  1 @3 flush
  2 @4 mark dm-log-writes-end
  $ dmlw status cut
  3 4
  $ copy log cut
  $ image cut 8192
  $ dmlw list cut
  super version 1 entries 3 sectorsize 512
  0 @1 write 5+1
  1 @3 flush
  2 @4 mark dm-log-writes-end
  $ dmlw status cut
  3 4
  $ copy log cut
  $ image cut 8704
  $ dmlw list cut
  super version 1 entries 3 sectorsize 512
  0 @1 write 5+1
  1 @3 flush
  2 @4 mark dm-log-writes-end
  $ dmlw status cut
  3 4
  $ copy log cut
  $ image cut 9216
  $ dmlw list cut
  super version 1 entries 3 sectorsize 512
  0 @1 write 5+1
  1 @3 flush
  2 @4 mark dm-log-writes-end
  $ dmlw status cut
  3 4
  $ copy log cut
  $ image cut 9728
  $ dmlw list cut
  super version 1 entries 3 sectorsize 512
  0 @1 write 5+1
  1 @3 flush
  2 @4 mark dm-log-writes-end
  $ dmlw status cut
  3 4
  $ copy log cut
  $ image cut 10240
  $ dmlw list cut
  super version 1 entries 3 sectorsize 512
  0 @1 write 5+1
  1 @3 flush
  2 @4 mark dm-log-writes-end
  $ dmlw status cut
  3 4
  $ copy log cut
  $ image cut 10752
  $ dmlw list cut
  super version 1 entries 3 sectorsize 512
  0 @1 write 5+1
  1 @3 flush
  2 @4 mark dm-log-writes-end
  $ dmlw status cut
  3 4
  $ copy log cut
  $ image cut 11264
  $ dmlw list cut
  super version 1 entries 3 sectorsize 512
  0 @1 write 5+1
  1 @3 flush
  2 @4 mark dm-log-writes-end
  $ dmlw status cut
  3 4
  $ copy log cut
  $ image cut 11776
  $ dmlw list cut
  super version 1 entries 3 sectorsize 512
  0 @1 write 5+1
  1 @3 flush
  2 @4 mark dm-log-writes-end
  $ dmlw status cut
  3 4
  $ copy log cut
  $ image cut 12288
  $ dmlw list cut
  super version 1 entries 3 sectorsize 512
  0 @1 write 5+1
  1 @3 flush
  2 @4 mark dm-log-writes-end
  $ dmlw status cut
  3 4
  $ copy log cut
  $ image cut 12800
  $ dmlw list cut
  super version 1 entries 3 sectorsize 512
  0 @1 write 5+1
  1 @3 flush
  2 @4 mark dm-log-writes-end
  $ dmlw status cut
  3 4
  $ copy log cut
  $ image cut 13312
  $ dmlw list cut
  super version 1 entries 3 sectorsize 512
  0 @1 write 5+1
  1 @3 flush
  2 @4 mark dm-log-writes-end
  $ dmlw status cut
  3 4
  $ copy log cut
  $ image cut 13824
  $ dmlw list cut
  super version 1 entries 3 sectorsize 512
  0 @1 write 5+1
  1 @3 flush
  2 @4 mark dm-log-writes-end
  $ dmlw status cut
  3 4
  $ copy log cut
  $ image cut 14336
  $ dmlw list cut
  super version 1 entries 3 sectorsize 512
  0 @1 write 5+1
  1 @3 flush
  2 @4 mark dm-log-writes-end
  $ dmlw status cut
  3 4
  $ copy log cut
  $ image cut 14848
  $ dmlw list cut
  super version 1 entries 3 sectorsize 512
  0 @1 write 5+1
  1 @3 flush
  2 @4 mark dm-log-writes-end
  $ dmlw status cut
  3 4
  $ copy log cut
  $ image cut 15360
  $ dmlw list cut
  super version 1 entries 3 sectorsize 512
  0 @1 write 5+1
  1 @3 flush
  2 @4 mark dm-log-writes-end
  $ dmlw status cut
  3 4
  $ copy log cut
  $ image cut 15872
  $ dmlw list cut
  super version 1 entries 3 sectorsize 512
  0 @1 write 5+1
  1 @3 flush
  2 @4 mark dm-log-writes-end
  $ dmlw status cut
  3 4
  $ copy log cut
  $ image cut 16384
  $ dmlw list cut
  super version 1 entries 3 sectorsize 512
  0 @1 write 5+1
  1 @3 flush
  2 @4 mark dm-log-writes-end
  $ dmlw status cut
  3 4
  $ copy log cut
  $ image cut 0
  $ dmlw list cut
  ! dmlw: 32 File
  [1]
  $ dmlw status cut
  ! dmlw: 32 File
  [1]
  $ copy log cut
  $ image cut 1
  $ dmlw list cut
  ! dmlw: 32 File
  [1]
  $ dmlw status cut
  ! dmlw: 32 File
  [1]
  $ copy log cut
  $ image cut 511
  $ dmlw list cut
  ! dmlw: 32 File
  [1]
  $ dmlw status cut
  ! dmlw: 32 File
  [1]
  $ copy log cut
  $ image cut 513
  $ dmlw list cut
  ! dmlw: 32 File
  [1]
  $ dmlw status cut
  ! dmlw: 32 File
  [1]
  $ copy log cut
  $ image cut 16383
  $ dmlw list cut
  ! dmlw: 32 File
  [1]
  $ dmlw status cut
  ! dmlw: 32 File
  [1]
