Images that are judged.

  $ write both
  > data 16
  > log 32
  > w a 3 1 01
  > w b 3 1 02
  > c a
  > c b
  > f g
  > c g
  $ write splice
  > data 64
  > log 32
  > w w1 10 1 11
  > w w2 20 1 22
  > w w3 30 1 33
  > c w3
  > c w2
  > f wf
  > c w1
  > c wf
  > close
  $ write fua
  > data 16
  > log 32
  > w a 5 1 61
  > c a
  > w b 5 1 62 fua
  > c b
  > f g
  > c g
  > close
  $ write flush
  > data 16
  > log 32
  > w a 5 1 61
  > c a
  > f f0
  > f f1
  > c f1
  > w x 9 1 63 fua
  > c x
  > c f0
  > close
  $ write layer
  > data 16
  > log 32
  > data-layer 0 8 linear disk 4
  > w a 5 1 41
  > c a
  $ write failing
  > data 16
  > log 32
  > data-layer 0 16 error
  > w a 5 1 41
  > c a
  > f b
  > c b
  $ write stopped
  > data 16
  > log 1
  > mark a
  > turn
  > mark b
  $ write fused
  > data 16
  > log 32
  > log-layer 0 32 fuse disk 0 3
  > w a 5 1 41 fua
  > c a
  > turn
  > w b 6 1 42
  > c b
  $ write empty
  > data 16
  > log 32
  $ write unmade
  > data 16
  > log 32
  > log-layer 0 32 error
  > w a 5 1 41
  $ write busy
  > data 16
  > log 32
  > w a 5 1 41
  > close
  $ write bad
  > data 16
  > log 32
  > w a 5 1 4X
  $ write past
  > data 16
  > log 32
  > w a 16 1 41
  $ remove image
  $ image image 8192
  $ dmlw judge both 4 image
  yes
  $ remove image
  $ image image 8192 1536:=01*512
  $ dmlw judge both 4 image
  yes
  $ remove image
  $ image image 8192 1536:=02*512
  $ dmlw judge both 4 image
  yes
  $ remove image
  $ image image 8192 1536:=03*512
  $ dmlw judge both 4 image
  no sector 3 holds no submitted value
  [1]
  $ remove image
  $ image image 8192 1536:=01*512
  $ dmlw judge both 6 image
  yes
  $ remove image
  $ image image 8192 1536:=02*512
  $ dmlw judge both 6 image
  yes
  $ remove image
  $ image image 8192
  $ dmlw judge both 6 image
  no sector 3 ruled out by event 1
  [1]
  $ remove image
  $ image image 8192 1536:=01*512
  $ dmlw judge both 7 image
  ! dmlw: 34 BadMoment
  [1]
  $ remove image
  $ image image 8192 1536:=01*512
  $ dmlw judge both 18446744073709551615 image
  ! dmlw: 34 BadMoment
  [1]
  $ remove image
  $ image image 8192 1536:=01*512
  $ dmlw judge both 0 image
  no sector 3 holds no submitted value
  [1]
  $ remove image
  $ image image 32768 15360:=33*512
  $ dmlw judge splice 7 image
  yes
  $ remove image
  $ image image 32768 15360:=33*512
  $ dmlw judge splice 8 image
  no sector 20 ruled out by event 1
  [1]
  $ remove image
  $ image image 8192 2560:=61*512
  $ dmlw judge fua 7 image
  no sector 5 ruled out by event 2
  [1]
  $ remove image
  $ image image 8192
  $ dmlw judge flush 5 image
  no sector 5 ruled out by event 0
  [1]
  $ remove image
  $ image image 8192
  $ dmlw judge layer 2 image
  ! dmlw: 34 BadMoment
  [1]
  $ remove image
  $ image image 4096
  $ dmlw judge layer 2 image
  yes
  $ remove image
  $ image image 4096 2560:=41*512
  $ dmlw judge layer 2 image
  yes
  $ remove image
  $ image image 4096 512:=41*512
  $ dmlw judge layer 2 image
  no sector 1 holds no submitted value
  [1]
  $ remove image
  $ image image 8192
  $ dmlw judge failing 4 image
  yes
  $ remove image
  $ image image 8192 2560:=41*512
  $ dmlw judge failing 4 image
  yes
  $ remove image
  $ image image 8192
  $ dmlw judge stopped 1 image
  yes
  $ remove image
  $ image image 8192
  $ dmlw judge stopped 2 image
  ! dmlw: 34 BadMoment
  [1]
  $ remove image
  $ image image 8192 2560:=41*512
  $ dmlw judge fused 2 image
  yes
  $ remove image
  $ image image 8192
  $ dmlw judge fused 2 image
  no sector 5 ruled out by event 0
  [1]
  $ remove image
  $ image image 8192 2560:=41*512
  $ dmlw judge fused 3 image
  ! dmlw: 34 BadMoment
  [1]
  $ remove image
  $ image image 8192
  $ dmlw judge empty 0 image
  yes
  $ remove image
  $ image image 8192 7680:=01*512
  $ dmlw judge empty 0 image
  no sector 15 holds no submitted value
  [1]
  $ remove image
  $ image image 8704
  $ dmlw judge empty 0 image
  ! dmlw: 34 BadMoment
  [1]
  $ remove image
  $ image image 7680
  $ dmlw judge empty 0 image
  ! dmlw: 34 BadMoment
  [1]
  $ remove image
  $ image image 8192
  $ dmlw judge unmade 0 image
  ! dmlw: 19 Device
  [3]
  $ remove image
  $ image image 8192
  $ dmlw judge busy 0 image
  ! dmlw: line 4: 24 Busy
  [1]
  $ remove image
  $ image image 8192
  $ dmlw judge busy 9 image
  ! dmlw: line 4: 24 Busy
  [1]
  $ remove image
  $ image image 8192
  $ dmlw judge bad 0 image
  ! dmlw: line 3: 30 BadLine
  [1]
  $ remove image
  $ image image 8192
  $ dmlw judge past 0 image
  ! dmlw: line 3: 3 PastEnd
  [1]
  $ remove image
  $ image image 100
  $ dmlw judge bad 0 image
  ! dmlw: 32 File
  [1]
  $ remove image
  $ image image 0
  $ dmlw judge both 0 image
  ! dmlw: 32 File
  [1]
  $ remove image
  $ image image 513
  $ dmlw judge both 9 image
  ! dmlw: 32 File
  [1]
