Several seats, each a thread of its own, over one recorder: two write, one of them flushes.

  $ write script
  > data 16
  > log 64
  > seats 2
  > s0 w 1 1 11
  > s0 f
  > s1 w 2 1 22
  $ dmlw run script log
  seat 0: 2 done 0 logged 0 failed 0 not logged 0 refused
  seat 1: 1 done 0 logged 0 failed 0 not logged 0 refused
  4 6
  $ dmlw status log
  4 6

A mark over a log with no room for it: logging ends, and nobody waits for ever.

  $ write script
  > data 16
  > log 2
  > seats 1
  > s0 mark x
  $ dmlw run script log
  seat 0: 0 done 0 logged 0 failed 1 not logged 0 refused
  0 0 logging_disabled
  [3]

A script whose last line has no line feed is run like any other.

  $ escaped script
  > data 16
  > log 32
  > seats 1
  > s0 mark x\
  $ dmlw run script log
  seat 0: 0 done 1 logged 0 failed 0 not logged 0 refused
  2 2

A mark of a seat that is longer than fits into a log sector: its first 479 bytes are logged.

  $ write script
  > data 16
  > log 8
  > seats 1
  > s0 mark xxxxxxxxxxxxxxxxxxxxxxxxxxxxxxxxxxxxxxxxxxxxxxxxxxxxxxxxxxxxxxxxxxxxxxxxxxxxxxxxxxxxxxxxxxxxxxxxxxxxxxxxxxxxxxxxxxxxxxxxxxxxxxxxxxxxxxxxxxxxxxxxxxxxxxxxxxxxxxxxxxxxxxxxxxxxxxxxxxxxxxxxxxxxxxxxxxxxxxxxxxxxxxxxxxxxxxxxxxxxxxxxxxxxxxxxxxxxxxxxxxxxxxxxxxxxxxxxxxxxxxxxxxxxxxxxxxxxxxxxxxxxxxxxxxxxxxxxxxxxxxxxxxxxxxxxxxxxxxxxxxxxxxxxxxxxxxxxxxxxxxxxxxxxxxxxxxxxxxxxxxxxxxxxxxxxxxxxxxxxxxxxxxxxxxxxxxxxxxxxxxxxxxxxxxxxxxxxxxxxxxxxxxxxxxxxxxxxxxxxxxxxxxxxxxxxxxxxxxxxxxxxxxxxxxxxxxxxxxxx
  $ dmlw run script log
  seat 0: 0 done 1 logged 0 failed 0 not logged 0 refused
  2 2
  $ dmlw list log
  super version 1 entries 2 sectorsize 512
  0 @1 mark xxxxxxxxxxxxxxxxxxxxxxxxxxxxxxxxxxxxxxxxxxxxxxxxxxxxxxxxxxxxxxxxxxxxxxxxxxxxxxxxxxxxxxxxxxxxxxxxxxxxxxxxxxxxxxxxxxxxxxxxxxxxxxxxxxxxxxxxxxxxxxxxxxxxxxxxxxxxxxxxxxxxxxxxxxxxxxxxxxxxxxxxxxxxxxxxxxxxxxxxxxxxxxxxxxxxxxxxxxxxxxxxxxxxxxxxxxxxxxxxxxxxxxxxxxxxxxxxxxxxxxxxxxxxxxxxxxxxxxxxxxxxxxxxxxxxxxxxxxxxxxxxxxxxxxxxxxxxxxxxxxxxxxxxxxxxxxxxxxxxxxxxxxxxxxxxxxxxxxxxxxxxxxxxxxxxxxxxxxxxxxxxxxxxxxxxxxxxxxxxxxxxxxxxxxxxxxxxxxxxxxxxxxxxxxxxxxxxxxxxxxxxxxxxxxxxxxxxxxxxxxxxxxxxxxxxxxxxxxx
  1 @2 mark dm-log-writes-end

A write with FUA whose entry fits, where the end mark doesn't.

  $ write script
  > data 16
  > log 4
  > seats 1
  > s0 w 5 1 41 fua
  $ dmlw run script log
  seat 0: 0 done 1 logged 0 failed 0 not logged 0 refused
  1 2 logging_disabled
  [3]
  $ dmlw list log
  super version 1 entries 1 sectorsize 512
  0 @1 write 5+1 fua

A seat that does all that a seat can do, over a log with sectors of 512 bytes and one of 4,096.

  $ write script
  > data 64
  > log 128
  > seats 1
  > s0 w 8 8 41
  > s0 w 8 8 42 flush meta
  > s0 d 16 8
  > s0 f
  > s0 mark here
  > s0 mark 
  > s0 w 0 8 43 flush fua meta
  $ dmlw run script log
  seat 0: 4 done 3 logged 0 failed 0 not logged 0 refused
  8 32
  $ dmlw list log
  super version 1 entries 8 sectorsize 512
  0 @1 write 8+8
  1 @10 write 8+8 flush meta
  2 @19 discard 16+8
  3 @20 flush
  4 @21 mark here
  5 @22 mark 
  6 @23 write 0+8 flush fua meta
  7 @32 mark dm-log-writes-end
  $ write script
  > data 64
  > log 128 4096
  > seats 1
  > s0 w 8 8 41
  > s0 w 8 8 42 flush meta
  > s0 d 16 8
  > s0 f
  > s0 mark here
  > s0 mark 
  > s0 w 0 8 43 flush fua meta
  $ dmlw run script log
  seat 0: 4 done 3 logged 0 failed 0 not logged 0 refused
  8 95
  $ dmlw list log
  super version 1 entries 8 sectorsize 4096
  0 @1 write 1+1
  1 @3 write 1+1 flush meta
  2 @5 discard 2+1
  3 @6 flush
  4 @7 mark here
  5 @8 mark 
  6 @9 write 0+1 flush fua meta
  7 @11 mark dm-log-writes-end

A seat with no lines has done nothing.

  $ write script
  > data 16
  > log 64
  > seats 3
  > s2 f
  $ dmlw run script log
  seat 0: 0 done 0 logged 0 failed 0 not logged 0 refused
  seat 1: 0 done 0 logged 0 failed 0 not logged 0 refused
  seat 2: 1 done 0 logged 0 failed 0 not logged 0 refused
  2 2
  $ dmlw list log
  super version 1 entries 2 sectorsize 512
  0 @1 flush
  1 @2 mark dm-log-writes-end

Layers over both disks: requests fail, the log's device fails, the data disk lies.

  $ write script
  > data 16
  > log 64
  > seats 2
  > data-layer 0 16 error
  > s0 w 1 1 11
  > s1 w 2 1 22 fua
  > s1 f
  $ dmlw run script log
  seat 0: 0 done 0 logged 1 failed 0 not logged 0 refused
  seat 1: 0 done 0 logged 2 failed 0 not logged 0 refused
  4 6
  $ write script
  > data 16
  > log 64
  > seats 1
  > log-layer 0 64 fuse disk 0 0
  > s0 w 1 1 11
  $ remove log
  $ dmlw run script log
  ! dmlw: 19 Device
  [3]
  $ show log
  no such file
  $ write script
  > data 16
  > log 64
  > seats 1
  > log-layer 0 64 fuse disk 0 2
  > s0 w 1 1 11 fua
  > s0 f
  > s0 mark x
  $ dmlw run script log
  seat 0: 1 done 0 logged 0 failed 2 not logged 0 refused
  0 0 logging_disabled
  [3]
  $ write script
  > data 16
  > log 64
  > seats 1
  > data-layer 0 16 flakey disk 0 0 10 1 drop_writes
  > s0 w 1 1 11
  > s0 f
  $ dmlw run script log
  seat 0: 2 done 0 logged 0 failed 0 not logged 0 refused
  3 4
  lies 2 0

Scripts that are refused, and a log that would be written over its script.

  $ write script
  > data 16
  > log 64
  > seats 2
  > s2 f
  $ dmlw run script log
  ! dmlw: line 4: 30 BadLine
  [1]
  $ write script
  > data 16
  > log 64
  > seats 1
  > s0 w 15 2 11
  $ dmlw run script log
  ! dmlw: line 4: 3 PastEnd
  [1]
  $ write script
  > data 16
  > log 64
  > s0 f
  $ dmlw run script log
  ! dmlw: line 3: 30 BadLine
  [1]
  $ write script
  > data 16
  > log 64
  > seats 1
  $ dmlw run script script
  ! dmlw: 32 File
  [1]
  $ copy script kept
  $ dmlw run script ./script
  ! dmlw: 32 File
  [1]
  $ dmlw run ./script script
  ! dmlw: 32 File
  [1]
  $ same script kept
  same
  $ dmlw run none log
  ! dmlw: 32 File
  [1]
  $ dmlw record script log
  ! dmlw: line 3: 30 BadLine
  [1]

The calls of a run begin at the moment 0: over a flakey layer that is up for its first 5 seconds a delay of 4,999 ms lets them pass, and one of 5,000 doesn't.

  $ write script
  > data 16
  > log 64
  > seats 1
  > data-layer 0 16 flakey disk 0 5 5
  > data-layer 0 16 delay disk 0 4999
  > s0 w 0 1 11
  $ dmlw run script log
  seat 0: 1 done 0 logged 0 failed 0 not logged 0 refused
  2 3
  $ write script
  > data 16
  > log 64
  > seats 1
  > data-layer 0 16 flakey disk 0 5 5
  > data-layer 0 16 delay disk 0 5000
  > s0 w 0 1 11
  $ dmlw run script log
  seat 0: 0 done 0 logged 1 failed 0 not logged 0 refused
  2 3

What `--explain` says of such a script.

  $ write script
  > data 16
  > log 64
  > seats 2
  > s2 f
  $ dmlw --explain run script log
  ! dmlw: line 4: 30 BadLine
  !   line 4 of script: s2 f
  !   there is no seat 2: there are 2, s0 to s1
  !   the form of the line: s<k> f
  [1]
  $ write script
  > data 16
  > log 64
  $ dmlw --explain run script log
  ! dmlw: line 3: 30 BadLine
  !   script ends before its line 3; a script begins with the lines `data`, `log` and `seats`:
  !     data <sectors>
  !     log <sectors> [4096]
  !     seats <n>
  [1]
  $ write script
  > data 16
  > log 64
  > seats 1
  > s0 w 15 2 11
  $ dmlw --explain run script log
  ! dmlw: line 4: 3 PastEnd
  !   line 4 of script: s0 w 15 2 11
  !   the request 15+2 reaches past the data disk, which has 16 sectors, counted from 0
  [1]
  $ write script
  > data 16
  > log 64
  > seats 1
  > s0 f
  $ dmlw --explain run script log
  seat 0: 1 done 0 logged 0 failed 0 not logged 0 refused
  2 2
  $ dmlw --explain run script script
  ! dmlw: 32 File
  !   script and script are one file: the log would be written over its script
  [1]
