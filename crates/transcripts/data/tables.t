What a table's lines ask for. First the lines, as they are read and printed again.

  $ table 0 16 linear disk 8
  0 16 linear disk 8
  $ table 0 16 error
  0 16 error
  $ table 0 1 error
  0 1 error
  $ table 0 1048576 error
  0 1048576 error
  $ table 0 16 flakey disk 0 10 5
  0 16 flakey disk 0 10 5
  $ table 0 16 flakey disk 0 10 5 0
  0 16 flakey disk 0 10 5
  $ table 0 16 flakey disk 0 10 5 1 error_reads
  0 16 flakey disk 0 10 5 1 error_reads
  $ table 0 16 flakey disk 0 10 5 1 error_writes
  0 16 flakey disk 0 10 5 1 error_writes
  $ table 0 16 flakey disk 0 10 5 1 drop_writes
  0 16 flakey disk 0 10 5 1 drop_writes
  $ table 0 16 flakey disk 0 0 1
  0 16 flakey disk 0 0 1
  $ table 0 16 flakey disk 0 1 0
  0 16 flakey disk 0 1 0
  $ table 0 16 flakey disk 0 4294967295 0
  0 16 flakey disk 0 4294967295 0
  $ table 0 16 flakey disk 0 0 4294967295
  0 16 flakey disk 0 0 4294967295
  $ table 0 16 flakey disk 0 4294967294 1
  0 16 flakey disk 0 4294967294 1
  $ table 0 16 fuse disk 0 0
  0 16 fuse disk 0 0
  $ table 0 16 fuse disk 18446744073709551615 18446744073709551615
  0 16 fuse disk 18446744073709551615 18446744073709551615
  $ table 0 16 dust disk 0 512
  0 16 dust disk 0 512
  $ table 0 16 dust disk 8 1024
  0 16 dust disk 8 1024
  $ table 0 16 dust disk 0 1073741824
  0 16 dust disk 0 1073741824
  $ table 0 16 delay disk 3 0
  0 16 delay disk 3 0
  $ table 0 16 delay disk 0 4294967295
  0 16 delay disk 0 4294967295
  $ table 0 16 delay disk 0 0 disk 0 1
  0 16 delay disk 0 0 disk 0 1
  $ table 0 16 delay disk 0 1 disk 0 1
  0 16 delay disk 0 1
  $ table 0 16 delay disk 0 1 disk 0 2 disk 0 3
  0 16 delay disk 0 1 disk 0 2 disk 0 3
  $ table 0 16 delay disk 0 1 disk 0 1 disk 0 2
  0 16 delay disk 0 1 disk 0 1 disk 0 2
  $ table 0 16 delay disk 0 1 disk 0 2 disk 0 1
  0 16 delay disk 0 1 disk 0 2 disk 0 1
  $ table 0 16 delay disk 0 1 disk 0 2 disk 0 2
  0 16 delay disk 0 1 disk 0 2
  $ table 0 16 delay disk 0 2 disk 0 2 disk 0 2
  0 16 delay disk 0 2
  $ table 0 16 delay a 08 1 a 8 2
  0 16 delay disk 8 1 disk 8 2
  $ table   00   016  linear   any-word   08  
  0 16 linear disk 8
  $ table 0 00000000000000000016 error
  0 16 error
  $ table 0
  10 WrongCount
  $ table 0 16
  10 WrongCount
  $ table x y
  10 WrongCount
  $ table 0 16 zero
  9 UnknownTarget
  $ table x y zero a b c d e f g
  9 UnknownTarget
  $ table 0 16 LINEAR disk 0
  9 UnknownTarget
  $ table 0 16 linear2 disk 0
  9 UnknownTarget
  $ table 0 16 dusty disk 0 512
  9 UnknownTarget
  $ table 0 16 delayed disk 0 1
  9 UnknownTarget
  $ table 0 16 linear
  10 WrongCount
  $ table 0 16 linear disk
  10 WrongCount
  $ table x 16 linear disk
  10 WrongCount
  $ table 0 16 linear disk 0 0
  10 WrongCount
  $ table 0 16 error disk
  10 WrongCount
  $ table 0 16 flakey disk 0 10
  10 WrongCount
  $ table 0 16 flakey disk 0 10 5 1 drop_writes 0
  10 WrongCount
  $ table 0 16 flakey disk 0 10 5 2 drop_writes error_reads
  10 WrongCount
  $ table 0 16 fuse disk 0
  10 WrongCount
  $ table 0 16 fuse disk 0 1 2
  10 WrongCount
  $ table 0 16 dust disk 0
  10 WrongCount
  $ table 0 16 dust disk 0 512 quiet
  10 WrongCount
  $ table 0 16 delay disk 0
  10 WrongCount
  $ table 0 16 delay disk 0 1 disk
  10 WrongCount
  $ table 0 16 delay disk 0 1 disk 0
  10 WrongCount
  $ table 0 16 delay disk 0 1 disk 0 2 disk
  10 WrongCount
  $ table 0 16 delay disk 0 1 disk 0 2 disk 0
  10 WrongCount
  $ table 0 16 delay disk 0 1 disk 0 2 disk 0 3 disk
  10 WrongCount
  $ table 0 16 linear disk x
  11 BadNumber
  $ table x 16 error
  11 BadNumber
  $ table 0 x error
  11 BadNumber
  $ table 0 -1 error
  11 BadNumber
  $ table 1 0 linear disk x
  11 BadNumber
  $ table 0 000000000000000000016 error
  11 BadNumber
  $ table 0 18446744073709551616 error
  11 BadNumber
  $ table 0 16 linear disk 18446744073709551616
  11 BadNumber
  $ table 0 16 flakey disk x 10 5
  11 BadNumber
  $ table 0 16 flakey disk 0 x 5
  11 BadNumber
  $ table 0 16 flakey disk 0 10 x
  11 BadNumber
  $ table 0 16 flakey disk 0 10 x 2
  11 BadNumber
  $ table 1 16 flakey disk 0 10 x 1 corrupt_bio_byte
  11 BadNumber
  $ table 0 16 fuse disk 0 x
  11 BadNumber
  $ table 0 16 fuse disk x 0
  11 BadNumber
  $ table 0 16 dust disk x 512
  11 BadNumber
  $ table 0 16 dust disk 0 x
  11 BadNumber
  $ table 0 16 delay disk x 1
  11 BadNumber
  $ table 0 16 delay disk 0 x
  11 BadNumber
  $ table 0 16 delay disk 0 1 disk x 2
  11 BadNumber
  $ table 0 16 delay disk 0 1 disk 0 x
  11 BadNumber
  $ table 0 16 delay disk 0 1 disk 0 2 disk x 3
  11 BadNumber
  $ table 0 16 delay disk 0 1 disk 0 2 disk 0 x
  11 BadNumber
  $ table x 0 delay a 0 1 b 1 2
  11 BadNumber
  $ table 0 16 flakey disk 0 10 5 1 corrupt_bio_byte
  29 BadFeature
  $ table 0 16 flakey disk 0 10 5 2
  29 BadFeature
  $ table 0 16 flakey disk 0 10 5 x
  29 BadFeature
  $ table 0 16 flakey disk 0 10 5 00
  29 BadFeature
  $ table 0 16 flakey disk 0 10 5 1
  29 BadFeature
  $ table 0 16 flakey disk 0 10 5 0 x
  29 BadFeature
  $ table 0 16 flakey disk 0 10 5 0 drop_writes
  29 BadFeature
  $ table 0 16 flakey disk 0 10 5 01 drop_writes
  29 BadFeature
  $ table 0 16 flakey disk 0 10 5 2 drop_writes
  29 BadFeature
  $ table 1 0 flakey disk 0 0 0 1 x
  29 BadFeature
  $ table 1 16 linear disk 0
  12 OutOfRange
  $ table 0 0 error
  12 OutOfRange
  $ table 0 1048577 error
  12 OutOfRange
  $ table 0 18446744073709551615 error
  12 OutOfRange
  $ table 0 16 flakey disk 0 0 0
  12 OutOfRange
  $ table 0 16 flakey disk 0 4294967295 1
  12 OutOfRange
  $ table 0 16 flakey disk 0 4294967296 0
  12 OutOfRange
  $ table 0 16 flakey disk 0 18446744073709551615 1
  12 OutOfRange
  $ table 1 16 flakey disk 0 10 5 1 drop_writes
  12 OutOfRange
  $ table 0 16 dust disk 0 0
  12 OutOfRange
  $ table 0 16 dust disk 0 256
  12 OutOfRange
  $ table 0 16 dust disk 0 513
  12 OutOfRange
  $ table 0 16 dust disk 0 1536
  12 OutOfRange
  $ table 0 16 dust disk 0 2147483648
  12 OutOfRange
  $ table 1 16 dust disk 0 512
  12 OutOfRange
  $ table 0 16 delay disk 0 4294967296
  12 OutOfRange
  $ table 0 16 delay a 0 1 a 0 4294967296
  12 OutOfRange
  $ table 0 16 delay a 0 1 a 0 2 a 0 4294967296
  12 OutOfRange
  $ table 0 16 delay a 0 1 b 0 2
  12 OutOfRange
  $ table 0 16 delay a 0 1 a 1 2
  12 OutOfRange
  $ table 0 16 delay a 0 1 a 0 2 b 0 3
  12 OutOfRange
  $ table 0 16 delay a 0 1 a 0 2 a 1 3
  12 OutOfRange
  $ table 0 16 delay a 0 1 b 0 2 a 0 3
  12 OutOfRange
  $ table 0 0 delay a 0 1
  12 OutOfRange
  $ table
  10 WrongCount
  $ table 0	16	linear	disk	0
  10 WrongCount

What --explain adds to the fault of a layer's line.

  $ write script
  > data 16
  > log 32
  > data-layer 0 16 zero
  $ dmlw --explain record script log
  ! dmlw: line 3: 9 UnknownTarget
  !   line 3 of script: data-layer 0 16 zero
  !   the word `zero` isn't a target: the targets are linear, error, flakey, dust, delay and fuse
  [1]

A line of 100 bytes is shown whole, a longer one is cut after 100:

  $ write script
  > data 16
  > log 32
  > data-layer 0 16 zzzzzzzzzzzzzzzzzzzzzzzzzzzzzzzzzzzzzzzzzzzzzzzzzzzzzzzzzzzzzzzzzzzzzzzzzzzzzzzzzzzz
  $ dmlw --explain record script log
  ! dmlw: line 3: 9 UnknownTarget
  !   line 3 of script: data-layer 0 16 zzzzzzzzzzzzzzzzzzzzzzzzzzzzzzzzzzzzzzzzzzzzzzzzzzzzzzzzzzzzzzzzzzzzzzzzzzzzzzzzzzzz
  !   the word `zzzzzzzzzzzzzzzzzzzzzzzzzzzzzzzzzzzzzzzzzzzzzzzzzzzzzzzzzzzzzzzzzzzzzzzzzzzzzzzzzzzz` isn't a target: the targets are linear, error, flakey, dust, delay and fuse
  [1]
  $ write script
  > data 16
  > log 32
  > data-layer 0 16 zzzzzzzzzzzzzzzzzzzzzzzzzzzzzzzzzzzzzzzzzzzzzzzzzzzzzzzzzzzzzzzzzzzzzzzzzzzzzzzzzzzzz
  $ dmlw --explain record script log
  ! dmlw: line 3: 9 UnknownTarget
  !   line 3 of script: data-layer 0 16 zzzzzzzzzzzzzzzzzzzzzzzzzzzzzzzzzzzzzzzzzzzzzzzzzzzzzzzzzzzzzzzzzzzzzzzzzzzzzzzzzzzz...
  !   the word `zzzzzzzzzzzzzzzzzzzzzzzzzzzzzzzzzzzzzzzzzzzzzzzzzzzzzzzzzzzzzzzzzzzzzzzzzzzzzzzzzzzzz` isn't a target: the targets are linear, error, flakey, dust, delay and fuse
  [1]

The other tests of a line:

  $ write script
  > data 16
  > log 32
  > log-layer 0 16
  $ dmlw --explain record script log
  ! dmlw: line 3: 10 WrongCount
  !   line 3 of script: log-layer 0 16
  !   the layer's line has 2 words after its first, but needs at least 3: 0 <length> <target> ..
  [1]
  $ write script
  > data 16
  > log 32
  > log-layer 0 1x error
  $ dmlw --explain record script log
  ! dmlw: line 3: 11 BadNumber
  !   line 3 of script: log-layer 0 1x error
  !   the word `1x` isn't a decimal number below 2^64: 0 <length> error
  [1]
  $ write script
  > data 16
  > log 32
  > log-layer 0 32 linear disk 1
  $ dmlw --explain record script log
  ! dmlw: line 3: 12 OutOfRange
  !   line 3 of script: log-layer 0 32 linear disk 1
  !   the layer 1+32 ends past the device below it, which has 32 sectors, counted from 0
  [1]
  $ write script
  > data 16
  > log 32
  > log-layer 0 32 flakey disk 0 1 1 2
  $ dmlw --explain record script log
  ! dmlw: line 3: 29 BadFeature
  !   line 3 of script: log-layer 0 32 flakey disk 0 1 1 2
  !   a flakey layer's feature is `0`, or `1` and one of error_reads, error_writes and drop_writes
  [1]
  $ write script
  > data 16
  > log 32
  > log-layer 0 32 linear disk
  $ dmlw --explain record script log
  ! dmlw: line 3: 10 WrongCount
  !   line 3 of script: log-layer 0 32 linear disk
  !   the layer's line has 4 words after its first, but this target takes 5 words: 0 <length> linear <dev> <offset>
  [1]
  $ write script
  > data 16
  > log 32
  > log-layer 0 32 fuse disk 0 1 1
  $ dmlw --explain record script log
  ! dmlw: line 3: 10 WrongCount
  !   line 3 of script: log-layer 0 32 fuse disk 0 1 1
  !   the layer's line has 7 words after its first, but this target takes 6 words: 0 <length> fuse <dev> <offset> <calls>
  [1]
  $ write script
  > data 16
  > log 32
  > log-layer 0 32 delay disk 0 1 disk x 1
  $ dmlw --explain record script log
  ! dmlw: line 3: 11 BadNumber
  !   line 3 of script: log-layer 0 32 delay disk 0 1 disk x 1
  !   the word `x` isn't a decimal number below 2^64: 0 <length> delay <dev> <offset> <ms> [<dev> <offset> <ms> [<dev> <offset> <ms>]]
  [1]
  $ write script
  > data 16
  > log 32
  > log-layer 0 32 flakey disk 0 1 y 1 drop_writes
  $ dmlw --explain record script log
  ! dmlw: line 3: 11 BadNumber
  !   line 3 of script: log-layer 0 32 flakey disk 0 1 y 1 drop_writes
  !   the word `y` isn't a decimal number below 2^64: 0 <length> flakey <dev> <offset> <up> <down> [0 | 1 <feature>]
  [1]
  $ write script
  > data 16
  > log 32
  > log-layer 1 32 linear disk 0
  $ dmlw --explain record script log
  ! dmlw: line 3: 12 OutOfRange
  !   line 3 of script: log-layer 1 32 linear disk 0
  !   the start is 1, but must be 0
  [1]
  $ write script
  > data 16
  > log 32
  > log-layer 0 0 error
  $ dmlw --explain record script log
  ! dmlw: line 3: 12 OutOfRange
  !   line 3 of script: log-layer 0 0 error
  !   the length 0 is out of range: it is 1 to 1048576 sectors
  [1]
  $ write script
  > data 16
  > log 32
  > log-layer 0 32 flakey disk 0 0 0
  $ dmlw --explain record script log
  ! dmlw: line 3: 12 OutOfRange
  !   line 3 of script: log-layer 0 32 flakey disk 0 0 0
  !   the seconds up and down are out of range: together they are 1 to 4294967295
  [1]
  $ write script
  > data 16
  > log 32
  > log-layer 0 32 dust disk 0 513
  $ dmlw --explain record script log
  ! dmlw: line 3: 12 OutOfRange
  !   line 3 of script: log-layer 0 32 dust disk 0 513
  !   the block size 513 is out of range: it is a power of two from 512 to 1073741824
  [1]
  $ write script
  > data 16
  > log 32
  > log-layer 0 32 delay disk 0 1 disk 1 1
  $ dmlw --explain record script log
  ! dmlw: line 3: 12 OutOfRange
  !   line 3 of script: log-layer 0 32 delay disk 0 1 disk 1 1
  !   a delay is at most 4294967295 milliseconds, and all delays of a layer name the same device and offset
  [1]

What each layer passes, fails and drops, call by call, and what stands on the disk beneath, before a crash and after one. A flakey layer is up for 10 seconds of 15.

  $ stack 8
  > layer 0 8 error
  > at 0 write 3 1 01
  > at 0 write 3 1 01 fua
  > at 0 discard 3 2
  > at 0 read 3 1
  > at 0 flush
  > counts
  > off
  > disk
  Io
  Io
  Io
  Io
  Io
  faults 5, lies 0
  4096 bytes
  $ stack 8
  > layer 0 8 fuse disk 0 0
  > at 0 read 3 1
  > at 0 write 3 1 01
  > at 0 discard 3 1
  > at 0 flush
  > at 0 read 3 1
  > counts
  > off
  > disk
  ends at 0: 00
  Io
  Io
  Io
  ends at 0: 00
  faults 3, lies 0
  4096 bytes
  $ stack 8
  > layer 0 8 fuse disk 0 1
  > at 0 read 3 1
  > at 0 write 3 1 01 fua
  > at 0 read 3 1
  > at 0 write 3 1 02
  > at 0 read 3 1
  > at 0 discard 3 1
  > at 0 flush
  > counts
  > off
  > disk
  > crash
  > disk
  ends at 0: 00
  ends at 0
  ends at 0: 01
  Io
  ends at 0: 01
  Io
  Io
  faults 3, lies 0
  4096 bytes
  3: 01*512
  4096 bytes
  3: 01*512
  $ stack 8
  > layer 0 8 fuse disk 0 2
  > at 0 write 3 1 01
  > at 0 flush
  > at 0 read 3 1
  > at 0 write 3 1 02
  > at 0 read 3 1
  > counts
  > off
  > crash
  > disk
  ends at 0
  ends at 0
  ends at 0: 01
  Io
  ends at 0: 01
  faults 1, lies 0
  4096 bytes
  3: 01*512
  $ stack 8
  > layer 0 8 flakey disk 0 10 5
  > at 9999 write 3 1 01
  > at 10000 write 3 1 02
  > at 10000 read 3 1
  > at 10000 discard 3 1
  > at 10000 flush
  > at 14999 flush
  > at 15000 read 3 1
  > counts
  > off
  > disk
  ends at 9999
  Io
  Io
  Io
  Io
  Io
  ends at 15000: 01
  faults 5, lies 0
  4096 bytes
  3: 01*512
  $ stack 8
  > layer@3000 0 8 flakey disk 0 10 5
  > at 1000 write 3 1 01
  > at 12999 flush
  > at 13000 write 3 1 02
  > at 17999 flush
  > at 18000 read 3 1
  > counts
  > off
  > disk
  ends at 1000
  ends at 12999
  Io
  Io
  ends at 18000: 01
  faults 2, lies 0
  4096 bytes
  3: 01*512
  $ stack 8
  > layer 0 8 flakey disk 0 10 5 1 error_reads
  > at 0 write 3 1 01
  > at 10000 write 3 1 02
  > at 10000 flush
  > at 10000 read 3 1
  > at 10000 discard 4 1
  > at 15000 read 3 1
  > counts
  > off
  > crash
  > disk
  ends at 0
  ends at 10000
  ends at 10000
  Io
  ends at 10000
  ends at 15000: 02
  faults 1, lies 0
  4096 bytes
  3: 02*512
  $ stack 8
  > layer 0 8 flakey disk 0 10 5 1 error_writes
  > at 0 write 3 1 01
  > at 10000 write 3 1 02
  > at 10000 discard 3 1
  > at 10000 flush
  > at 10000 read 3 1
  > at 15000 write 4 1 02
  > counts
  > off
  > disk
  ends at 0
  Io
  Io
  Io
  ends at 10000: 01
  ends at 15000
  faults 3, lies 0
  4096 bytes
  3: 01*512
  4: 02*512
  $ stack 8
  > layer 0 8 flakey disk 0 10 5 1 drop_writes
  > at 0 write 3 1 01
  > at 10000 write 3 1 02
  > at 10000 write 3 1 02 fua
  > at 10000 discard 3 1
  > at 10000 flush
  > at 10000 read 3 1
  > at 15000 read 3 1
  > counts
  > off
  > disk
  > crash
  > disk
  ends at 0
  ends at 10000
  ends at 10000
  ends at 10000
  ends at 10000
  ends at 10000: 01
  ends at 15000: 01
  faults 0, lies 4
  4096 bytes
  3: 01*512
  4096 bytes
  $ stack 8
  > layer 0 8 flakey disk 0 0 4294967295
  > at 0 write 3 1 01
  > at 18446744073709551615 write 3 1 01
  > at 18446744073709551615 flush
  > counts
  > off
  > disk
  Io
  Io
  Io
  faults 3, lies 0
  4096 bytes
  $ image eight 4096 0:=01*512 512:=02*512 1024:=03*512 1536:=04*512 2048:=05*512 2560:=06*512 3072:=07*512 3584:=08*512
  $ stack eight
  > layer 0 4 linear disk 2
  > at 0 write 0 1 01
  > at 0 write 1 1 02 fua
  > at 0 write 2 1 03
  > at 0 discard 3 1
  > at 0 read 1 1
  > at 7 flush
  > at 7 write 0 1 04
  > counts
  > off
  > disk
  > crash
  > disk
  ends at 0
  ends at 0
  ends at 0
  ends at 0
  ends at 0: 02
  ends at 7
  ends at 7
  faults 0, lies 0
  4096 bytes
  0: 01*512
  1: 02*512
  2: 04*512
  3: 02*512
  4: 03*512
  6: 07*512
  7: 08*512
  4096 bytes
  0: 01*512
  1: 02*512
  2: 01*512
  3: 02*512
  4: 03*512
  6: 07*512
  7: 08*512
  $ stack 8
  > layer 0 8 fuse disk 0 1
  > layer 0 8 flakey disk 0 10 5 1 drop_writes
  > at 0 write 3 1 01
  > at 0 write 3 1 02
  > at 10000 write 3 1 03
  > at 15000 read 3 1
  > at 15000 write 3 1 04
  > counts
  > off
  > disk
  ends at 0
  Io
  ends at 10000
  ends at 15000: 01
  Io
  faults 2, lies 1
  4096 bytes
  3: 01*512
  $ stack 8
  > layer 0 8 flakey disk 0 10 5 1 drop_writes
  > layer 0 8 fuse disk 0 1
  > at 10000 write 3 1 03
  > at 10000 write 3 1 04
  > at 15000 read 3 1
  > counts
  > off
  > disk
  ends at 10000
  Io
  ends at 15000: 00
  faults 1, lies 1
  4096 bytes
  $ image eight 4096 0:=01*512 512:=02*512 1024:=03*512 1536:=04*512 2048:=05*512 2560:=06*512 3072:=07*512 3584:=08*512
  $ stack eight
  > layer 0 4 linear disk 2
  > layer 0 1 linear disk 1
  > at 0 write 0 1 01
  > at 0 write 0 1 02 fua
  > at 0 read 0 1
  > counts
  > off
  > disk
  > crash
  > disk
  ends at 0
  ends at 0
  ends at 0: 02
  faults 0, lies 0
  4096 bytes
  0: 01*512
  1: 02*512
  2: 03*512
  3: 02*512
  4: 05*512
  5: 06*512
  6: 07*512
  7: 08*512
  4096 bytes
  0: 01*512
  1: 02*512
  2: 03*512
  3: 02*512
  4: 05*512
  5: 06*512
  6: 07*512
  7: 08*512

A delay of reads, of writes and discards, and of flushes; moments stop at the last one. Then one of flushes alone, over a flakey layer.

  $ stack 1
  > layer 0 1 delay disk 0 10 disk 0 20 disk 0 30
  > at 100 write 0 1 01
  > at 100 read 0 1
  > at 100 discard 0 1
  > at 100 flush
  > at 18446744073709551610 flush
  > counts
  ends at 120
  ends at 110: 01
  ends at 120
  ends at 130
  ends at 18446744073709551615
  faults 0, lies 0
  $ stack 1
  > layer 0 1 flakey disk 0 10 5
  > layer 0 1 delay disk 0 0 disk 0 0 disk 0 20
  > at 9979 flush
  > at 9980 flush
  > counts
  ends at 9999
  Io
  faults 1, lies 0
