Texts of scripts, as they are read and printed again.

  $ escaped script
  > \
  $ print script
  line 1: 30 BadLine
  $ write script
  >
  > # nothing
  $ print script
  line 3: 30 BadLine
  $ escaped script
  > data 16\
  $ print script
  line 2: 30 BadLine
  $ write script
  > data 16
  $ print script
  line 2: 30 BadLine
  $ escaped script
  > data 16
  > log 32\
  $ print script
  data 16
  log 32
  $ write script
  > log 32
  > data 16
  $ print script
  line 1: 30 BadLine
  $ write script
  > data 16
  > data 16
  > log 32
  $ print script
  line 2: 30 BadLine
  $ write script
  > data 16
  > f a
  > log 32
  $ print script
  line 2: 30 BadLine
  $ write script
  > data 16
  > log 32
  > log 32
  $ print script
  line 3: 30 BadLine
  $ write script
  > data 16
  > log 32
  >
  > data 16
  $ print script
  line 4: 30 BadLine
  $ write script
  > data 0
  > log 32
  $ print script
  line 1: 30 BadLine
  $ write script
  > data 1048577
  > log 32
  $ print script
  line 1: 30 BadLine
  $ write script
  > data 1048576
  > log 1048576
  $ print script
  data 1048576
  log 1048576
  $ write script
  > data 1
  > log 1048577
  $ print script
  line 2: 30 BadLine
  $ write script
  > data 1
  > log 0
  $ print script
  line 2: 30 BadLine
  $ write script
  > data 1
  > log 1 
  $ print script
  line 2: 30 BadLine
  $ write script
  > data
  > log 1
  $ print script
  line 1: 30 BadLine
  $ escaped script
  > data 16\r
  > log 32\r
  $ print script
  line 1: 30 BadLine
  $ escaped script
  > data\t16
  > log 32
  $ print script
  line 1: 30 BadLine
  $ escaped script
  > #\tok\r
  > data 16
  > log 32
  $ print script
  data 16
  log 32
  $ escaped script
  > # \xc3\xa9
  > data 16
  > log 32
  $ print script
  line 1: 30 BadLine
  $ escaped script
  > data 16
  > #\0
  > log 32
  $ print script
  line 2: 30 BadLine
  $ write script
  >  # no comment
  > data 16
  > log 32
  $ print script
  line 1: 30 BadLine
  $ write script
  > data 16
  > log 32
  >  
  $ print script
  line 3: 30 BadLine
  $ escaped script
  > data 16
  > log 32
  > w a 5 1 41
  > f b
  > c b
  > c a
  > close
  > close
  > f c\
  $ print script
  data 16
  log 32
  w a 5 1 41
  f b
  c b
  c a
  close
  close
  f c
  $ write script
  > data 16
  > log 32
  > w a 5 1
  $ print script
  line 3: 30 BadLine
  $ escaped script
  > data 16
  > log 32
  > w a 0 1 41 meta
  > w b 1 1 41 fua
  > w c 2 1 41 fua meta
  > w d 3 1 41 flush
  > w e 4 1 41 flush meta
  > w f 5 1 41 flush fua
  > w g 6 1 41 flush fua meta
  > w h 07 01 ff\
  $ print script
  data 16
  log 32
  w a 0 1 41 meta
  w b 1 1 41 fua
  w c 2 1 41 fua meta
  w d 3 1 41 flush
  w e 4 1 41 flush meta
  w f 5 1 41 flush fua
  w g 6 1 41 flush fua meta
  w h 7 1 ff
  $ write script
  > data 16
  > log 32
  > w a 5 1 41 fua flush
  $ print script
  line 3: 30 BadLine
  $ write script
  > data 16
  > log 32
  > w a 5 1 41 meta fua
  $ print script
  line 3: 30 BadLine
  $ write script
  > data 16
  > log 32
  > w a 5 1 41 meta flush
  $ print script
  line 3: 30 BadLine
  $ write script
  > data 16
  > log 32
  > w a 5 1 41 flush flush
  $ print script
  line 3: 30 BadLine
  $ write script
  > data 16
  > log 32
  > w a 5 1 41 fua fua
  $ print script
  line 3: 30 BadLine
  $ write script
  > data 16
  > log 32
  > w a 5 1 41 flush fua meta meta
  $ print script
  line 3: 30 BadLine
  $ write script
  > data 16
  > log 32
  > w a 5 1 41 sync
  $ print script
  line 3: 30 BadLine
  $ write script
  > data 16
  > log 32
  > w a 5 1 41 fu
  $ print script
  line 3: 30 BadLine
  $ write script
  > data 16
  > log 32
  > w a 5 1 41 fuaa
  $ print script
  line 3: 30 BadLine
  $ write script
  > data 16
  > log 32
  > w a 5 1 41 FUA
  $ print script
  line 3: 30 BadLine
  $ write script
  > data 16
  > log 32
  > w a 5 1 41  fua
  $ print script
  line 3: 30 BadLine
  $ write script
  > data 16
  > log 32
  > w a 5 1 41 flush  fua
  $ print script
  line 3: 30 BadLine
  $ write script
  > data 16
  > log 32
  > w a 5 1 41 fua 
  $ print script
  line 3: 30 BadLine
  $ write script
  > data 16
  > log 32
  > w a 5 1 fua
  $ print script
  line 3: 30 BadLine
  $ write script
  > data 16
  > log 32
  > w a 15 2 41 fua
  $ print script
  line 3: 3 PastEnd
  $ write script
  > data 16
  > log 32
  > w a 15 2 41 fua flush
  $ print script
  line 3: 30 BadLine
  $ write script
  > data 16
  > log 32
  > w  a 5 1 41
  $ print script
  line 3: 30 BadLine
  $ write script
  > data 16
  > log 32
  > w a 5 1 41 
  $ print script
  line 3: 30 BadLine
  $ write script
  > data 16
  > log 32
  > w a 5 1 4A
  $ print script
  line 3: 30 BadLine
  $ write script
  > data 16
  > log 32
  > w a 5 1 4
  $ print script
  line 3: 30 BadLine
  $ write script
  > data 16
  > log 32
  > w a 5 1 041
  $ print script
  line 3: 30 BadLine
  $ write script
  > data 16
  > log 32
  > w a 5 1 4g
  $ print script
  line 3: 30 BadLine
  $ write script
  > data 16
  > log 32
  > w a 05 0001 ff
  $ print script
  data 16
  log 32
  w a 5 1 ff
  $ write script
  > data 16
  > log 32
  > w a 5x 1 41
  $ print script
  line 3: 30 BadLine
  $ write script
  > data 16
  > log 32
  > w a  1 41
  $ print script
  line 3: 30 BadLine
  $ write script
  > data 16
  > log 32
  > f
  $ print script
  line 3: 30 BadLine
  $ write script
  > data 16
  > log 32
  > f 
  $ print script
  line 3: 30 BadLine
  $ write script
  > data 16
  > log 32
  > f a b
  $ print script
  line 3: 30 BadLine
  $ write script
  > data 16
  > log 32
  > f A
  $ print script
  line 3: 30 BadLine
  $ write script
  > data 16
  > log 32
  > f a_b
  $ print script
  line 3: 30 BadLine
  $ write script
  > data 16
  > log 32
  > f 0123456789abcdez
  $ print script
  data 16
  log 32
  f 0123456789abcdez
  $ write script
  > data 16
  > log 32
  > f 0123456789abcdefg
  $ print script
  line 3: 30 BadLine
  $ escaped script
  > data 16
  > log 32
  > d a 0015 01
  > c a
  > d b 0 16\
  $ print script
  data 16
  log 32
  d a 15 1
  c a
  d b 0 16
  $ write script
  > data 16
  > log 32
  > d
  $ print script
  line 3: 30 BadLine
  $ write script
  > data 16
  > log 32
  > d a
  $ print script
  line 3: 30 BadLine
  $ write script
  > data 16
  > log 32
  > d a 1
  $ print script
  line 3: 30 BadLine
  $ write script
  > data 16
  > log 32
  > d a 1 1 00
  $ print script
  line 3: 30 BadLine
  $ write script
  > data 16
  > log 32
  > d a 1 1 fua
  $ print script
  line 3: 30 BadLine
  $ write script
  > data 16
  > log 32
  > d a 1 1 
  $ print script
  line 3: 30 BadLine
  $ write script
  > data 16
  > log 32
  > d a 1  1
  $ print script
  line 3: 30 BadLine
  $ write script
  > data 16
  > log 32
  > d A 1 1
  $ print script
  line 3: 30 BadLine
  $ write script
  > data 16
  > log 32
  > d a x 1
  $ print script
  line 3: 30 BadLine
  $ write script
  > data 16
  > log 32
  > d a 1 18446744073709551616
  $ print script
  line 3: 30 BadLine
  $ write script
  > data 16
  > log 32
  > d a 15 2
  $ print script
  line 3: 3 PastEnd
  $ write script
  > data 4096
  > log 32
  > d a 0 2048
  > d b 0 2049
  $ print script
  line 4: 4 TooLong
  $ write script
  > data 16
  > log 32
  > d a 99 0
  $ print script
  line 3: 5 NotWhole
  $ write script
  > data 16
  > log 32
  > f a
  > d a 0 1
  $ print script
  line 4: 31 BadId
  $ escaped script
  > data 16
  > log 32
  > mark here
  > mark 
  > mark  two  spaces 
  > mark # no comment
  > #mark a comment
  > mark  
  > mark Upper-Case 0..9 ~ \t \x01 \x7f
  > mark mark\
  $ print script
  data 16
  log 32
  mark here
  mark 
  mark  two  spaces 
  mark # no comment
  mark  
  mark Upper-Case 0..9 ~ 	  
  mark mark
  $ write script
  > data 16
  > log 32
  > mark
  $ print script
  line 3: 30 BadLine
  $ write script
  > data 16
  > log 32
  > markx
  $ print script
  line 3: 30 BadLine
  $ write script
  > data 16
  > log 32
  > markx y
  $ print script
  line 3: 30 BadLine
  $ write script
  > data 16
  > log 32
  > Mark here
  $ print script
  line 3: 30 BadLine
  $ write script
  > data 16
  > log 32
  >  mark here
  $ print script
  line 3: 30 BadLine
  $ escaped script
  > data 16
  > log 32
  > mark\there
  $ print script
  line 3: 30 BadLine
  $ escaped script
  > data 16
  > log 32
  > mark a\0b
  $ print script
  line 3: 30 BadLine
  $ escaped script
  > data 16
  > log 32
  > mark caf\xc3\xa9
  $ print script
  line 3: 30 BadLine
  $ write script
  > mark here
  > data 16
  > log 32
  $ print script
  line 1: 30 BadLine
  $ write script
  > data 16
  > mark here
  > log 32
  $ print script
  line 2: 30 BadLine
  $ write script
  > data 16
  > log 32
  > crash
  > mark here
  $ print script
  line 4: 30 BadLine
  $ write script
  > data 16
  > log 32
  > close now
  $ print script
  line 3: 30 BadLine
  $ escaped script
  > data 16
  > log 32
  > turn
  > r 15 1
  > r 00 016
  > close
  > turn\
  $ print script
  data 16
  log 32
  turn
  r 15 1
  r 0 16
  close
  turn
  $ escaped script
  > data 16
  > log 32
  > crash\
  $ print script
  data 16
  log 32
  crash
  $ write script
  > data 16
  > log 32
  > f a
  > c a
  > crash 1 01 1
  > # the end
  >
  $ print script
  data 16
  log 32
  f a
  c a
  crash 1 1 1
  $ write script
  > data 16
  > log 32
  > crash 18446744073709551615
  $ print script
  data 16
  log 32
  crash 18446744073709551615
  $ write script
  > data 16
  > log 32
  > crash 18446744073709551616
  $ print script
  line 3: 30 BadLine
  $ write script
  > data 16
  > log 32
  > crash  1
  $ print script
  line 3: 30 BadLine
  $ write script
  > data 16
  > log 32
  > crash 1 
  $ print script
  line 3: 30 BadLine
  $ write script
  > data 16
  > log 32
  > crash 
  $ print script
  line 3: 30 BadLine
  $ write script
  > data 16
  > log 32
  > crash 1 a 2
  $ print script
  line 3: 30 BadLine
  $ write script
  > data 16
  > log 32
  > crash1
  $ print script
  line 3: 30 BadLine
  $ write script
  > data 16
  > crash 1
  > log 32
  $ print script
  line 2: 30 BadLine
  $ write script
  > crash
  $ print script
  line 1: 30 BadLine
  $ write script
  > data 16
  > log 32
  > crash
  > crash 1
  $ print script
  line 4: 30 BadLine
  $ write script
  > data 16
  > log 32
  > crash 1
  > #
  > close
  $ print script
  line 5: 30 BadLine
  $ write script
  > data 16
  > log 32
  > crash 1
  > log 32
  $ print script
  line 4: 30 BadLine
  $ write script
  > data 16
  > log 32
  > turn x
  $ print script
  line 3: 30 BadLine
  $ write script
  > data 16
  > log 32
  > r
  $ print script
  line 3: 30 BadLine
  $ write script
  > data 16
  > log 32
  > r 1
  $ print script
  line 3: 30 BadLine
  $ write script
  > data 16
  > log 32
  > r 1 2 3
  $ print script
  line 3: 30 BadLine
  $ write script
  > data 16
  > log 32
  > r 1 
  $ print script
  line 3: 30 BadLine
  $ write script
  > data 16
  > log 32
  > r 15 2
  $ print script
  line 3: 3 PastEnd
  $ write script
  > data 4096
  > log 32
  > r 0 2048
  > r 0 2049
  $ print script
  line 4: 4 TooLong
  $ write script
  > data 16
  > log 32
  > r 99 0
  $ print script
  line 3: 5 NotWhole
  $ write script
  > data 16
  > log 32
  > r 1 18446744073709551616
  $ print script
  line 3: 30 BadLine
  $ write script
  > data 16
  > log 32
  > f a
  > c a
  > f a
  $ print script
  line 5: 31 BadId
  $ write script
  > data 16
  > log 32
  > f a
  > w a 99 0 00
  $ print script
  line 4: 31 BadId
  $ write script
  > data 16
  > log 32
  > f a
  > c a
  > c a
  $ print script
  line 5: 31 BadId
  $ write script
  > data 16
  > log 32
  > f ab
  > c a
  $ print script
  line 4: 31 BadId
  $ write script
  > data 16
  > log 32
  > w a 0 00 00
  $ print script
  line 3: 5 NotWhole
  $ write script
  > data 16
  > log 32
  > w a 0 2049 00
  $ print script
  line 3: 4 TooLong
  $ write script
  > data 16
  > log 32
  > w a 0 17 00
  $ print script
  line 3: 3 PastEnd
  $ write script
  > data 16
  > log 32
  > #
  >
  > w a 15 2 00
  $ print script
  line 5: 3 PastEnd
  $ write script
  > data 16
  > log 32
  > w a 18446744073709551615 1 00
  $ print script
  line 3: 3 PastEnd
  $ write script
  > data 16
  > log 32
  > w a 18446744073709551616 1 00
  $ print script
  line 3: 30 BadLine
  $ write script
  > data 16
  > log 32
  > w a 18446744073709551621 1 00
  $ print script
  line 3: 30 BadLine
  $ write script
  > data 16
  > log 32
  > w a 00000000000000000015 1 00
  $ print script
  data 16
  log 32
  w a 15 1 00
  $ write script
  > data 16
  > log 32
  > w a 000000000000000000015 1 00
  $ print script
  line 3: 30 BadLine
  $ write script
  > # a comment of more than eighty characters, as one may be that says what is done here, and why
  > data 16
  > log 32
  > w 0123456789abcdez 00000000000000000005 00000000000000000001 41
  $ print script
  data 16
  log 32
  w 0123456789abcdez 5 1 41

The log's sectors are of 512 bytes, or of 4,096 where the line of its disk ends by that number; of that size its disk has one at least.

  $ write script
  > data 16
  > log 256 4096
  > w a 8 8 41
  > d b 0 16
  > r 8 8
  > f c
  > close
  $ print script
  data 16
  log 256 4096
  w a 8 8 41
  d b 0 16
  r 8 8
  f c
  close
  $ write script
  > data 16
  > log 008 4096
  $ print script
  data 16
  log 8 4096
  $ write script
  > data 16
  > log 1048576 4096
  $ print script
  data 16
  log 1048576 4096
  $ write script
  > data 16
  > log 7 4096
  $ print script
  line 2: 30 BadLine
  $ write script
  > data 16
  > log 0 4096
  $ print script
  line 2: 30 BadLine
  $ write script
  > data 16
  > log 1048577 4096
  $ print script
  line 2: 30 BadLine
  $ write script
  > data 16
  > log 8 512
  $ print script
  line 2: 30 BadLine
  $ write script
  > data 16
  > log 8 1024
  $ print script
  line 2: 30 BadLine
  $ write script
  > data 16
  > log 8 04096
  $ print script
  line 2: 30 BadLine
  $ write script
  > data 16
  > log 8 4096 x
  $ print script
  line 2: 30 BadLine
  $ write script
  > data 16
  > log 8 4096 
  $ print script
  line 2: 30 BadLine
  $ write script
  > data 16
  > log 8  4096
  $ print script
  line 2: 30 BadLine
  $ write script
  > data 16
  > log 8 x
  $ print script
  line 2: 30 BadLine
  $ write script
  > data 16 4096
  > log 8
  $ print script
  line 1: 30 BadLine

A layer of the log's disk has room for one of its sectors too: that is tested behind all else of its line.

  $ write script
  > data 16
  > log 16 4096
  > data-layer 0 7 error
  > log-layer 0 9 linear disk 7
  > log-layer 0 8 error
  $ print script
  data 16
  log 16 4096
  data-layer 0 7 error
  log-layer 0 9 linear disk 7
  log-layer 0 8 error
  $ write script
  > data 16
  > log 16 4096
  > log-layer 0 7 error
  $ print script
  line 3: 30 BadLine
  $ write script
  > data 16
  > log 16 4096
  > log-layer 0 9 error
  > log-layer 0 7 linear disk 2
  $ print script
  line 4: 30 BadLine
  $ write script
  > data 16
  > log 8 4096
  > log-layer 0 7 linear disk 2
  $ print script
  line 3: 12 OutOfRange
  $ write script
  > data 16
  > log 16 4096
  > log-layer 0 7 zero
  $ print script
  line 3: 9 UnknownTarget
  $ write script
  > data 16
  > log 16 4096
  > log-layer 0 7
  $ print script
  line 3: 10 WrongCount
  $ write script
  > data 16
  > log 16
  > log-layer 0 1 error
  $ print script
  data 16
  log 16
  log-layer 0 1 error

A request begins and ends at a sector of the log, a read too: that is tested behind the other tests of its sectors.

  $ write script
  > data 16
  > log 8 4096
  > w a 8 7 41
  $ print script
  line 3: 28 Unaligned
  $ write script
  > data 16
  > log 8 4096
  > w a 7 8 41
  $ print script
  line 3: 28 Unaligned
  $ write script
  > data 16
  > log 8 4096
  > w a 8 1 41
  $ print script
  line 3: 28 Unaligned
  $ write script
  > data 16
  > log 8 4096
  > d a 0 4
  $ print script
  line 3: 28 Unaligned
  $ write script
  > data 16
  > log 8 4096
  > r 4 8
  $ print script
  line 3: 28 Unaligned
  $ write script
  > data 16
  > log 8 4096
  > r 0 15
  $ print script
  line 3: 28 Unaligned
  $ write script
  > data 16
  > log 8 4096
  > w a 8 9 41
  $ print script
  line 3: 3 PastEnd
  $ write script
  > data 16
  > log 8 4096
  > w a 7 0 41
  $ print script
  line 3: 5 NotWhole
  $ write script
  > data 4096
  > log 8 4096
  > d a 0 2048
  > d b 7 2049
  $ print script
  line 4: 4 TooLong
  $ write script
  > data 16
  > log 8 4096
  > f a
  > w a 8 7 41
  $ print script
  line 4: 31 BadId
  $ write script
  > data 20
  > log 8 4096
  > w a 8 8 41
  > w b 16 4 41
  $ print script
  line 4: 28 Unaligned
  $ write script
  > data 20
  > log 8 4096
  > data-layer 0 16 linear disk 3
  > w a 8 8 41
  > r 1 8
  $ print script
  line 5: 28 Unaligned
  $ dmlw record script log
  ! dmlw: line 5: 28 Unaligned
  [1]
  $ write script
  > data 16
  > log 8
  > w a 8 7 41
  > r 4 8
  > d b 0 1
  $ print script
  data 16
  log 8
  w a 8 7 41
  r 4 8
  d b 0 1
What --explain adds about a line that begins like no line.

  $ write script
  > data 16
  > log 32
  > markx
  $ dmlw --explain record script log
  ! dmlw: line 3: 30 BadLine
  !   line 3 of script: markx
  !   no line begins with the word `markx`; the lines are:
  !     data <sectors>
  !     log <sectors> [4096]
  !     data-layer 0 <length> <target> ..
  !     log-layer 0 <length> <target> ..
  !     at <ms>
  !     w <id> <first> <count> <byte> [flush] [fua] [meta]
  !     f <id>
  !     d <id> <first> <count>
  !     c <id>
  !     r <first> <count>
  !     turn
  !     mark <text>
  !     message <disk> <layer> <text>
  !     close
  !     crash <pick> ..
  [1]
  $ write script
  > data 16
  > log 32
  > write a 5 1 41
  $ dmlw --explain record script log
  ! dmlw: line 3: 30 BadLine
  !   line 3 of script: write a 5 1 41
  !   no line begins with the word `write`; the lines are:
  !     data <sectors>
  !     log <sectors> [4096]
  !     data-layer 0 <length> <target> ..
  !     log-layer 0 <length> <target> ..
  !     at <ms>
  !     w <id> <first> <count> <byte> [flush] [fua] [meta]
  !     f <id>
  !     d <id> <first> <count>
  !     c <id>
  !     r <first> <count>
  !     turn
  !     mark <text>
  !     message <disk> <layer> <text>
  !     close
  !     crash <pick> ..
  [1]
  $ write script
  > data 16
  > log 32
  > seats 1
  > s0 f
  $ dmlw --explain record script log
  ! dmlw: line 3: 30 BadLine
  !   line 3 of script: seats 1
  !   this line belongs to a script of `dmlw run`, not of `dmlw record`
  [1]
  $ write script
  > data 16
  > log 32
  > seats 1
  > w a 5 1 41
  $ dmlw --explain run script log
  ! dmlw: line 4: 30 BadLine
  !   line 4 of script: w a 5 1 41
  !   this line belongs to a script of `dmlw record`, not of `dmlw run`
  !   no line begins like this; a script of seats has these lines, and its first seat is s0:
  !     data <sectors>
  !     log <sectors> [4096]
  !     seats <n>
  !     data-layer 0 <length> <target> ..
  !     log-layer 0 <length> <target> ..
  !     s<k> w <first> <count> <byte> [flush] [fua] [meta]
  !     s<k> f
  !     s<k> d <first> <count>
  !     s<k> mark <text>
  [1]
