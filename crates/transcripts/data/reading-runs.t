Texts of scripts of `run`, as they are read.

  $ escaped script
  > \
  $ print-run script
  line 1: 30 BadLine
  $ write script
  > data 16
  > log 32
  $ print-run script
  line 3: 30 BadLine
  $ write script
  > data 16
  > #
  > log 32
  >
  > # here
  > f a
  $ print-run script
  line 6: 30 BadLine
  $ write script
  > data 16
  > log 32
  > crash 1
  $ print-run script
  line 3: 30 BadLine
  $ write script
  > crash
  $ print-run script
  line 1: 30 BadLine
  $ write script
  > data 16
  > log 32
  > data-layer 0 16 linear disk 0
  > log-layer 0 32 error
  $ print-run script
  line 3: 30 BadLine
  $ write script
  > data 16
  > log 32
  > data-layer 0 16 linear disk 0
  > f a
  $ print-run script
  line 3: 30 BadLine
  $ write script
  > data 16
  > log 32
  > at 5
  $ print-run script
  line 3: 30 BadLine
  $ write script
  > data 16
  > log 32
  > message data 1 enable
  $ print-run script
  line 3: 30 BadLine
  $ write script
  > data 16
  > log 32
  > data-layer 0 16 zero
  $ print-run script
  line 3: 30 BadLine
  $ write script
  > data 16
  > log 32
  > log-layer 0 33 error
  $ print-run script
  line 3: 30 BadLine
  $ write script
  > data 16
  > log 32
  > log-layer 0 1 error
  > data-layer 0 1 error
  $ print-run script
  line 3: 30 BadLine

The head of a run's script has the number of seats behind both disks, and layers behind that. Each script has one text.

  $ write script
  > data 16
  > log 64
  > seats 2
  > s0 w 1 1 11
  > s0 f
  > s1 w 2 1 22
  $ print-run script
  data 16
  log 64
  seats 2
  s0 w 1 1 11
  s0 f
  s1 w 2 1 22
  $ escaped script
  > # two seats\n\ndata 016\nlog 0064 4096\nseats 02\ndata-layer 0   16 linear x 0\nlog-layer 0 64 delay disk 0 5\ns01 w 8 08 0a flush fua meta\n#\ns0 mark \ns1 mark a  b \ns0 d 8 8
  $ print-run script
  data 16
  log 64 4096
  seats 2
  data-layer 0 16 linear disk 0
  log-layer 0 64 delay disk 0 5
  s1 w 8 8 0a flush fua meta
  s0 mark 
  s1 mark a  b 
  s0 d 8 8
  $ print script
  line 5: 30 BadLine
  $ write script
  > data 16
  > log 32
  > seats 0
  $ print-run script
  line 3: 30 BadLine
  $ write script
  > data 16
  > log 32
  > seats 65
  $ print-run script
  line 3: 30 BadLine
  $ write script
  > data 16
  > log 32
  > seats 64
  > s63 f
  > s64 f
  $ print-run script
  line 5: 30 BadLine
  $ write script
  > data 16
  > log 32
  > seats 1
  > seats 1
  $ print-run script
  line 4: 30 BadLine
  $ write script
  > data 16
  > seats 1
  > log 32
  $ print-run script
  line 2: 30 BadLine
  $ write script
  > data 16
  > log 32
  > seats 1
  > data-layer 0 8 linear disk 0
  > s0 w 8 1 11
  $ print-run script
  line 5: 3 PastEnd
  $ write script
  > data 16
  > log 32
  > seats 1
  > data-layer 0 16 linear disk 1
  $ print-run script
  line 4: 12 OutOfRange
  $ write script
  > data 16
  > log 32
  > seats 1
  > data-layer 0 16 strange disk 1
  $ print-run script
  line 4: 9 UnknownTarget
  $ write script
  > data 16
  > log 32 4096
  > seats 1
  > log-layer 0 7 linear disk 0
  $ print-run script
  line 4: 30 BadLine
  $ write script
  > data 16
  > log 32 4096
  > seats 1
  > s0 w 8 4 11
  $ print-run script
  line 4: 28 Unaligned
  $ write script
  > data 16
  > log 32
  > seats 1
  > s0 f
  > data-layer 0 16 linear disk 0
  $ print-run script
  line 5: 30 BadLine
  $ write script
  > data 16
  > log 32
  > seats 1
  > c a
  $ print-run script
  line 4: 30 BadLine
  $ write script
  > data 16
  > log 32
  > seats 1
  > close
  $ print-run script
  line 4: 30 BadLine
  $ write script
  > data 16
  > log 32
  > seats 1
  > s0 w 0 2049 11
  $ print-run script
  line 4: 4 TooLong
  $ write script
  > data 16
  > log 32
  > seats 1
  > s0 w 0 0 11
  $ print-run script
  line 4: 5 NotWhole
  $ write script
  > data 16
  > log 32
  > seats 1
  > s0 mark
  $ print-run script
  line 4: 30 BadLine
  $ write script
  > data 16
  > log 32
  > seats 1
  > s0 w 1 1 11 fua flush
  $ print-run script
  line 4: 30 BadLine
