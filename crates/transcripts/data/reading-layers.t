Texts of scripts with layers, moments and messages, as they are read and printed again.

  $ write script
  > data 16
  > log 32
  > data-layer 0 16 linear disk 0
  > log-layer 0 8 fuse disk 24 5
  > log-layer 0 4 flakey disk 4 10 5
  $ print script
  data 16
  log 32
  data-layer 0 16 linear disk 0
  log-layer 0 8 fuse disk 24 5
  log-layer 0 4 flakey disk 4 10 5
  $ write script
  > data 16
  > log 32
  > # over it
  > data-layer   00  016   linear any-word 000
  >
  > log-layer 0 32 flakey any-word 0 10 5 0
  > log-layer 0 32 error
  $ print script
  data 16
  log 32
  data-layer 0 16 linear disk 0
  log-layer 0 32 flakey disk 0 10 5
  log-layer 0 32 error
  $ write script
  > data 16
  > log 32
  > data-layer 0 4 linear disk 1
  > data-layer 0 4 flakey disk 0 10 5 1 error_reads
  > data-layer 0 4 fuse disk 0 18446744073709551615
  > data-layer 0 3 linear disk 1
  > log-layer 0 32 error
  > log-layer 0 31 flakey disk 1 0 1 1 error_writes
  > log-layer 0 31 linear disk 0
  > log-layer 0 1 flakey disk 30 4294967295 0 1 drop_writes
  > close
  $ print script
  data 16
  log 32
  data-layer 0 4 linear disk 1
  data-layer 0 4 flakey disk 0 10 5 1 error_reads
  data-layer 0 4 fuse disk 0 18446744073709551615
  data-layer 0 3 linear disk 1
  log-layer 0 32 error
  log-layer 0 31 flakey disk 1 0 1 1 error_writes
  log-layer 0 31 linear disk 0
  log-layer 0 1 flakey disk 30 4294967295 0 1 drop_writes
  close
  $ write script
  > data 16
  > log 32
  > data-layer 0 1 error
  > data-layer 0 1 error
  > data-layer 0 1 error
  > data-layer 0 1 error
  > data-layer 0 1 error
  $ print script
  line 7: 30 BadLine
  $ write script
  > data 16
  > log 32
  > data-layer 0 1 error
  > data-layer 0 1 error
  > data-layer 0 1 error
  > data-layer 0 1 error
  > data-layer 0 16 zero
  $ print script
  line 7: 30 BadLine
  $ write script
  > data 16
  > log 32
  > log-layer 0 1 error
  > log-layer 0 1 error
  > log-layer 0 1 error
  > log-layer 0 1 error
  > log-layer 0 1 linear disk 1
  $ print script
  line 7: 30 BadLine
  $ write script
  > data 16
  > log 32
  > log-layer 0 1 error
  > data-layer 0 1 error
  $ print script
  line 4: 30 BadLine
  $ write script
  > data 16
  > log 32
  > log-layer 0 1 error
  > data-layer 0 x error
  $ print script
  line 4: 30 BadLine
  $ write script
  > data 16
  > data-layer 0 1 error
  > log 32
  $ print script
  line 2: 30 BadLine
  $ write script
  > data-layer 0 16
  > data 16
  > log 32
  $ print script
  line 1: 30 BadLine
  $ write script
  > data 16
  > log 32
  > f a
  > data-layer 0 1 error
  $ print script
  line 4: 30 BadLine
  $ write script
  > data 16
  > log 32
  > turn
  > log-layer 0 16 zero
  $ print script
  line 4: 30 BadLine
  $ write script
  > data 16
  > log 32
  > at 0
  > log-layer
  $ print script
  line 4: 30 BadLine
  $ write script
  > data 16
  > log 32
  > crash
  > log-layer 0 1 error
  $ print script
  line 4: 30 BadLine
  $ write script
  > data 16
  > log 32
  > data-layer 0 1 error
  > log 32
  $ print script
  line 4: 30 BadLine
  $ write script
  > data 16
  > log 32
  > data-layer
  $ print script
  line 3: 30 BadLine
  $ write script
  > data 16
  > log 32
  > data-layerx 0 1 error
  $ print script
  line 3: 30 BadLine
  $ write script
  > data 16
  > log 32
  > Data-layer 0 1 error
  $ print script
  line 3: 30 BadLine
  $ escaped script
  > data 16
  > log 32
  > data-layer 0 1 error\t
  $ print script
  line 3: 9 UnknownTarget
  $ escaped script
  > data 16
  > log 32
  > data-layer 0 1 error\r
  $ print script
  line 3: 9 UnknownTarget
  $ escaped script
  > data 16
  > log 32
  > data-layer 0 1 linear caf\xc3\xa9 0
  $ print script
  line 3: 30 BadLine
  $ write script
  > data 16
  > log 32
  > data-layer 
  $ print script
  line 3: 10 WrongCount
  $ write script
  > data 16
  > log 32
  > data-layer 0 16 linear disk 1
  $ print script
  line 3: 12 OutOfRange
  $ write script
  > data 16
  > log 32
  > data-layer 0 17 error
  $ print script
  line 3: 12 OutOfRange
  $ write script
  > data 16
  > log 32
  > data-layer 0 1 linear disk 18446744073709551615
  $ print script
  line 3: 12 OutOfRange
  $ write script
  > data 1048576
  > log 32
  > data-layer 0 1048576 error
  > data-layer 0 1048577 error
  $ print script
  line 4: 12 OutOfRange
  $ write script
  > data 16
  > log 32
  > data-layer 0 8 linear disk 8
  > data-layer 0 8 linear disk 1
  $ print script
  line 4: 12 OutOfRange
  $ write script
  > data 16
  > log 32
  > log-layer 0 8 linear disk 24
  > log-layer 0 16 error
  $ print script
  line 4: 12 OutOfRange
  $ write script
  > data 32
  > log 16
  > log-layer 0 17 error
  $ print script
  line 3: 12 OutOfRange
  $ write script
  > data 16
  > log 32
  > data-layer 0 8 linear disk 8
  > w a 8 1 41
  $ print script
  line 4: 3 PastEnd
  $ write script
  > data 16
  > log 32
  > data-layer 0 8 linear disk 8
  > d a 7 2
  $ print script
  line 4: 3 PastEnd
  $ write script
  > data 16
  > log 32
  > data-layer 0 8 linear disk 8
  > data-layer 0 7 linear disk 1
  > r 6 1
  > r 7 1
  $ print script
  line 6: 3 PastEnd
  $ write script
  > data 16
  > log 32
  > log-layer 0 8 linear disk 8
  > w a 15 1 41
  $ print script
  data 16
  log 32
  log-layer 0 8 linear disk 8
  w a 15 1 41
  $ write script
  > data 16
  > log 32
  > at 5
  > f a
  > at 5
  > at 0012
  > c a
  > at 18446744073709551615
  > crash
  $ print script
  data 16
  log 32
  at 5
  f a
  at 5
  at 12
  c a
  at 18446744073709551615
  crash
  $ write script
  > data 16
  > log 32
  > at 5
  > at 4
  $ print script
  line 4: 30 BadLine
  $ write script
  > data 16
  > log 32
  > at 5
  > f a
  > mark here
  > at 0
  $ print script
  line 6: 30 BadLine
  $ write script
  > data 16
  > log 32
  > at 18446744073709551616
  $ print script
  line 3: 30 BadLine
  $ write script
  > data 16
  > log 32
  > at
  $ print script
  line 3: 30 BadLine
  $ write script
  > data 16
  > log 32
  > at 
  $ print script
  line 3: 30 BadLine
  $ write script
  > data 16
  > log 32
  > at 5 6
  $ print script
  line 3: 30 BadLine
  $ write script
  > data 16
  > log 32
  > at x
  $ print script
  line 3: 30 BadLine
  $ write script
  > data 16
  > at 5
  > log 32
  $ print script
  line 2: 30 BadLine
  $ write script
  > data 16
  > log 32
  > at 5
  > log-layer 0 1 error
  $ print script
  line 4: 30 BadLine

Messages.

  $ escaped script
  > data 16
  > log 32
  > message data 1 enable
  > message log 4 addbadblock 60 1
  > message data 0 
  > message data 007 x  y 
  > #message data x
  > message log 5  # no comment \r\t
  > message data 18446744073709551615 message log 1 clearbadblocks\
  $ print script
  data 16
  log 32
  message data 1 enable
  message log 4 addbadblock 60 1
  message data 0 
  message data 7 x  y 
  message log 5  # no comment \r	
  message data 18446744073709551615 message log 1 clearbadblocks
  $ write script
  > data 16
  > log 32
  > data-layer 0 16 dust disk 0 512
  > f a
  > message data 1 queryblock 3
  > c a
  > at 5
  > message log 1 quiet
  > at 5
  > close
  > message data 1 disable
  > crash
  $ print script
  data 16
  log 32
  data-layer 0 16 dust disk 0 512
  f a
  message data 1 queryblock 3
  c a
  at 5
  message log 1 quiet
  at 5
  close
  message data 1 disable
  crash
  $ write script
  > data 16
  > log 32
  > message
  $ print script
  line 3: 30 BadLine
  $ write script
  > data 16
  > log 32
  > message 
  $ print script
  line 3: 30 BadLine
  $ write script
  > data 16
  > log 32
  > message data
  $ print script
  line 3: 30 BadLine
  $ write script
  > data 16
  > log 32
  > message data 
  $ print script
  line 3: 30 BadLine
  $ write script
  > data 16
  > log 32
  > message data 1
  $ print script
  line 3: 30 BadLine
  $ write script
  > data 16
  > log 32
  > message log 1
  $ print script
  line 3: 30 BadLine
  $ write script
  > data 16
  > log 32
  > message disk 1 enable
  $ print script
  line 3: 30 BadLine
  $ write script
  > data 16
  > log 32
  > message 1 enable
  $ print script
  line 3: 30 BadLine
  $ write script
  > data 16
  > log 32
  > message data x enable
  $ print script
  line 3: 30 BadLine
  $ write script
  > data 16
  > log 32
  > message data  1 enable
  $ print script
  line 3: 30 BadLine
  $ write script
  > data 16
  > log 32
  > message  data 1 enable
  $ print script
  line 3: 30 BadLine
  $ escaped script
  > data 16
  > log 32
  > message data\t1 enable
  $ print script
  line 3: 30 BadLine
  $ write script
  > data 16
  > log 32
  > message data 18446744073709551616 enable
  $ print script
  line 3: 30 BadLine
  $ write script
  > data 16
  > log 32
  > message data 000000000000000000001 enable
  $ print script
  line 3: 30 BadLine
  $ write script
  > data 16
  > log 32
  > message data -1 enable
  $ print script
  line 3: 30 BadLine
  $ write script
  > data 16
  > log 32
  > Message data 1 enable
  $ print script
  line 3: 30 BadLine
  $ write script
  > data 16
  > log 32
  > message Data 1 enable
  $ print script
  line 3: 30 BadLine
  $ write script
  > data 16
  > log 32
  > messages data 1 enable
  $ print script
  line 3: 30 BadLine
  $ write script
  > data 16
  > log 32
  >  message data 1 enable
  $ print script
  line 3: 30 BadLine
  $ escaped script
  > data 16
  > log 32
  > message data 1 a\0b
  $ print script
  line 3: 30 BadLine
  $ escaped script
  > data 16
  > log 32
  > message data 1 caf\xc3\xa9
  $ print script
  line 3: 30 BadLine
  $ write script
  > message data 1 enable
  > data 16
  > log 32
  $ print script
  line 1: 30 BadLine
  $ write script
  > data 16
  > message data 1 enable
  > log 32
  $ print script
  line 2: 30 BadLine
  $ write script
  > data 16
  > log 32
  > crash
  > message data 1 enable
  $ print script
  line 4: 30 BadLine
  $ write script
  > data 16
  > log 32
  > message log 1 enable
  > log-layer 0 1 error
  $ print script
  line 4: 30 BadLine
  $ write script
  > data 16
  > log 32
  > at 5
  > message data 1 enable
  > at 4
  $ print script
  line 5: 30 BadLine

Table lines over a disk of 16 sectors, of the data disk and of the log.

  $ write script
  > data 16
  > log 16
  > data-layer 0 16
  > close
  $ print script
  line 3: 10 WrongCount
  $ write script
  > data 16
  > log 16
  > data-layer 0 16 zero
  > close
  $ print script
  line 3: 9 UnknownTarget
  $ write script
  > data 16
  > log 16
  > data-layer 0 16 linear disk
  > close
  $ print script
  line 3: 10 WrongCount
  $ write script
  > data 16
  > log 16
  > data-layer 0 16 linear disk x
  > close
  $ print script
  line 3: 11 BadNumber
  $ write script
  > data 16
  > log 16
  > data-layer 1 16 linear disk 0
  > close
  $ print script
  line 3: 12 OutOfRange
  $ write script
  > data 16
  > log 16
  > data-layer 0 16 flakey disk 0 0 0
  > close
  $ print script
  line 3: 12 OutOfRange
  $ write script
  > data 16
  > log 16
  > data-layer 0 16 flakey disk 0 10 5 1 corrupt_bio_byte
  > close
  $ print script
  line 3: 29 BadFeature
  $ write script
  > data 16
  > log 16
  > data-layer 0 16 linear disk 8
  > close
  $ print script
  line 3: 12 OutOfRange
  $ write script
  > data 16
  > log 16
  > data-layer 0 17 linear disk x
  > close
  $ print script
  line 3: 11 BadNumber
  $ write script
  > data 16
  > log 16
  > data-layer 0 0 error
  > close
  $ print script
  line 3: 12 OutOfRange
  $ write script
  > data 16
  > log 16
  > data-layer 0 16 linear disk 0
  > close
  $ print script
  data 16
  log 16
  data-layer 0 16 linear disk 0
  close
  $ write script
  > data 16
  > log 16
  > data-layer 0 8 linear disk 8
  > close
  $ print script
  data 16
  log 16
  data-layer 0 8 linear disk 8
  close
  $ write script
  > data 16
  > log 16
  > data-layer 0 16 error
  > close
  $ print script
  data 16
  log 16
  data-layer 0 16 error
  close
  $ write script
  > data 16
  > log 16
  > data-layer 0 16 flakey disk 0 10 5
  > close
  $ print script
  data 16
  log 16
  data-layer 0 16 flakey disk 0 10 5
  close
  $ write script
  > data 16
  > log 16
  > data-layer 0 15 flakey disk 1 10 5 1 drop_writes
  > close
  $ print script
  data 16
  log 16
  data-layer 0 15 flakey disk 1 10 5 1 drop_writes
  close
  $ write script
  > data 16
  > log 16
  > data-layer 0 16 fuse disk 0 0
  > close
  $ print script
  data 16
  log 16
  data-layer 0 16 fuse disk 0 0
  close
  $ write script
  > data 16
  > log 16
  > data-layer 0 8 dust disk 8 4096
  > close
  $ print script
  data 16
  log 16
  data-layer 0 8 dust disk 8 4096
  close
  $ write script
  > data 16
  > log 16
  > data-layer 0 16 dust disk 0 1000
  > close
  $ print script
  line 3: 12 OutOfRange
  $ write script
  > data 16
  > log 16
  > data-layer 0 16 delay disk 0 7
  > close
  $ print script
  data 16
  log 16
  data-layer 0 16 delay disk 0 7
  close
  $ write script
  > data 16
  > log 16
  > data-layer 0 16 delay disk 0 7 disk 0 8
  > close
  $ print script
  data 16
  log 16
  data-layer 0 16 delay disk 0 7 disk 0 8
  close
  $ write script
  > data 16
  > log 16
  > data-layer 0 16 delay disk 0 7 disk 0 8 disk 0 0
  > close
  $ print script
  data 16
  log 16
  data-layer 0 16 delay disk 0 7 disk 0 8 disk 0 0
  close
  $ write script
  > data 16
  > log 16
  > data-layer 0 16 delay disk 0 4294967296
  > close
  $ print script
  line 3: 12 OutOfRange
  $ write script
  > data 16
  > log 16
  > log-layer 0 16
  > close
  $ print script
  line 3: 10 WrongCount
  $ write script
  > data 16
  > log 16
  > log-layer 0 16 zero
  > close
  $ print script
  line 3: 9 UnknownTarget
  $ write script
  > data 16
  > log 16
  > log-layer 0 16 linear disk
  > close
  $ print script
  line 3: 10 WrongCount
  $ write script
  > data 16
  > log 16
  > log-layer 0 16 linear disk x
  > close
  $ print script
  line 3: 11 BadNumber
  $ write script
  > data 16
  > log 16
  > log-layer 1 16 linear disk 0
  > close
  $ print script
  line 3: 12 OutOfRange
  $ write script
  > data 16
  > log 16
  > log-layer 0 16 flakey disk 0 0 0
  > close
  $ print script
  line 3: 12 OutOfRange
  $ write script
  > data 16
  > log 16
  > log-layer 0 16 flakey disk 0 10 5 1 corrupt_bio_byte
  > close
  $ print script
  line 3: 29 BadFeature
  $ write script
  > data 16
  > log 16
  > log-layer 0 16 linear disk 8
  > close
  $ print script
  line 3: 12 OutOfRange
  $ write script
  > data 16
  > log 16
  > log-layer 0 17 linear disk x
  > close
  $ print script
  line 3: 11 BadNumber
  $ write script
  > data 16
  > log 16
  > log-layer 0 0 error
  > close
  $ print script
  line 3: 12 OutOfRange
  $ write script
  > data 16
  > log 16
  > log-layer 0 16 linear disk 0
  > close
  $ print script
  data 16
  log 16
  log-layer 0 16 linear disk 0
  close
  $ write script
  > data 16
  > log 16
  > log-layer 0 8 linear disk 8
  > close
  $ print script
  data 16
  log 16
  log-layer 0 8 linear disk 8
  close
  $ write script
  > data 16
  > log 16
  > log-layer 0 16 error
  > close
  $ print script
  data 16
  log 16
  log-layer 0 16 error
  close
  $ write script
  > data 16
  > log 16
  > log-layer 0 16 flakey disk 0 10 5
  > close
  $ print script
  data 16
  log 16
  log-layer 0 16 flakey disk 0 10 5
  close
  $ write script
  > data 16
  > log 16
  > log-layer 0 15 flakey disk 1 10 5 1 drop_writes
  > close
  $ print script
  data 16
  log 16
  log-layer 0 15 flakey disk 1 10 5 1 drop_writes
  close
  $ write script
  > data 16
  > log 16
  > log-layer 0 16 fuse disk 0 0
  > close
  $ print script
  data 16
  log 16
  log-layer 0 16 fuse disk 0 0
  close
  $ write script
  > data 16
  > log 16
  > log-layer 0 8 dust disk 8 4096
  > close
  $ print script
  data 16
  log 16
  log-layer 0 8 dust disk 8 4096
  close
  $ write script
  > data 16
  > log 16
  > log-layer 0 16 dust disk 0 1000
  > close
  $ print script
  line 3: 12 OutOfRange
  $ write script
  > data 16
  > log 16
  > log-layer 0 16 delay disk 0 7
  > close
  $ print script
  data 16
  log 16
  log-layer 0 16 delay disk 0 7
  close
  $ write script
  > data 16
  > log 16
  > log-layer 0 16 delay disk 0 7 disk 0 8
  > close
  $ print script
  data 16
  log 16
  log-layer 0 16 delay disk 0 7 disk 0 8
  close
  $ write script
  > data 16
  > log 16
  > log-layer 0 16 delay disk 0 7 disk 0 8 disk 0 0
  > close
  $ print script
  data 16
  log 16
  log-layer 0 16 delay disk 0 7 disk 0 8 disk 0 0
  close
  $ write script
  > data 16
  > log 16
  > log-layer 0 16 delay disk 0 4294967296
  > close
  $ print script
  line 3: 12 OutOfRange
