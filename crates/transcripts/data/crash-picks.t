After two writes of one sector a crash leaves what its picks name: 0 the durable value, 1 the first write, 2 the second; no pick, or one too high, counts on from the first.

  $ disk 16
  > at 0 write 3 1 01
  > at 0 write 3 1 02
  > crash 1
  > disk
  ends at 0
  ends at 0
  8192 bytes
  3: 01*512
  $ disk 16
  > at 0 write 3 1 01
  > at 0 write 3 1 02
  > crash 2
  > disk
  ends at 0
  ends at 0
  8192 bytes
  3: 02*512
  $ disk 16
  > at 0 write 3 1 01
  > at 0 write 3 1 02
  > crash
  > disk
  ends at 0
  ends at 0
  8192 bytes
  $ disk 16
  > at 0 write 3 1 01
  > at 0 write 3 1 02
  > crash 3
  > disk
  ends at 0
  ends at 0
  8192 bytes
