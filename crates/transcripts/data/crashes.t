What a crash leaves of a disk of 8 sectors of zeroes: in each sector that isn't synced what its pick names, 0 the durable value and then the writes since, in order. Worked out by hand.

  $ disk 8
  > at 5 write 3 1 01
  > at 5 write 3 1 02
  > crash 1
  > disk
  > counts
  ends at 5
  ends at 5
  4096 bytes
  3: 01*512
  faults 0, lies 0
  $ disk 8
  > at 5 write 3 1 01
  > at 5 write 3 1 02
  > crash 2
  > disk
  > counts
  ends at 5
  ends at 5
  4096 bytes
  3: 02*512
  faults 0, lies 0
  $ disk 8
  > at 5 write 3 1 01
  > at 5 write 3 1 02
  > crash
  > disk
  > counts
  ends at 5
  ends at 5
  4096 bytes
  faults 0, lies 0
  $ disk 8
  > at 5 write 3 1 01
  > at 5 write 3 1 02
  > crash 3
  > disk
  > counts
  ends at 5
  ends at 5
  4096 bytes
  faults 0, lies 0
  $ disk 8
  > at 5 write 3 1 01
  > at 5 write 3 1 02
  > crash 4
  > disk
  > counts
  ends at 5
  ends at 5
  4096 bytes
  3: 01*512
  faults 0, lies 0
  $ disk 8
  > at 5 write 3 1 01
  > at 5 write 3 1 02
  > at 5 write 3 1 03
  > crash 3
  > disk
  > counts
  ends at 5
  ends at 5
  ends at 5
  4096 bytes
  3: 03*512
  faults 0, lies 0
  $ disk 8
  > at 5 write 3 1 01
  > at 5 write 3 1 02
  > at 5 write 3 1 03
  > crash 1
  > disk
  > counts
  ends at 5
  ends at 5
  ends at 5
  4096 bytes
  3: 01*512
  faults 0, lies 0
  $ disk 8
  > at 5 write 3 1 01
  > at 5 write 3 1 02
  > at 5 write 3 1 03
  > crash 6
  > disk
  > counts
  ends at 5
  ends at 5
  ends at 5
  4096 bytes
  3: 02*512
  faults 0, lies 0
  $ disk 8
  > at 5 write 3 1 05
  > at 5 write 3 1 05
  > crash 2
  > disk
  > counts
  ends at 5
  ends at 5
  4096 bytes
  3: 05*512
  faults 0, lies 0
  $ disk 8
  > at 5 write 3 1 05
  > at 5 write 3 1 05
  > crash 3
  > disk
  > counts
  ends at 5
  ends at 5
  4096 bytes
  faults 0, lies 0
  $ disk 8
  > at 5 write 3 1 05
  > at 5 write 3 1 05
  > at 5 write 3 1 06
  > crash 3
  > disk
  > counts
  ends at 5
  ends at 5
  ends at 5
  4096 bytes
  3: 06*512
  faults 0, lies 0
  $ disk 8
  > at 5 write 3 1 01
  > at 5 write 3 1 02 fua
  > at 5 write 3 1 03
  > crash
  > disk
  > counts
  ends at 5
  ends at 5
  ends at 5
  4096 bytes
  3: 02*512
  faults 0, lies 0
  $ disk 8
  > at 5 write 3 1 01
  > at 5 write 3 1 02 fua
  > at 5 write 3 1 03
  > crash 1
  > disk
  > counts
  ends at 5
  ends at 5
  ends at 5
  4096 bytes
  3: 03*512
  faults 0, lies 0
  $ disk 8
  > at 5 write 3 1 01
  > at 5 write 3 1 02 fua
  > at 5 write 3 1 03
  > crash 2
  > disk
  > counts
  ends at 5
  ends at 5
  ends at 5
  4096 bytes
  3: 02*512
  faults 0, lies 0
  $ disk 8
  > at 5 write 3 1 01
  > at 5 write 3 1 02 fua
  > at 5 write 5 1 04
  > crash 1
  > disk
  > counts
  ends at 5
  ends at 5
  ends at 5
  4096 bytes
  3: 02*512
  5: 04*512
  faults 0, lies 0
  $ disk 8
  > at 5 write 3 1 01
  > at 5 discard 3 1
  > at 5 write 3 1 03
  > crash 1
  > disk
  > counts
  ends at 5
  ends at 5
  ends at 5
  4096 bytes
  3: 01*512
  faults 0, lies 0
  $ disk 8
  > at 5 write 3 1 01
  > at 5 discard 3 1
  > at 5 write 3 1 03
  > crash 2
  > disk
  > counts
  ends at 5
  ends at 5
  ends at 5
  4096 bytes
  faults 0, lies 0
  $ disk 8
  > at 5 write 3 1 01
  > at 5 discard 3 1
  > at 5 write 3 1 03
  > crash 3
  > disk
  > counts
  ends at 5
  ends at 5
  ends at 5
  4096 bytes
  3: 03*512
  faults 0, lies 0
  $ disk 8
  > at 5 write 3 1 01
  > at 5 flush
  > at 5 write 3 1 02
  > crash
  > disk
  > counts
  ends at 5
  ends at 5
  ends at 5
  4096 bytes
  3: 01*512
  faults 0, lies 0
  $ disk 8
  > at 5 write 3 1 01
  > at 5 flush
  > at 5 write 3 1 02
  > crash 1
  > disk
  > counts
  ends at 5
  ends at 5
  ends at 5
  4096 bytes
  3: 02*512
  faults 0, lies 0
  $ disk 8
  > at 5 write 3 1 01
  > at 5 write 5 1 02
  > at 5 flush
  > crash 1 1
  > disk
  > counts
  ends at 5
  ends at 5
  ends at 5
  4096 bytes
  3: 01*512
  5: 02*512
  faults 0, lies 0
  $ disk 8
  > at 5 write 2 1 01
  > at 5 write 5 1 02
  > crash 0 1
  > disk
  > counts
  ends at 5
  ends at 5
  4096 bytes
  5: 02*512
  faults 0, lies 0
  $ disk 8
  > at 5 write 2 1 01
  > at 5 write 5 1 02
  > crash 1 0
  > disk
  > counts
  ends at 5
  ends at 5
  4096 bytes
  2: 01*512
  faults 0, lies 0
  $ disk 8
  > at 5 write 2 1 01
  > at 5 write 5 1 02
  > crash 1 1
  > disk
  > counts
  ends at 5
  ends at 5
  4096 bytes
  2: 01*512
  5: 02*512
  faults 0, lies 0
  $ disk 8
  > at 5 write 2 1 01
  > at 5 write 5 1 02
  > crash 1
  > disk
  > counts
  ends at 5
  ends at 5
  4096 bytes
  2: 01*512
  faults 0, lies 0
  $ disk 8
  > at 5 write 5 1 02
  > at 5 write 2 1 01
  > crash 1 0
  > disk
  > counts
  ends at 5
  ends at 5
  4096 bytes
  2: 01*512
  faults 0, lies 0
  $ disk 8
  > at 5 write 3 1 01
  > at 5 write 3 1 02
  > crash 1
  > at 5 write 3 1 04
  > crash
  > disk
  > counts
  ends at 5
  ends at 5
  ends at 5
  4096 bytes
  3: 01*512
  faults 0, lies 0
  $ disk 8
  > at 5 write 3 1 01
  > at 5 write 3 1 02
  > crash 1
  > at 5 write 3 1 04
  > crash 1
  > disk
  > counts
  ends at 5
  ends at 5
  ends at 5
  4096 bytes
  3: 04*512
  faults 0, lies 0
  $ disk 8
  > at 5 write 3 1 01
  > at 5 write 3 1 02
  > disk
  > crash
  > disk
  > counts
  ends at 5
  ends at 5
  4096 bytes
  3: 02*512
  4096 bytes
  faults 0, lies 0
  $ disk 8
  > at 5 write 3 1 01
  > crash
  > crash 1
  > disk
  > counts
  ends at 5
  4096 bytes
  faults 0, lies 0
  $ disk 8
  > at 5 write 0 1 01
  > at 5 write 1 1 02
  > at 5 write 2 1 03
  > at 5 flush
  > at 5 discard 0 3
  > crash 1 0 1
  > disk
  > counts
  ends at 5
  ends at 5
  ends at 5
  ends at 5
  ends at 5
  4096 bytes
  1: 02*512
  faults 0, lies 0
  $ disk 8
  > at 5 write 0 1 01
  > at 5 flush
  > at 5 discard 0 1
  > disk
  > crash
  > disk
  > counts
  ends at 5
  ends at 5
  ends at 5
  4096 bytes
  4096 bytes
  0: 01*512
  faults 0, lies 0
  $ disk 8
  > at 5 write 3 1 01
  > at 5 write 5 1 02 fua
  > crash
  > disk
  > counts
  ends at 5
  ends at 5
  4096 bytes
  5: 02*512
  faults 0, lies 0
  $ disk 8
  > at 5 flush
  > at 5 flush
  > at 5 write 3 1 01
  > at 5 flush
  > at 5 flush
  > crash
  > disk
  > counts
  ends at 5
  ends at 5
  ends at 5
  ends at 5
  ends at 5
  4096 bytes
  3: 01*512
  faults 0, lies 0
  $ disk 8
  > at 5 discard 3 1
  > at 5 write 3 1 04 fua
  > crash
  > disk
  > counts
  ends at 5
  ends at 5
  4096 bytes
  3: 04*512
  faults 0, lies 0
  $ disk 8
  > at 5 write 3 1 01 fua
  > at 5 discard 3 1
  > disk
  > crash
  > disk
  > counts
  ends at 5
  ends at 5
  4096 bytes
  4096 bytes
  3: 01*512
  faults 0, lies 0
  $ disk 8
  > at 5 write 0 1 01
  > at 5 write 1 1 02
  > at 5 write 2 1 03
  > at 5 write 3 1 04
  > at 5 write 4 1 05
  > at 5 write 5 1 06
  > at 5 write 6 1 07
  > at 5 write 7 1 01
  > at 5 write 0 1 02
  > at 5 write 1 1 03
  > at 5 write 2 1 04
  > at 5 write 3 1 05
  > at 5 write 4 1 06
  > at 5 write 5 1 07
  > at 5 write 6 1 01
  > at 5 write 7 1 02
  > at 5 write 0 1 03
  > at 5 write 1 1 04
  > at 5 write 2 1 05
  > at 5 write 3 1 06
  > at 5 discard 0 1
  > crash 2 2 2 2 2 2 2 2
  > disk
  > counts
  ends at 5
  ends at 5
  ends at 5
  ends at 5
  ends at 5
  ends at 5
  ends at 5
  ends at 5
  ends at 5
  ends at 5
  ends at 5
  ends at 5
  ends at 5
  ends at 5
  ends at 5
  ends at 5
  ends at 5
  ends at 5
  ends at 5
  ends at 5
  ends at 5
  4096 bytes
  0: 02*512
  1: 03*512
  2: 04*512
  3: 05*512
  4: 06*512
  5: 07*512
  6: 01*512
  7: 02*512
  faults 0, lies 0
