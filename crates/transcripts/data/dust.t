Layers with bad blocks, call by call.

The write of four sectors over blocks of two: its bad block stops it once, and leaves the list the next time.

  $ stack 16
  > layer 0 16 dust disk 0 1024
  > message 1 addbadblock 3 1
  > message 1 enable
  > at 0 write 5 4 07
  > counts
  > at 0 read 2 4
  > at 0 read 5 4
  > counts
  > at 0 write 5 4 07
  > at 0 read 5 4
  > message 1 addbadblock 3
  > message 1 addbadblock 3
  > message 1 removebadblock 4
  > message 1 addbadblock 7
  > message 1 addbadblock 8
  > message 1 addbadblock 2 256
  > message 1 queryblock 3
  > message 1 removebadblock 7
  > message 0 enable
  > message 2 enable
  ok
  ok
  Io
  faults 1, lies 0
  ends at 0: 00 00 00 07
  Io
  faults 2, lies 0
  ends at 0
  ends at 0: 07 07 07 07
  ok
  7 AlreadyBad
  8 NotBad
  ok
  6 BadMessage
  6 BadMessage
  6 BadMessage
  ok
  6 BadMessage
  6 BadMessage

In bypass each call passes, and the list stays; a read at a listed block fails, whatever its count; a discard mends it, and a flush passes.

  $ stack 16
  > layer 0 16 dust disk 0 1024
  > message 1 addbadblock 0
  > at 0 read 0 4
  > message 1 enable
  > at 0 read 0 4
  > at 0 read 2 4
  > at 5 flush
  > message 1 disable
  > at 5 write 0 1 03 fua
  > message 1 enable
  > at 0 read 0 4
  > at 5 discard 1 2
  > at 0 read 0 4
  > message 1 addbadblock 0 255
  > message 1 clearbadblocks
  > at 0 read 0 4
  > counts
  ok
  ends at 0: 00 00 00 00
  ok
  Io
  ends at 0: 00 00 00 00
  ends at 5
  ok
  ends at 5
  ok
  Io
  ends at 5
  ends at 0: 03 00 00 00
  ok
  ok
  ends at 0: 03 00 00 00
  faults 2, lies 0

Each part begins when the one before ended, so delays add up: a read is delayed by 1 ms, a change by 10 and a flush by 100.

  $ stack 16
  > layer 0 16 delay disk 0 1 disk 0 10 disk 0 100
  > layer 0 16 dust disk 0 1024
  > message 2 enable
  > at 0 write 5 4 01
  > at 0 discard 0 16
  > at 0 read 6 2
  > at 0 flush
  ok
  ends at 30
  ends at 80
  ends at 1: 00 00
  ends at 100

The second block is listed, and its write fails beneath: it stays listed.

  $ stack 16
  > layer 0 16 delay disk 0 1 disk 0 10 disk 0 100
  > layer 0 16 fuse disk 0 1
  > layer 0 16 dust disk 0 1024
  > message 3 addbadblock 1
  > message 3 enable
  > at 0 write 0 4 02
  > message 3 removebadblock 1
  > at 0 read 0 4
  > counts
  ok
  ok
  Io
  ok
  ends at 2: 02 02 00 00
  faults 1, lies 0
