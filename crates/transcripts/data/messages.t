Messages to the layers of a stack, which count from 1, the lowest.

Dust twice among four layers: by sectors at the bottom, and by two sectors beneath a delay. Sector 4 of the top is sector 10 of the disk: its block fails once, and then a write mends it.

  $ stack 64
  > layer 0 60 dust disk 0 512
  > layer 0 50 linear disk 4
  > layer 0 40 dust disk 2 1024
  > layer 0 40 delay disk 0 10 disk 0 20 disk 0 30
  > message 0 enable
  > message 1 disable
  > message 2 enable
  > message 4 enable
  > message 5 enable
  > message 18446744073709551615 enable
  > message 1 addbadblock 59 1
  > message 1 addbadblock 60 1
  > message 1 addbadblock 10 1
  > message 1 addbadblock 10
  > message 1 removebadblock 11
  > message 3 removebadblock 10
  > message 3 addbadblock 19 255
  > message 3 addbadblock 20
  > message 3 addbadblock 0
  > message 3 removebadblock 19
  > message 1 quiet
  > message 3 
  > message 1 enable
  > at 100 write 4 1 07
  > at 100 write 4 1 07
  > at 100 read 1 1
  > message 3 enable
  > at 100 read 1 1
  > at 100 discard 0 2
  > at 100 read 1 1
  > at 100 flush
  > counts
  > off
  > disk
  6 BadMessage
  ok
  6 BadMessage
  6 BadMessage
  6 BadMessage
  6 BadMessage
  ok
  6 BadMessage
  ok
  7 AlreadyBad
  8 NotBad
  8 NotBad
  ok
  6 BadMessage
  ok
  ok
  6 BadMessage
  6 BadMessage
  ok
  Io
  ends at 120
  ends at 110: 00
  ok
  Io
  ends at 120
  ends at 110: 00
  ends at 130
  faults 2, lies 0
  32768 bytes
  10: 07*512

No layer stands.

  $ stack 64
  > message 0 enable
  > message 1 enable
  > message 4 enable
  6 BadMessage
  6 BadMessage
  6 BadMessage

Two layers stand, of which the upper one has bad blocks.

  $ stack 64
  > layer 0 16 error
  > layer 0 16 dust disk 0 512
  > message 1 enable
  > message 2 addbadblock 15
  > message 2 enable
  > message 3 enable
  6 BadMessage
  ok
  ok
  6 BadMessage
