A delay of 10 ms for reads, 20 for writes and 30 for flushes, all calls at the moment 100.

  $ stack 16
  > layer 0 16 delay disk 0 10 disk 0 20 disk 0 30
  > at 100 read 0 1
  > at 100 write 0 1 01
  > at 100 flush
  ends at 110: 00
  ends at 120
  ends at 130
