Which layers fit over a disk of 16 sectors.

  $ stack 16
  > layer 0 16 linear disk 0
  > sectors
  16 sectors
  $ stack 16
  > layer 0 16 error
  > sectors
  16 sectors
  $ stack 16
  > layer 0 1 linear disk 15
  > sectors
  1 sectors
  $ stack 16
  > layer 0 13 fuse disk 3 1
  > sectors
  13 sectors
  $ stack 16
  > layer 0 16 linear disk 1
  > sectors
  12 OutOfRange
  16 sectors
  $ stack 16
  > layer 0 16 linear disk 8
  > sectors
  12 OutOfRange
  16 sectors
  $ stack 16
  > layer 0 1 linear disk 16
  > sectors
  12 OutOfRange
  16 sectors
  $ stack 16
  > layer 0 1 linear disk 18446744073709551615
  > sectors
  12 OutOfRange
  16 sectors
  $ stack 16
  > layer 0 17 error
  > sectors
  12 OutOfRange
  16 sectors
  $ stack 16
  > layer 0 1048576 linear disk 0
  > sectors
  12 OutOfRange
  16 sectors
  $ stack 16
  > layer 0 14 flakey disk 3 10 5
  > sectors
  12 OutOfRange
  16 sectors

Four layers stand and take calls; a fifth one is refused, and leaves them as they are.

  $ stack 16
  > layer 0 15 linear disk 1
  > layer 0 14 linear disk 1
  > layer 0 13 fuse disk 1 9
  > layer 0 12 linear disk 1
  > layer 0 8 linear disk 0
  > sectors
  > at 5 write 2 1 07
  > at 5 read 2 1
  > off
  > disk
  12 OutOfRange
  12 sectors
  ends at 5
  ends at 5: 07
  8192 bytes
  6: 07*512
