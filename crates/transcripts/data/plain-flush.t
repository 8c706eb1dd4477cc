A write that a flush makes sure: the log has the write, the flush and the end mark.

  $ write script
  > data 16
  > log 32
  > w a 5 1 41
  > c a
  > f b
  > c b
  > close
  $ dmlw record script log
  a ok
  b ok
  3 4
  $ dmlw list log
  super version 1 entries 3 sectorsize 512
  0 @1 write 5+1
  1 @3 flush
  2 @4 mark dm-log-writes-end

The image, byte for byte: the super block counts 3 entries; then the write, its data, the flush and the mark.

  $ show log
  16384 bytes
  0: 72 68 73 77 66 73 6a 00 01 00*7 03 00*8 02 00*486
  1: 05 00*7 01 00*503
  2: 41*512
  3: 00*16 01 00*495
  4: 00*16 08 00*7 11 00*7 64 6d 2d 6c 6f 67 2d 77 72 69 74 65 73 2d 65 6e 64 00*463
  $ dmlw status log
  3 4
