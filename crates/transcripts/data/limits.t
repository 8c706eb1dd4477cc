Limits of the program, each reached once: nothing is refused.

Numbers of 20 digits.

  $ image zeroes 8192
  $ write script
  > data 00000000000000000016
  > log 00000000000000000032
  > at 18446744073709551615
  > w a 00000000000000000008 00000000000000000008 41
  > c a
  > close
  $ dmlw record script log
  a ok
  2 10
  $ dmlw replay log zeroes out entries:00000000000000000001
  replayed 1
  $ dmlw judge script 00000000000000000003 out
  yes
  $ dmlw copy log other 00000000000000000040
  copied 2

A script of 4 MiB. Nearly all of its bytes are the text of one mark.

  $ remove script
  $ image script 4194304 0:=646174612031360a6c6f672033320a6d61726b20 20:=78*4194277 4194297:=0a636c6f73650a
  $ dmlw record script log
  2 2
  $ dmlw list log
  super version 1 entries 2 sectorsize 512
  0 @1 mark xxxxxxxxxxxxxxxxxxxxxxxxxxxxxxxxxxxxxxxxxxxxxxxxxxxxxxxxxxxxxxxxxxxxxxxxxxxxxxxxxxxxxxxxxxxxxxxxxxxxxxxxxxxxxxxxxxxxxxxxxxxxxxxxxxxxxxxxxxxxxxxxxxxxxxxxxxxxxxxxxxxxxxxxxxxxxxxxxxxxxxxxxxxxxxxxxxxxxxxxxxxxxxxxxxxxxxxxxxxxxxxxxxxxxxxxxxxxxxxxxxxxxxxxxxxxxxxxxxxxxxxxxxxxxxxxxxxxxxxxxxxxxxxxxxxxxxxxxxxxxxxxxxxxxxxxxxxxxxxxxxxxxxxxxxxxxxxxxxxxxxxxxxxxxxxxxxxxxxxxxxxxxxxxxxxxxxxxxxxxxxxxxxxxxxxxxxxxxxxxxxxxxxxxxxxxxxxxxxxxxxxxxxxxxxxxxxxxxxxxxxxxxxxxxxxxxxxxxxxxxxxxxxxxxxxxxxxxxxx
  1 @2 mark dm-log-writes-end

A data disk of the largest size, with a request of the largest size at its end.

  $ write script
  > data 1048576
  > log 4096
  > w a 1046528 2048 41
  > c a
  > r 1048575 1
  > f b
  > c b
  > close
  $ image disk 536870912
  $ dmlw record script log
  a ok
  read 1048575+1 ok 41
  b ok
  3 2051
  $ dmlw replay log disk disk flush
  replayed 2
  $ dmlw judge script 5 disk
  yes
  $ remove disk

A log's disk of the largest size.

  $ write script
  > data 2048
  > log 1048576
  > w a 0 2048 41
  > c a
  > close
  $ dmlw record script log
  a ok
  2 2050
  $ dmlw status log
  2 2050

A script with 64 seats. Each seat writes, writes with FUA and marks.

  $ write script
  > data 128
  > log 323
  > seats 64
  > s0 w 0 1 11
  > s0 w 1 1 12 fua
  > s0 mark seat 0
  > s1 w 2 1 11
  > s1 w 3 1 12 fua
  > s1 mark seat 1
  > s2 w 4 1 11
  > s2 w 5 1 12 fua
  > s2 mark seat 2
  > s3 w 6 1 11
  > s3 w 7 1 12 fua
  > s3 mark seat 3
  > s4 w 8 1 11
  > s4 w 9 1 12 fua
  > s4 mark seat 4
  > s5 w 10 1 11
  > s5 w 11 1 12 fua
  > s5 mark seat 5
  > s6 w 12 1 11
  > s6 w 13 1 12 fua
  > s6 mark seat 6
  > s7 w 14 1 11
  > s7 w 15 1 12 fua
  > s7 mark seat 7
  > s8 w 16 1 11
  > s8 w 17 1 12 fua
  > s8 mark seat 8
  > s9 w 18 1 11
  > s9 w 19 1 12 fua
  > s9 mark seat 9
  > s10 w 20 1 11
  > s10 w 21 1 12 fua
  > s10 mark seat 10
  > s11 w 22 1 11
  > s11 w 23 1 12 fua
  > s11 mark seat 11
  > s12 w 24 1 11
  > s12 w 25 1 12 fua
  > s12 mark seat 12
  > s13 w 26 1 11
  > s13 w 27 1 12 fua
  > s13 mark seat 13
  > s14 w 28 1 11
  > s14 w 29 1 12 fua
  > s14 mark seat 14
  > s15 w 30 1 11
  > s15 w 31 1 12 fua
  > s15 mark seat 15
  > s16 w 32 1 11
  > s16 w 33 1 12 fua
  > s16 mark seat 16
  > s17 w 34 1 11
  > s17 w 35 1 12 fua
  > s17 mark seat 17
  > s18 w 36 1 11
  > s18 w 37 1 12 fua
  > s18 mark seat 18
  > s19 w 38 1 11
  > s19 w 39 1 12 fua
  > s19 mark seat 19
  > s20 w 40 1 11
  > s20 w 41 1 12 fua
  > s20 mark seat 20
  > s21 w 42 1 11
  > s21 w 43 1 12 fua
  > s21 mark seat 21
  > s22 w 44 1 11
  > s22 w 45 1 12 fua
  > s22 mark seat 22
  > s23 w 46 1 11
  > s23 w 47 1 12 fua
  > s23 mark seat 23
  > s24 w 48 1 11
  > s24 w 49 1 12 fua
  > s24 mark seat 24
  > s25 w 50 1 11
  > s25 w 51 1 12 fua
  > s25 mark seat 25
  > s26 w 52 1 11
  > s26 w 53 1 12 fua
  > s26 mark seat 26
  > s27 w 54 1 11
  > s27 w 55 1 12 fua
  > s27 mark seat 27
  > s28 w 56 1 11
  > s28 w 57 1 12 fua
  > s28 mark seat 28
  > s29 w 58 1 11
  > s29 w 59 1 12 fua
  > s29 mark seat 29
  > s30 w 60 1 11
  > s30 w 61 1 12 fua
  > s30 mark seat 30
  > s31 w 62 1 11
  > s31 w 63 1 12 fua
  > s31 mark seat 31
  > s32 w 64 1 11
  > s32 w 65 1 12 fua
  > s32 mark seat 32
  > s33 w 66 1 11
  > s33 w 67 1 12 fua
  > s33 mark seat 33
  > s34 w 68 1 11
  > s34 w 69 1 12 fua
  > s34 mark seat 34
  > s35 w 70 1 11
  > s35 w 71 1 12 fua
  > s35 mark seat 35
  > s36 w 72 1 11
  > s36 w 73 1 12 fua
  > s36 mark seat 36
  > s37 w 74 1 11
  > s37 w 75 1 12 fua
  > s37 mark seat 37
  > s38 w 76 1 11
  > s38 w 77 1 12 fua
  > s38 mark seat 38
  > s39 w 78 1 11
  > s39 w 79 1 12 fua
  > s39 mark seat 39
  > s40 w 80 1 11
  > s40 w 81 1 12 fua
  > s40 mark seat 40
  > s41 w 82 1 11
  > s41 w 83 1 12 fua
  > s41 mark seat 41
  > s42 w 84 1 11
  > s42 w 85 1 12 fua
  > s42 mark seat 42
  > s43 w 86 1 11
  > s43 w 87 1 12 fua
  > s43 mark seat 43
  > s44 w 88 1 11
  > s44 w 89 1 12 fua
  > s44 mark seat 44
  > s45 w 90 1 11
  > s45 w 91 1 12 fua
  > s45 mark seat 45
  > s46 w 92 1 11
  > s46 w 93 1 12 fua
  > s46 mark seat 46
  > s47 w 94 1 11
  > s47 w 95 1 12 fua
  > s47 mark seat 47
  > s48 w 96 1 11
  > s48 w 97 1 12 fua
  > s48 mark seat 48
  > s49 w 98 1 11
  > s49 w 99 1 12 fua
  > s49 mark seat 49
  > s50 w 100 1 11
  > s50 w 101 1 12 fua
  > s50 mark seat 50
  > s51 w 102 1 11
  > s51 w 103 1 12 fua
  > s51 mark seat 51
  > s52 w 104 1 11
  > s52 w 105 1 12 fua
  > s52 mark seat 52
  > s53 w 106 1 11
  > s53 w 107 1 12 fua
  > s53 mark seat 53
  > s54 w 108 1 11
  > s54 w 109 1 12 fua
  > s54 mark seat 54
  > s55 w 110 1 11
  > s55 w 111 1 12 fua
  > s55 mark seat 55
  > s56 w 112 1 11
  > s56 w 113 1 12 fua
  > s56 mark seat 56
  > s57 w 114 1 11
  > s57 w 115 1 12 fua
  > s57 mark seat 57
  > s58 w 116 1 11
  > s58 w 117 1 12 fua
  > s58 mark seat 58
  > s59 w 118 1 11
  > s59 w 119 1 12 fua
  > s59 mark seat 59
  > s60 w 120 1 11
  > s60 w 121 1 12 fua
  > s60 mark seat 60
  > s61 w 122 1 11
  > s61 w 123 1 12 fua
  > s61 mark seat 61
  > s62 w 124 1 11
  > s62 w 125 1 12 fua
  > s62 mark seat 62
  > s63 w 126 1 11
  > s63 w 127 1 12 fua
  > s63 mark seat 63
  $ dmlw run script log
  seat 0: 1 done 2 logged 0 failed 0 not logged 0 refused
  seat 1: 1 done 2 logged 0 failed 0 not logged 0 refused
  seat 2: 1 done 2 logged 0 failed 0 not logged 0 refused
  seat 3: 1 done 2 logged 0 failed 0 not logged 0 refused
  seat 4: 1 done 2 logged 0 failed 0 not logged 0 refused
  seat 5: 1 done 2 logged 0 failed 0 not logged 0 refused
  seat 6: 1 done 2 logged 0 failed 0 not logged 0 refused
  seat 7: 1 done 2 logged 0 failed 0 not logged 0 refused
  seat 8: 1 done 2 logged 0 failed 0 not logged 0 refused
  seat 9: 1 done 2 logged 0 failed 0 not logged 0 refused
  seat 10: 1 done 2 logged 0 failed 0 not logged 0 refused
  seat 11: 1 done 2 logged 0 failed 0 not logged 0 refused
  seat 12: 1 done 2 logged 0 failed 0 not logged 0 refused
  seat 13: 1 done 2 logged 0 failed 0 not logged 0 refused
  seat 14: 1 done 2 logged 0 failed 0 not logged 0 refused
  seat 15: 1 done 2 logged 0 failed 0 not logged 0 refused
  seat 16: 1 done 2 logged 0 failed 0 not logged 0 refused
  seat 17: 1 done 2 logged 0 failed 0 not logged 0 refused
  seat 18: 1 done 2 logged 0 failed 0 not logged 0 refused
  seat 19: 1 done 2 logged 0 failed 0 not logged 0 refused
  seat 20: 1 done 2 logged 0 failed 0 not logged 0 refused
  seat 21: 1 done 2 logged 0 failed 0 not logged 0 refused
  seat 22: 1 done 2 logged 0 failed 0 not logged 0 refused
  seat 23: 1 done 2 logged 0 failed 0 not logged 0 refused
  seat 24: 1 done 2 logged 0 failed 0 not logged 0 refused
  seat 25: 1 done 2 logged 0 failed 0 not logged 0 refused
  seat 26: 1 done 2 logged 0 failed 0 not logged 0 refused
  seat 27: 1 done 2 logged 0 failed 0 not logged 0 refused
  seat 28: 1 done 2 logged 0 failed 0 not logged 0 refused
  seat 29: 1 done 2 logged 0 failed 0 not logged 0 refused
  seat 30: 1 done 2 logged 0 failed 0 not logged 0 refused
  seat 31: 1 done 2 logged 0 failed 0 not logged 0 refused
  seat 32: 1 done 2 logged 0 failed 0 not logged 0 refused
  seat 33: 1 done 2 logged 0 failed 0 not logged 0 refused
  seat 34: 1 done 2 logged 0 failed 0 not logged 0 refused
  seat 35: 1 done 2 logged 0 failed 0 not logged 0 refused
  seat 36: 1 done 2 logged 0 failed 0 not logged 0 refused
  seat 37: 1 done 2 logged 0 failed 0 not logged 0 refused
  seat 38: 1 done 2 logged 0 failed 0 not logged 0 refused
  seat 39: 1 done 2 logged 0 failed 0 not logged 0 refused
  seat 40: 1 done 2 logged 0 failed 0 not logged 0 refused
  seat 41: 1 done 2 logged 0 failed 0 not logged 0 refused
  seat 42: 1 done 2 logged 0 failed 0 not logged 0 refused
  seat 43: 1 done 2 logged 0 failed 0 not logged 0 refused
  seat 44: 1 done 2 logged 0 failed 0 not logged 0 refused
  seat 45: 1 done 2 logged 0 failed 0 not logged 0 refused
  seat 46: 1 done 2 logged 0 failed 0 not logged 0 refused
  seat 47: 1 done 2 logged 0 failed 0 not logged 0 refused
  seat 48: 1 done 2 logged 0 failed 0 not logged 0 refused
  seat 49: 1 done 2 logged 0 failed 0 not logged 0 refused
  seat 50: 1 done 2 logged 0 failed 0 not logged 0 refused
  seat 51: 1 done 2 logged 0 failed 0 not logged 0 refused
  seat 52: 1 done 2 logged 0 failed 0 not logged 0 refused
  seat 53: 1 done 2 logged 0 failed 0 not logged 0 refused
  seat 54: 1 done 2 logged 0 failed 0 not logged 0 refused
  seat 55: 1 done 2 logged 0 failed 0 not logged 0 refused
  seat 56: 1 done 2 logged 0 failed 0 not logged 0 refused
  seat 57: 1 done 2 logged 0 failed 0 not logged 0 refused
  seat 58: 1 done 2 logged 0 failed 0 not logged 0 refused
  seat 59: 1 done 2 logged 0 failed 0 not logged 0 refused
  seat 60: 1 done 2 logged 0 failed 0 not logged 0 refused
  seat 61: 1 done 2 logged 0 failed 0 not logged 0 refused
  seat 62: 1 done 2 logged 0 failed 0 not logged 0 refused
  seat 63: 1 done 2 logged 0 failed 0 not logged 0 refused
  193 321

Requests of one seat, of more sectors than half of the most.

  $ write script
  > data 2048
  > log 8192
  > seats 1
  > s0 w 0 1025 41
  > s0 w 0 2048 42 fua
  > s0 d 0 2048
  > s0 f
  $ dmlw run script log
  seat 0: 3 done 1 logged 0 failed 0 not logged 0 refused
  5 3078

One seat with 65,536 requests.

  $ write script
  > data 16
  > log 70000
  > seats 1
  $ more script 65536
  > s0 d 0 1
  $ dmlw run script log
  seat 0: 65536 done 0 logged 0 failed 0 not logged 0 refused
  65537 65537

A dust layer with 4,097 bad blocks: the last of these fails, and the block behind it doesn't.

  $ write script
  > data 8192
  > log 32
  > data-layer 0 8192 dust disk 0 512
  $ more script 4097
  > message data 1 addbadblock %
  $ more script 1
  > message data 1 enable
  > r 4096 1
  > r 4097 1
  > close
  $ dmlw record script log
  read 4096+1 failed
  read 4097+1 ok 00
  1 1
