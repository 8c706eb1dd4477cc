What --explain adds behind a fault.

  $ write script
  > data 16
  > log 32
  > w a 16 1 41
  $ dmlw --explain record script log
  ! dmlw: line 3: 3 PastEnd
  !   line 3 of script: w a 16 1 41
  !   the request 16+1 reaches past the data disk, which has 16 sectors, counted from 0
  [1]
  $ write script
  > data 16
  > log 32
  > w a 5 1 4x
  $ dmlw --explain record script log
  ! dmlw: line 3: 30 BadLine
  !   line 3 of script: w a 5 1 4x
  !   the word `4x` isn't <byte>: two hexadecimal digits of 0 to 9 and a to f
  !   the form of the line: w <id> <first> <count> <byte> [flush] [fua] [meta]
  [1]
  $ write script
  > data 16
  > log 32
  > w a 5 1
  $ dmlw --explain record script log
  ! dmlw: line 3: 30 BadLine
  !   line 3 of script: w a 5 1
  !   the word <byte> is missing
  !   the form of the line: w <id> <first> <count> <byte> [flush] [fua] [meta]
  [1]
  $ write script
  > data 16
  > log 32
  > w a 5 1 41 7
  $ dmlw --explain record script log
  ! dmlw: line 3: 30 BadLine
  !   line 3 of script: w a 5 1 41 7
  !   the word `7` is extra, or is out of order
  !   the form of the line: w <id> <first> <count> <byte> [flush] [fua] [meta]
  [1]
  $ write script
  > data 16
  > log 32
  > w a 5 1 41 fua flush
  $ dmlw --explain record script log
  ! dmlw: line 3: 30 BadLine
  !   line 3 of script: w a 5 1 41 fua flush
  !   the word `flush` is extra, or is out of order
  !   the form of the line: w <id> <first> <count> <byte> [flush] [fua] [meta]
  [1]
  $ write script
  > data 16
  > log 32
  > w a 16 1 41 flush fua meta
  $ dmlw --explain record script log
  ! dmlw: line 3: 3 PastEnd
  !   line 3 of script: w a 16 1 41 flush fua meta
  !   the request 16+1 reaches past the data disk, which has 16 sectors, counted from 0
  [1]
  $ write script
  > data 16
  > log 32
  > w a 5 1 fua
  $ dmlw --explain record script log
  ! dmlw: line 3: 30 BadLine
  !   line 3 of script: w a 5 1 fua
  !   the word `fua` isn't <byte>: two hexadecimal digits of 0 to 9 and a to f
  !   the form of the line: w <id> <first> <count> <byte> [flush] [fua] [meta]
  [1]
  $ write script
  > data 16
  > log 32
  > d a 5
  $ dmlw --explain record script log
  ! dmlw: line 3: 30 BadLine
  !   line 3 of script: d a 5
  !   the word <count> is missing
  !   the form of the line: d <id> <first> <count>
  [1]
  $ write script
  > data 16
  > log 32
  > d a 5 1 41
  $ dmlw --explain record script log
  ! dmlw: line 3: 30 BadLine
  !   line 3 of script: d a 5 1 41
  !   the word `41` is extra
  !   the form of the line: d <id> <first> <count>
  [1]
  $ write script
  > data 16
  > log 32
  > mark
  $ dmlw --explain record script log
  ! dmlw: line 3: 30 BadLine
  !   line 3 of script: mark
  !   a space is missing: the text is what follows it, and may be empty
  !   the form of the line: mark <text>
  [1]
  $ write script
  > data 16
  > log 32
  > message data 1
  $ dmlw --explain record script log
  ! dmlw: line 3: 30 BadLine
  !   line 3 of script: message data 1
  !   a space is missing: the text is what follows it, and may be empty
  !   the form of the line: message <disk> <layer> <text>
  [1]
  $ write script
  > data 16
  > log 32
  > message disk 1 enable
  $ dmlw --explain record script log
  ! dmlw: line 3: 30 BadLine
  !   line 3 of script: message disk 1 enable
  !   the word `disk` isn't <disk>: data or log
  !   the form of the line: message <disk> <layer> <text>
  [1]
  $ write script
  > data 16
  > log 32
  > message log x enable
  $ dmlw --explain record script log
  ! dmlw: line 3: 30 BadLine
  !   line 3 of script: message log x enable
  !   the word `x` isn't <layer>: a decimal number below 2^64
  !   the form of the line: message <disk> <layer> <text>
  [1]
  $ write script
  > data 16
  > log 32
  > mark café
  $ dmlw --explain record script log
  ! dmlw: line 3: 30 BadLine
  !   line 3 of script: mark caf\xc3\xa9
  !   it has a byte that isn't ASCII text
  !   the form of the line: mark <text>
  [1]
  $ write script
  > data 16
  > log 32
  > w a-b 5 1 41
  $ dmlw --explain record script log
  ! dmlw: line 3: 30 BadLine
  !   line 3 of script: w a-b 5 1 41
  !   the word `a-b` isn't <id>: 1 to 16 of the characters a to z and 0 to 9
  !   the form of the line: w <id> <first> <count> <byte> [flush] [fua] [meta]
  [1]
  $ write script
  > data 16
  > log 32
  > w a five 1 41
  $ dmlw --explain record script log
  ! dmlw: line 3: 30 BadLine
  !   line 3 of script: w a five 1 41
  !   the word `five` isn't <first>: a decimal number below 2^64
  !   the form of the line: w <id> <first> <count> <byte> [flush] [fua] [meta]
  [1]
  $ write script
  > data 16
  > log 32
  > W a 5 1 41
  $ dmlw --explain record script log
  ! dmlw: line 3: 30 BadLine
  !   line 3 of script: W a 5 1 41
  !   it has an upper case letter: words are in lower case
  [1]
  $ write script
  > data 16
  > log 32
  > w a  5 1 41
  $ dmlw --explain record script log
  ! dmlw: line 3: 30 BadLine
  !   line 3 of script: w a  5 1 41
  !   it has an extra space: words are separated by one space, and a line has none at its ends
  !   the form of the line: w <id> <first> <count> <byte> [flush] [fua] [meta]
  [1]
  $ write script
  > data 16
  > log 32
  > data 16
  $ dmlw --explain record script log
  ! dmlw: line 3: 30 BadLine
  !   line 3 of script: data 16
  !   line 1 is already a `data` line: a script has only one
  !   the form of the line: data <sectors>
  [1]
  $ write script
  > data 16
  > log 32
  > c a
  $ dmlw --explain record script log
  ! dmlw: line 3: 31 BadId
  !   line 3 of script: c a
  !   no line before this one submits `a`
  [1]
  $ write script
  > data 16
  > log 32
  > w a 5 3000 41
  $ dmlw --explain record script log
  ! dmlw: line 3: 4 TooLong
  !   line 3 of script: w a 5 3000 41
  !   the request has 3000 sectors; the maximum is 2048
  [1]
  $ write script
  > data 16
  > log 32
  > w a 5 0 41
  $ dmlw --explain record script log
  ! dmlw: line 3: 5 NotWhole
  !   line 3 of script: w a 5 0 41
  !   a request has at least one sector
  [1]
  $ write script
  > data 16
  > log 32
  > at x
  $ dmlw --explain record script log
  ! dmlw: line 3: 30 BadLine
  !   line 3 of script: at x
  !   the word `x` isn't <ms>: a decimal number below 2^64
  !   the form of the line: at <ms>
  [1]
  $ write script
  > data 16
  > log 32
  > at
  $ dmlw --explain record script log
  ! dmlw: line 3: 30 BadLine
  !   line 3 of script: at
  !   the word <ms> is missing
  !   the form of the line: at <ms>
  [1]
  $ write script
  > data 16
  > log 32
  > f é
  $ dmlw --explain record script log
  ! dmlw: line 3: 30 BadLine
  !   line 3 of script: f \xc3\xa9
  !   it has a byte that isn't ASCII text
  !   the form of the line: f <id>
  [1]
  $ image image 4096 0:=7268737766736a00 8:2,1,512,0
  $ dmlw --explain status image
  ! dmlw: 14 BadVersion
  !   image: the log is of format version 2, and dmlw reads version 1
  [1]
  $ remove image
  $ image image 4096 0:=7268737766736a00 8:1,1,8192,0
  $ dmlw --explain status image
  ! dmlw: 15 BadSectorSize
  !   image: the log's sector size is 8192 bytes, not 512, 1024, 2048 or 4096: its first sector is damaged
  [1]
  $ remove image
  $ image image 4096 0:=7268737766736a01 8:1,1,512,0
  $ dmlw --explain status image
  ! dmlw: 13 BadMagic
  !   image: it doesn't begin with the 8 bytes of a log, 72 68 73 77 66 73 6a 00, but with 72 68 73 77 66 73 6a 01: it isn't a log
  !   the kernel writes these bytes at the first FUA write or mark, and when the device is removed: `dmsetup message <device> 0 mark <text>` makes a mark
  [1]
  $ remove image
  $ image image 4096 0:=7268737766736a00 8:1,2,512,0 512:0,0,1,0 1024:0,0,8,481
  $ dmlw --explain status image
  ! dmlw: 16 BadMark
  !   image: a mark has sectors, or its text doesn't fit in its log sector: the entry is damaged
  !   image: the first entry that can't be read is entry 1, counted from 0, at log sector 2, of 512 bytes; `entries:1` replays all before it
  [1]
  $ remove image
  $ image image 4096 0:=7268737766736a00 8:1,1,512,0 512:0,9223372036854775808,0,0
  $ dmlw --explain status image
  ! dmlw: 17 TooLarge
  !   image: an entry reaches past the end of the largest device: the entry is damaged
  !   image: the first entry that can't be read is entry 0, counted from 0, at log sector 1, of 512 bytes; `entries:0` replays all before it
  [1]
  $ remove image
  $ image image 4096 0:=7268737766736a00 8:1,2,512,0 512:3,1,0,0 1536:0,7,0,0
  $ dmlw --explain status image
  ! dmlw: 21 CutShort
  !   image: it counts 2 entries: the log is shorter than its super block says: it was cut, or wasn't written to its end; the entries before the fault are whole
  !   image: the first entry that can't be read is entry 1, counted from 0, at log sector 3, of 512 bytes; `entries:1` replays all before it
  [1]
  $ remove image
  $ image image 4096 0:=7268737766736a00 8:1,2,512,0 512:0,3,4,0 1024:0,0,8,481
  $ dmlw --explain status image
  ! dmlw: 16 BadMark
  !   image: a mark has sectors, or its text doesn't fit in its log sector: the entry is damaged
  !   image: the first entry that can't be read is entry 1, counted from 0, at log sector 2, of 512 bytes; `entries:1` replays all before it
  [1]
  $ remove image
  $ image image 4096 0:=7268737766736a00 8:1,99,512,0
  $ dmlw --explain status image
  ! dmlw: 21 CutShort
  !   image: it counts 99 entries, more than fit in its 4096 bytes: it was cut, or its first sector is damaged
  [1]
  $ remove image
