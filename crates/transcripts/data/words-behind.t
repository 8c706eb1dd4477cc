Command lines with `--explain`, behind two hyphens, and of words that are none.

  $ escaped script
  > \
  $ dmlw --explain record script log
  ! dmlw: line 1: 30 BadLine
  !   script is empty; a script begins with the lines `data` and `log`:
  !     data <sectors>
  !     log <sectors> [4096]
  [1]
  $ dmlw record --explain script log
  ! dmlw: line 1: 30 BadLine
  !   script is empty; a script begins with the lines `data` and `log`:
  !     data <sectors>
  !     log <sectors> [4096]
  [1]
  $ dmlw record script log --explain
  ! dmlw: line 1: 30 BadLine
  !   script is empty; a script begins with the lines `data` and `log`:
  !     data <sectors>
  !     log <sectors> [4096]
  [1]
  $ write script
  > data 16
  > log 32
  > w a 5 1 41
  > c a
  > f b
  > c b
  > close
  $ dmlw record -- script log
  a ok
  b ok
  3 4
  $ dmlw record -- -x log
  ! dmlw: 32 File
  [1]
  $ dmlw list -- -x
  ! dmlw: 32 File
  [1]
  $ dmlw status -- -x
  ! dmlw: 32 File
  [1]

What says why a command is refused stands behind its line.

  $ image zeroes 8192
  $ quiet dmlw record script log
  $ dmlw --explain replay absent zeroes other flush
  ! dmlw: 32 File
  !   absent can't be read, or has more than 536870912 bytes, the limit for a log or an image
  [1]
  $ dmlw replay absent zeroes other flush --explain
  ! dmlw: 32 File
  !   absent can't be read, or has more than 536870912 bytes, the limit for a log or an image
  [1]
  $ dmlw judge script 9 zeroes --explain
  ! dmlw: 34 BadMoment
  !   the run of script has 5 events; you asked for 9
  [1]
  $ dmlw judge script --explain 0 absent
  ! dmlw: 32 File
  !   absent can't be read, or has more than 536870912 bytes, the limit for a log or an image
  [1]
  $ dmlw judge --explain script 0 zeroes
  yes
  $ dmlw --explain list zeroes
  ! dmlw: 13 BadMagic
  !   zeroes: it doesn't begin with the 8 bytes of a log, 72 68 73 77 66 73 6a 00, but with 00 00 00 00 00 00 00 00: it isn't a log
  !   the kernel writes these bytes at the first FUA write or mark, and when the device is removed: `dmsetup message <device> 0 mark <text>` makes a mark
  [1]
  $ dmlw list absent --explain
  ! dmlw: 32 File
  !   absent can't be read, or has more than 536870912 bytes, the limit for a log or an image
  [1]
  $ dmlw status --explain zeroes
  ! dmlw: 13 BadMagic
  !   zeroes: it doesn't begin with the 8 bytes of a log, 72 68 73 77 66 73 6a 00, but with 00 00 00 00 00 00 00 00: it isn't a log
  !   the kernel writes these bytes at the first FUA write or mark, and when the device is removed: `dmsetup message <device> 0 mark <text>` makes a mark
  [1]
  $ dmlw status absent --explain
  ! dmlw: 32 File
  !   absent can't be read, or has more than 536870912 bytes, the limit for a log or an image
  [1]
  $ image first 8192
  $ dmlw --explain replay log first out flush
  replayed 2
  $ image first 8192
  $ dmlw --explain replay log first out entries:4
  ! dmlw: 33 PastEntries after 0 entries
  !   log: the log has 3 entries
  [1]
  $ image first 8192
  $ dmlw --explain replay first first out flush
  ! dmlw: 13 BadMagic
  !   first: it doesn't begin with the 8 bytes of a log, 72 68 73 77 66 73 6a 00, but with 00 00 00 00 00 00 00 00: it isn't a log
  !   the kernel writes these bytes at the first FUA write or mark, and when the device is removed: `dmsetup message <device> 0 mark <text>` makes a mark
  [1]
  $ image first 8192
  $ dmlw --explain replay log first log flush
  ! dmlw: 32 File
  !   log and log are one file: what is written would replace the log
  [1]
  $ image first 8192
  $ dmlw --explain replay none first out flush
  ! dmlw: 32 File
  !   none can't be read, or has more than 536870912 bytes, the limit for a log or an image
  [1]
  $ dmlw --explain replay log absent out flush
  ! dmlw: 32 File
  !   absent can't be read, or has more than 536870912 bytes, the limit for a log or an image
  [1]

Words are judged before any file is read.

  $ dmlw replay none none other what
  ! error: invalid value 'what' for '<WHAT>'
  !   [possible values: entries:<n> with n below 2^64, mark:<text>, flush]
  ! 
  ! For more information, try 'dmlw help replay'.
  [2]
  $ dmlw judge none x none
  ! error: invalid value 'x' for '<M>'
  !   [possible values: a number of 1 to 20 digits, below 2^64]
  ! 
  ! For more information, try 'dmlw help judge'.
  [2]

A command line of any length is read.

  $ dmlw record script nnnnnnnnnnnnnnnnnnnnnnnnnnnnnnnnnnnnnnnnnnnnnnnnnnnnnnnnnnnnnnnnnnnnnnnnnnnnnnnnnnnnnnnnnnnnnnnnnnnnnnnnnnnnnnnnnnnnnnnnnnnnnnnnnnnnnnnnnnnnnnnnnnnnnnnnnnnnnnnnnnnnnnnnnnnnnnnnnnnnnnnnnnnnnnnnnnnnnnnnnnnnnnnnnnnnnnnnnnnnnnnnnnnnnnnnnnnnnnnnnnnnnnnnnnnnnnnnnnnnnnnnnnnnnnnnnnnnnnnnnnnnnnnnnnnnnnnnnnnnnnnnnnnnnnnnnnnnnnnnnnnnnnnnnnnnnnnnnnnnnnnnnnnnnnnnnnnnnnnnnnnnnnnnnnnnnnnnnnnnnnnnnnnnnnnnnnnnnnnnnnnnnnnnnnnnnnnnnnnnnnnnnnnnnnnnnnnnnnnnnnnnnnnnnnnnnnnnnnnnnnnnnnnnnnnnnnnnnnnnnnnnnnnnnnnnnnnnnnnnnnnnnnnnnnnnnnnnnnnnnnnnnnnnnnnnnnnnnnnnnnnnnnnnnnnnnnnnnnnnnnnnnnnnnnnnnnnnnnnnnnnnnnnnnnnnnnnnnnnnnnnnnnnnnnnnnnnnnnnnnnnnnnnnnnnnnnnnnnnnnnnnnnnnnnnnnnnnnnnnnnnnnnnnnnnnnnnnnnnnnnnnnnnnnnnnnnnnnnnnnnnnnnnnnnnnnnnnnnnnnnnnnnnnnnnnnnnnnnnnnnnnnnnnnnnnnnnnnnnnnnnnnnnnnnnnnnnnnnnnnnnnnnnnnnnnnnnnnnnnnnnnnnnnnnnnnnnnnnnnnnnnnnnnnnnnnnnnnnnnnnnnnnnnnnnnnnnnnnnnnnnnnnnnnnnnnnnnnnnnnnnnnnnnnnnnnnnnnnnnnnnnnnnnnnnnnnnnnnnnnnnnnnnnnnnnnnnnnnnnnnnnnnnnnnnnnnnnnnnnnnnnnnnnnnnnnnnnnnnnnnnnnnnnnnnnnnnnnnnnnnnnnnnnnnnnnnnnnnnnnnnnnnnnnnnnnnnnnnnnnnnnnnnnnnnnnnnnnnnnnnnnnnnnnnnnnnnnnnnnnnnnnnnnnnnnnnnnnnnnnnnnnnnnnnnnnnnnnnnnnnnnnnnnnnnnnnnnnnnnnnnnnnnnnnnnnnnnnnnnnnnnnnnnnnnnnnnnnnnnnnnnnnnnnnnnnnnnnnnnnnnnnnnnnnnnnnnnnnnnnnnnnnnnnnnnnnnnnnnnnnnnnnnnnnnnnnnnnnnnnnnnnnnnnnnnnnnnnnnnnnnnnnnnnnnnnnnnnnnnnnnnnnnnnnnnnnnnnnnnnnnnnnnnnnnnnnnnnnnnnnnnnnnnnnnnnnnnnnnnnnnnnnnnnnnnnnnnnnnnnnnnnnnnnnnnnnnnnnnnnnnnnnnnnnnnnnnnnnnnnnnnnnnnnnnnnnnnnnnnnnnnnnnnnnnnnnnnnnnnnnnnnnnnnnnnnnnnnnnnnnnnnnnnnnnnnnnnnnnnnnnnnnnnnnnnnnnnnnnnnnnnnnnnnnnnnnnnnnnnnnnnnnnnnnnnnnnnnnnnnnnnnnnnnnnnnnnnnnnnnnnnnnnnnnnnnnnnnnnnnnnnnnnnnnnnnnnnnnnnnnnnnnnnnnnnnnnnnnnnnnnnnnnnnnnnnnnnnnnnnnnnnnnnnnnnnnnnnnnnnnnnnnnnnnnnnnnnnnnnnnnnnnnnnnnnnnnnnnnnnnnnnnnnnnnnnnnnnnnnnnnnnnnnnnnnnnnnnnnnnnnnnnnnnnnnnnnnnnnnnnnnnnnnnnnnnnnnnnnnnnnnnnnnnnnnnnnnnnnnnnnnnnnnnnnnnnnnnnnnnnnnnnnnnnnnnnnnnnnnnnnnnnnnnnnnnnnnnnnnnnnnnnnnnnnnnnnnnnnnnnnnnnnnnnnnnnnnnnnnnnnnnnnnnnnnnnnnnnnnnnnnnnnnnnnnnnnnnnnnnnnnnnnnnnnnnnnnnnnnnnnnnnnnnnnnnnnnnnnnnnnnnnnnnnnnnnnnnnnnnnnnnnnnnnnnnnnnnnnnnnnnnnnnnnnnnnnnnnnnnnnnnnnnnnnnnnnnnnnnnnnnnnnnnnnnnnnnnnnnnnnnnnnnnnnnnnnnnnnnnnnnnnnnnnnnnnnnnnnnnnnnnnnnnnnnnnnnnnnnnnnnnnnnnnnnnnnnnnnnnnnnnnnnnnnnnnnnnnnnnnnnnnnnnnnnnnnnnnnnnnnnnnnnnnnnnnnnnnnnnnnnnnnnnnnnnnnnnnnnnnnnnnnnnnnnnnnnnnnnnnnnnnnnnnnnnnnnnnnnnnnnnnnnnnnnnnnnnnnnnnnnnnnnnnnnnnnnnnnnnnnnnnnnnnnnnnnnnnnnnnnnnnnnnnnnnnnnnnnnnnnnnnnnnnnnnnnnnnnnnnnnnnnnnnnnnnnnnnnnnnnnnnnnnnnnnnnnnnnnnnnnnnnnnnnnnnnnnnnnnnnnnnnnnnnnnnnnnnnnnnnnnnnnnnnnnnnnnnnnnnnnnnnnnnnnnnnnnnnnnnnnnnnnnnnnnnnnnnnnnnnnnnnnnnnnnnnnnnnnnnnnnnnnnnnnnnnnnnnnnnnnnnnnnnnnnnnnnnnnnnnnnnnnnnnnnnnnnnnnnnnnnnnnnnnnnnnnnnnnnnnnnnnnnnnnnnnnnnnnnnnnnnnnnnnnnnnnnnnnnnnnnnnnnnnnnnnnnnnnnnnnnnnnnnnnnnnnnnnnnnnnnnnnnnnnnnnnnnnnnnnnnnnnnnnnnnnnnnnnnnnnnnnnnnnnnnnnnnnnnnnnnnnnnnnnnnnnnnnnnnnnnnnnnnnnnnnnnnnnnnnnnnnnnnnnnnnnnnnnnnnnnnnnnnnnnnnnnnnnnnnnnnnnnnnnnnnnnnnnnnnnnnnnnnnnnnnnnnnnnnnnnnnnnnnnnnnnnnnnnnnnnnnnnnnnnnnnnnnnnnnnnnnnnnnnnnnnnnnnnnnnnnnnnnnnnnnnnnnnnnnnnnnnnnnnnnnnnnnn --explain --explain --explain --explain --explain --explain --explain --explain --explain --explain --explain --explain --explain --explain --explain --explain --explain --explain --explain --explain --explain --explain --explain --explain --explain --explain --explain --explain --explain --explain --explain --explain --explain --explain --explain --explain --explain --explain --explain --explain --explain --explain --explain --explain --explain --explain --explain --explain --explain --explain --explain --explain --explain --explain --explain --explain --explain --explain --explain --explain
  a ok
  b ok
  3 4

What editors do to a script.

  $ escaped script
  > data 16\r
  > log 32\r
  $ dmlw --explain record script log
  ! dmlw: line 1: 30 BadLine
  !   line 1 of script: data 16\r
  !   it ends with a carriage return: lines must end with only a line feed
  !   the form of the line: data <sectors>
  [1]
  $ escaped script
  > data\t16
  > log 32
  $ dmlw --explain record script log
  ! dmlw: line 1: 30 BadLine
  !   line 1 of script: data\t16
  !   it has a tab: words are separated by one space
  [1]
  $ write script
  > data 16
  $ dmlw --explain record script log
  ! dmlw: line 2: 30 BadLine
  !   script ends before its line 2; a script begins with the lines `data` and `log`:
  !     data <sectors>
  !     log <sectors> [4096]
  [1]
  $ escaped script
  > \xef\xbb\xbfdata 16
  > log 32
  $ dmlw --explain record script log
  ! dmlw: line 1: 30 BadLine
  !   line 1 of script: \xef\xbb\xbfdata 16
  !   it begins with a byte order mark (ef bb bf): save the script as text without one
  [1]

A script without a close leaves an empty log, and that is no fault. Where all is well nothing is added.

  $ write script
  > data 16
  > log 32
  > w a 5 1 41
  > c a
  $ dmlw --explain record script log
  a ok
  0 0
  !   script has no line `close`: only what its lines `turn` placed is in the log
  $ write script
  > data 16
  > log 32
  > w a 5 1 41
  > c a
  > f b
  > c b
  > close
  $ dmlw --explain record script log
  a ok
  b ok
  3 4
  $ write script
  > data 16
  > log 2
  > close
  $ dmlw --explain record script log
  0 0 logging_disabled
  !   script: the entries don't fit in the log: one of 3 sectors has room for all requests and marks of the script (line `log <sectors>`)
  [3]
  $ write script
  > data 2
  > log 32
  > w a 2 1 41
  $ image image 512
  $ dmlw --explain judge script 0 image
  ! dmlw: line 3: 3 PastEnd
  !   line 3 of script: w a 2 1 41
  !   the request 2+1 reaches past the data disk, which has 2 sectors, counted from 0
  [1]
  $ write script
  > data 2
  > log 32
  $ dmlw --explain judge script 0 image
  ! dmlw: 34 BadMoment
  !   the image image has 1 sector, and the data disk of script 2
  [1]
  $ image image 100
  $ dmlw --explain judge script 0 image
  ! dmlw: 32 File
  !   image has 100 bytes, less than a sector of 512
  [1]
  $ escaped image
  > a text\
  $ dmlw --explain list image
  ! dmlw: 32 File
  !   image has 6 bytes, less than a sector of 512
  [1]
  $ write script
  > data 16
  > log 32
  > w a 5 1 41
  > c a
  > f b
  > c b
  > close
  $ quiet dmlw record script log
  $ image log 2048
  $ dmlw --explain list log
  super version 1 entries 3 sectorsize 512
  0 @1 write 5+1
  1 @3 flush
  ! dmlw: 21 CutShort
  !   log: it counts 3 entries: the log is shorter than its super block says: it was cut, or wasn't written to its end; the entries before the fault are whole
  !   log: the first entry that can't be read is entry 2, counted from 0, at log sector 4, of 512 bytes; `entries:2` replays all before it
  [1]
