What --explain tells by numbers and by the lines before.

Nothing stands behind a crash.

  $ write script
  > data 16
  > log 32
  > crash
  > turn
  $ dmlw --explain record script log
  ! dmlw: line 4: 30 BadLine
  !   line 4 of script: turn
  !   no line may follow the `crash` in line 3
  !   the form of the line: turn
  [1]
A moment that goes back, with the line that set the later one.

  $ write script
  > data 16
  > log 32
  > at 500
  > at 300
  $ dmlw --explain record script log
  ! dmlw: line 4: 30 BadLine
  !   line 4 of script: at 300
  !   the time 300 is before 500, which line 3 sets: times don't go back
  !   the form of the line: at <ms>
  [1]
A size that is out of range, and one of a log with large sectors.

  $ write script
  > data 2000000
  > log 32
  $ dmlw --explain record script log
  ! dmlw: line 1: 30 BadLine
  !   line 1 of script: data 2000000
  !   the number 2000000 is out of range: it is 1 to 1048576
  !   the form of the line: data <sectors>
  [1]
  $ write script
  > data 16
  > log 4 4096
  $ dmlw --explain record script log
  ! dmlw: line 2: 30 BadLine
  !   line 2 of script: log 4 4096
  !   the number 4 is out of range: it is 8 to 1048576, with the word 4096
  !   the form of the line: log <sectors> [4096]
  [1]
The log's line before the data disk's, and a request before the log's.

  $ write script
  > log 32
  > data 16
  $ dmlw --explain record script log
  ! dmlw: line 1: 30 BadLine
  !   line 1 of script: log 32
  !   a line `data` must come before this one: a script begins with `data`, and then `log`
  !   the form of the line: log <sectors> [4096]
  [1]
  $ write script
  > data 16
  > w a 1 1 11
  $ dmlw --explain record script log
  ! dmlw: line 2: 30 BadLine
  !   line 2 of script: w a 1 1 11
  !   a line `log` must come before this one: a script begins with `data`, and then `log`
  !   the form of the line: w <id> <first> <count> <byte> [flush] [fua] [meta]
  [1]
An id that is submitted twice, with the line that did so, and one that isn't open.

  $ write script
  > data 16
  > log 32
  > w a 1 1 11
  > w a 1 1 11
  $ dmlw --explain record script log
  ! dmlw: line 4: 31 BadId
  !   line 4 of script: w a 1 1 11
  !   `a` is submitted in line 3 already: an id is submitted once in a script
  [1]
  $ write script
  > data 16
  > log 32
  > w a 1 1 11
  > c a
  > c a
  $ dmlw --explain record script log
  ! dmlw: line 5: 31 BadId
  !   line 5 of script: c a
  !   `a` isn't open: line 4 already ended it
  [1]
A message to a layer that isn't there.

  $ write script
  > data 16
  > log 32
  > message data 1 enable
  $ dmlw --explain record script log
  ! dmlw: line 3: 6 BadMessage
  !   line 3 of script: message data 1 enable
  !   the data disk has no layer 1: it has 0 layers, counted from 1
  [1]
A block that is listed already, and one that isn't.

  $ write script
  > data 16
  > log 32
  > data-layer 0 16 dust disk 0 512
  > message data 1 addbadblock 3
  > message data 1 addbadblock 3
  $ dmlw --explain record script log
  ! dmlw: line 5: 7 AlreadyBad
  !   line 5 of script: message data 1 addbadblock 3
  !   block 3 is listed already: `removebadblock 3` takes it off the list
  [1]
  $ write script
  > data 16
  > log 32
  > data-layer 0 16 dust disk 0 512
  > message data 1 removebadblock 3
  $ dmlw --explain record script log
  ! dmlw: line 4: 8 NotBad
  !   line 4 of script: message data 1 removebadblock 3
  !   block 3 isn't listed: `addbadblock` lists it
  [1]
A message to a layer of another target, past the last block, and to layer 0.

  $ write script
  > data 16
  > log 32
  > data-layer 0 16 linear disk 0
  > message data 1 enable
  $ dmlw --explain record script log
  ! dmlw: line 4: 6 BadMessage
  !   line 4 of script: message data 1 enable
  !   layer 1 of the data disk has the target linear: only dust layers take messages
  [1]
  $ write script
  > data 16
  > log 32
  > data-layer 0 16 dust disk 0 512
  > message data 1 addbadblock 99
  $ dmlw --explain record script log
  ! dmlw: line 4: 6 BadMessage
  !   line 4 of script: message data 1 addbadblock 99
  !   the layer has no block 99: it has 16, counted from 0
  [1]
  $ write script
  > data 16
  > log 32
  > data-layer 0 15 dust disk 0 1024
  > message data 1 addbadblock 7
  > message data 1 addbadblock 8
  $ dmlw --explain record script log
  ! dmlw: line 5: 6 BadMessage
  !   line 5 of script: message data 1 addbadblock 8
  !   the layer has no block 8: it has 8, counted from 0
  [1]
  $ write script
  > data 16
  > log 32
  > data-layer 0 16 dust disk 0 512
  > message data 0 enable
  $ dmlw --explain record script log
  ! dmlw: line 4: 6 BadMessage
  !   line 4 of script: message data 0 enable
  !   the data disk has no layer 0: it has 1 layer, counted from 1
  [1]
A fifth layer, a layer behind the other disk's, and one behind a request.

  $ write script
  > data 16
  > log 32
  > data-layer 0 16 linear disk 0
  > data-layer 0 16 linear disk 0
  > data-layer 0 16 linear disk 0
  > data-layer 0 16 linear disk 0
  > data-layer 0 16 linear disk 0
  $ dmlw --explain record script log
  ! dmlw: line 7: 30 BadLine
  !   line 7 of script: data-layer 0 16 linear disk 0
  !   this disk already has 4 layers, which is the maximum
  !   the form of the line: data-layer 0 <length> <target> ..
  [1]
  $ write script
  > data 16
  > log 32
  > log-layer 0 32 linear disk 0
  > data-layer 0 16 linear disk 0
  $ dmlw --explain record script log
  ! dmlw: line 4: 30 BadLine
  !   line 4 of script: data-layer 0 16 linear disk 0
  !   the data disk's layers must come before the log's, and line 3 is a `log-layer`
  !   the form of the line: data-layer 0 <length> <target> ..
  [1]
  $ write script
  > data 16
  > log 32
  > turn
  > data-layer 0 16 linear disk 0
  $ dmlw --explain record script log
  ! dmlw: line 4: 30 BadLine
  !   line 4 of script: data-layer 0 16 linear disk 0
  !   layers must come before the requests, and line 3 isn't a layer
  !   the form of the line: data-layer 0 <length> <target> ..
  [1]
A close while a request is open.

  $ write script
  > data 16
  > log 32
  > w a 1 1 11
  > close
  $ dmlw --explain record script log
  ! dmlw: line 4: 24 Busy
  !   line 4 of script: close
  !   1 request is still open here, `a`: end each by a line `c <id>` before the `close`
  [1]
  $ write script
  > data 16
  > log 32
  > w a 1 1 11
  > f b
  > d c 2 1
  > c a
  > close
  $ dmlw --explain record script log
  a ok
  ! dmlw: line 7: 24 Busy
  !   line 7 of script: close
  !   2 requests are still open here, the first of them `b`: end each by a line `c <id>` before the `close`
  [1]
A count of none, a number past the largest, a pick that is none, and a script that ends in its head.

  $ write script
  > data 16
  > log 32
  > r 1 0
  $ dmlw --explain record script log
  ! dmlw: line 3: 5 NotWhole
  !   line 3 of script: r 1 0
  !   a request has at least one sector
  [1]
  $ write script
  > data 16
  > log 32
  > at 99999999999999999999
  $ dmlw --explain record script log
  ! dmlw: line 3: 30 BadLine
  !   line 3 of script: at 99999999999999999999
  !   the word `99999999999999999999` isn't <ms>: a decimal number below 2^64
  !   the form of the line: at <ms>
  [1]
  $ write script
  > data 16
  > log 32
  > crash x
  $ dmlw --explain record script log
  ! dmlw: line 3: 30 BadLine
  !   line 3 of script: crash x
  !   the word `x` isn't <pick>: a decimal number below 2^64
  !   the form of the line: crash <pick> ..
  [1]
  $ write script
  > data 16
  $ dmlw --explain record script log
  ! dmlw: line 2: 30 BadLine
  !   script ends before its line 2; a script begins with the lines `data` and `log`:
  !     data <sectors>
  !     log <sectors> [4096]
  [1]
Scripts of seats: a seat that isn't there, too many seats, a request past the end, two spaces.

  $ write script
  > data 16
  > log 32
  > seats 2
  > s2 f
  $ dmlw --explain run script log
  ! dmlw: line 4: 30 BadLine
  !   line 4 of script: s2 f
  !   there is no seat 2: there are 2, s0 to s1
  !   the form of the line: s<k> f
  [1]
  $ write script
  > data 16
  > log 32
  > seats 65
  $ dmlw --explain run script log
  ! dmlw: line 3: 30 BadLine
  !   line 3 of script: seats 65
  !   the number 65 is out of range: it is 1 to 64
  !   the form of the line: seats <n>
  [1]
  $ write script
  > data 16
  > log 32
  > seats 2
  > s0 w 16 1 11
  $ dmlw --explain run script log
  ! dmlw: line 4: 3 PastEnd
  !   line 4 of script: s0 w 16 1 11
  !   the request 16+1 reaches past the data disk, which has 16 sectors, counted from 0
  [1]
  $ write script
  > data 16
  > log 32
  > seats 2
  > s0 w 1  1 11
  $ dmlw --explain run script log
  ! dmlw: line 4: 30 BadLine
  !   line 4 of script: s0 w 1  1 11
  !   it has an extra space: words are separated by one space, and a line has none at its ends
  !   the form of the line: s<k> w <first> <count> <byte> [flush] [fua] [meta]
  [1]
Numbers of a log and of images.

  $ write script
  > data 16
  > log 32
  > w a 5 1 41
  > c a
  > f b
  > c b
  > close
  $ dmlw --explain record script log
  a ok
  b ok
  3 4
  $ image first 1024
  $ dmlw --explain replay log first out entries:99
  ! dmlw: 33 PastEntries after 0 entries
  !   log: the log has 3 entries
  [1]
  $ dmlw --explain replay log first out mark:no
  ! dmlw: 25 NoSuchMark after 0 entries
  !   log: no mark of the log has this text: `dmlw list` prints its marks, 1 in all
  [1]
  $ dmlw --explain replay log first out entries:1
  ! dmlw: 27 PastTarget after 0 entries
  !   the next entry of log, in sectors of 512 bytes: 0 @1 write 5+1
  !   it reaches past the end of the image, which must be as large as the recorded device
  !   first has 2 sectors of 512 bytes
  [1]
  $ dmlw --explain replay log first out entries:x
  ! error: invalid value 'entries:x' for '<WHAT>'
  !   [possible values: entries:<n> with n below 2^64, mark:<text>, flush]
  ! 
  ! For more information, try 'dmlw help replay'.
  [2]
  $ dmlw --explain copy log out 256
  ! dmlw: 28 Unaligned after 0 entries
  !   the next entry of log, in sectors of 512 bytes: 0 @1 write 5+1
  !   its place or its length isn't a multiple of 4096 bytes, which a log with such sectors needs
  [1]
  $ dmlw --explain judge script 99 first
  ! dmlw: 34 BadMoment
  !   the run of script has 5 events; you asked for 99
  !   the image first has 2 sectors, and the data disk of script 16
  [1]
  $ dmlw --explain judge script 4 first
  ! dmlw: 34 BadMoment
  !   the image first has 2 sectors, and the data disk of script 16
  [1]
  $ dmlw --explain judge script x first
  ! error: invalid value 'x' for '<M>'
  !   [possible values: a number of 1 to 20 digits, below 2^64]
  ! 
  ! For more information, try 'dmlw help judge'.
  [2]
  $ dmlw --explain list first
  ! dmlw: 13 BadMagic
  !   first: it doesn't begin with the 8 bytes of a log, 72 68 73 77 66 73 6a 00, but with 00 00 00 00 00 00 00 00: it isn't a log
  !   the kernel writes these bytes at the first FUA write or mark, and when the device is removed: `dmsetup message <device> 0 mark <text>` makes a mark
  [1]
  $ dmlw --explain list none
  ! dmlw: 32 File
  !   none can't be read, or has more than 536870912 bytes, the limit for a log or an image
  [1]
  $ image odd 700
  $ dmlw --explain list odd
  ! dmlw: 32 File
  !   odd has 700 bytes, 188 more than a multiple of 512: head -c 512 odd >cut.img copies its whole sectors
  [1]
  $ dmlw --explain replay log odd out flush
  ! dmlw: 32 File
  !   odd has 700 bytes, 188 more than a multiple of 512: head -c 512 odd >cut.img copies its whole sectors
  [1]

Packed logs: of a length that no image has, and of one that an image may have.

  $ image packed 700 0:=fd377a585a00
  $ dmlw --explain list packed
  ! dmlw: 32 File
  !   packed is packed by xz: xz -dc packed >unpacked.img
  [1]
  $ image small 300 0:=28b52ffd
  $ dmlw --explain status small
  ! dmlw: 32 File
  !   small is packed by zstd: zstd -dc small >unpacked.img
  [1]
  $ image whole 1024 0:=1f8b08
  $ dmlw --explain list whole
  ! dmlw: 13 BadMagic
  !   whole is packed by gzip: gzip -dc whole >unpacked.img
  [1]

A log that is cut, one that is no log, an image that is longer than the entry's sectors.

  $ write script
  > data 16
  > log 32
  > w a 5 1 41
  > mark here
  > c a
  > f b
  > c b
  > close
  $ dmlw --explain record script log
  a ok
  b ok
  4 5
  $ image first 8192
  $ dmlw --explain replay log first out mark:there
  ! dmlw: 25 NoSuchMark after 0 entries
  !   log: no mark of the log has this text: `dmlw list` prints its marks, 2 in all
  [1]
  $ dmlw --explain copy log out 7
  ! error: invalid value '7' for '<SECTORS>'
  !   [possible values: a number from 8 to 1048576]
  ! 
  ! For more information, try 'dmlw help copy'.
  [2]
  $ dmlw --explain judge script 6 first
  no sector 5 ruled out by event 0
  !   event 0 is line 3 of script: w a 5 1 41
  [1]
  $ dmlw --explain judge script 5 first
  no sector 5 ruled out by event 0
  !   event 0 is line 3 of script: w a 5 1 41
  [1]
  $ dmlw --explain path script 5 first
  no sector 5 ruled out by event 0
  !   event 0 is line 3 of script: w a 5 1 41
  [1]
  $ dmlw --explain judge script 2 first
  yes
  $ dmlw --explain judge none 2 first
  ! dmlw: 32 File
  !   none can't be read, or has more than 4194304 bytes, the limit for a script
  [1]
  $ dmlw --explain judge script 2 none
  ! dmlw: 32 File
  !   none can't be read, or has more than 536870912 bytes, the limit for a log or an image
  [1]
  $ dmlw --explain replay none first out flush
  ! dmlw: 32 File
  !   none can't be read, or has more than 536870912 bytes, the limit for a log or an image
  [1]
  $ dmlw --explain replay log none out flush
  ! dmlw: 32 File
  !   none can't be read, or has more than 536870912 bytes, the limit for a log or an image
  [1]
  $ dmlw --explain replay log first log flush
  ! dmlw: 32 File
  !   log and log are one file: what is written would replace the log
  [1]
  $ dmlw --explain copy log log 256
  ! dmlw: 32 File
  !   log and log are one file: what is written would replace the log
  [1]
  $ dmlw --explain record none log
  ! dmlw: 32 File
  !   none can't be read, or has more than 4194304 bytes, the limit for a script
  [1]

A log of entries that a log with large sectors can't have, and one that doesn't fit.

  $ write script
  > data 64
  > log 64
  > w a 8 8 41
  > c a
  > w b 16 8 42
  > c b
  > f c
  > c c
  > close
  $ dmlw --explain record script log
  a ok
  b ok
  c ok
  4 20
  $ dmlw --explain copy log out 24
  ! dmlw: 18 Full after 0 entries
  !   the next entry of log, in sectors of 512 bytes: 0 @1 write 8+8
  !   it doesn't fit: give the new log more sectors
  [1]
  $ dmlw --explain replay log first out flush
  ! dmlw: 27 PastTarget after 1 entries
  !   the next entry of log, in sectors of 512 bytes: 1 @10 write 16+8
  !   it reaches past the end of the image, which must be as large as the recorded device
  !   first has 16 sectors of 512 bytes
  [1]

A log that is too small, and a moment past the last event of its run.

  $ write script
  > data 16
  > log 3
  > w a 5 1 41 fua
  > c a
  > w b 6 1 42 fua
  > c b
  > close
  $ dmlw --explain record script log
  a ok
  b ok
  0 0 logging_disabled
  !   script: the entries don't fit in the log: one of 7 sectors has room for all requests and marks of the script (line `log <sectors>`)
  [3]
  $ dmlw --explain judge script 99 first
  ! dmlw: 34 BadMoment
  !   the run of script has 5 events; you asked for 99
  [1]

A moment past the end of logging, which ended before the script did.

  $ write script
  > data 16
  > log 3
  > w a 5 1 41 fua
  > c a
  > turn
  > close
  $ dmlw --explain judge script 99 first
  ! dmlw: 34 BadMoment
  !   the run of script has 2 events before logging ended; you asked for 99
  [1]

A layer that ends past what stands beneath it, and a request past its top.

  $ write script
  > data 16
  > log 32
  > data-layer 0 8 linear disk 8
  > data-layer 0 8 linear disk 1
  $ dmlw --explain record script log
  ! dmlw: line 4: 12 OutOfRange
  !   line 4 of script: data-layer 0 8 linear disk 1
  !   the layer 1+8 ends past the device below it, which has 8 sectors, counted from 0
  [1]
  $ write script
  > data 16
  > log 32
  > data-layer 0 8 linear disk 8
  > w a 8 1 41
  $ dmlw --explain record script log
  ! dmlw: line 4: 3 PastEnd
  !   line 4 of script: w a 8 1 41
  !   the request 8+1 reaches past the data disk, which has 8 sectors, counted from 0, seen from the top of its layers
  [1]
  $ write script
  > data 16
  > log 32
  > data-layer 0 8 linear disk 8
  > close
  $ dmlw --explain record script log
  1 1
  $ dmlw --explain judge script 0 first
  ! dmlw: 34 BadMoment
  !   the image first has 16 sectors, and the data disk of script 8, seen from the top of its layers
  [1]
