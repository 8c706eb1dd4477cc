Files and outputs that fail, and what is told then.

  $ write script
  > data 16
  > log 32
  > w a 5 1 41
  > c a
  > f b
  > c b
  > close
  $ write small
  > data 1
  > log 32
  $ image sector 512
  $ image short 100
  $ dmlw record other log
  ! dmlw: 32 File
  [1]
  $ dmlw record script fixed
  a ok
  b ok
  3 4
  ! dmlw: 32 File
  [1]
  $ dmlw record script script
  ! dmlw: 32 File
  [1]
  $ show log
  no such file
  $ dmlw list other
  ! dmlw: 32 File
  [1]
  $ dmlw status other
  ! dmlw: 32 File
  [1]
  $ dmlw judge none 0 sector
  ! dmlw: 32 File
  [1]
  $ dmlw judge small 0 none
  ! dmlw: 32 File
  [1]
  $ dmlw judge small 0 short
  ! dmlw: 32 File
  [1]

An output with room for too few bytes: each command is refused whatever room there is, and no file is written.

  $ narrow dmlw record script log
  > a ok
  > b ok
  > 3 4
  14 outputs
  ! dmlw: 32 File
  [1]
  $ show log
  no such file
  $ dmlw record script log
  a ok
  b ok
  3 4
  $ narrow dmlw list log
  > super version 1 entries 3 sectorsize 512
  > 0 @1 write 5+1
  > 1 @3 flush
  > 2 @4 mark dm-log-writes-end
  95 outputs
  ! dmlw: 32 File
  [1]
  $ narrow dmlw status log
  > 3 4
  4 outputs
  ! dmlw: 32 File
  [1]
  $ image first 8192
  $ narrow dmlw replay log first out flush
  > replayed 2
  11 outputs
  ! dmlw: 32 File
  [1]
  $ show out
  no such file
  $ narrow dmlw judge small 0 sector
  > yes
  4 outputs
  ! dmlw: 32 File
  [1]

An output whose reader is gone: the rest is dropped, and the command goes on.

  $ remove log
  $ pipe:0 dmlw record script log
  $ same log log
  same
  $ remove log
  $ pipe:1 dmlw record script log
  a
  (no line feed)
  $ same log log
  same
  $ remove log
  $ pipe:2 dmlw record script log
  a 
  (no line feed)
  $ same log log
  same
  $ remove log
  $ pipe:3 dmlw record script log
  a o
  (no line feed)
  $ same log log
  same
  $ remove log
  $ pipe:4 dmlw record script log
  a ok
  (no line feed)
  $ same log log
  same
  $ remove log
  $ pipe:5 dmlw record script log
  a ok
  $ same log log
  same
  $ remove log
  $ pipe:6 dmlw record script log
  a ok
  b
  (no line feed)
  $ same log log
  same
  $ remove log
  $ pipe:7 dmlw record script log
  a ok
  b 
  (no line feed)
  $ same log log
  same
  $ remove log
  $ pipe:8 dmlw record script log
  a ok
  b o
  (no line feed)
  $ same log log
  same
  $ remove log
  $ pipe:9 dmlw record script log
  a ok
  b ok
  (no line feed)
  $ same log log
  same
  $ remove log
  $ pipe:10 dmlw record script log
  a ok
  b ok
  $ same log log
  same
  $ remove log
  $ pipe:11 dmlw record script log
  a ok
  b ok
  3
  (no line feed)
  $ same log log
  same
  $ remove log
  $ pipe:12 dmlw record script log
  a ok
  b ok
  3 
  (no line feed)
  $ same log log
  same
  $ remove log
  $ pipe:13 dmlw record script log
  a ok
  b ok
  3 4
  (no line feed)
  $ same log log
  same

One with no memory for more, and one that can't be flushed.

  $ remove log
  $ memory:0 dmlw record script log
  ! dmlw: 2 Memory
  [1]
  $ show log
  no such file
  $ stuck:full dmlw record script log
  a ok
  b ok
  3 4
  ! dmlw: 32 File
  [1]
  $ show log
  no such file
  $ stuck:memory dmlw record script log
  a ok
  b ok
  3 4
  ! dmlw: 2 Memory
  [1]
  $ show log
  no such file
  $ quiet dmlw record script log
  $ full:0 dmlw list log
  ! dmlw: 32 File
  [1]
  $ full:0 dmlw status log
  ! dmlw: 32 File
  [1]
  $ full:0 dmlw replay log first out flush
  ! dmlw: 32 File
  [1]
  $ show out
  no such file
  $ full:0 dmlw judge small 0 sector
  ! dmlw: 32 File
  [1]
  $ memory:0 dmlw list log
  ! dmlw: 2 Memory
  [1]
  $ memory:0 dmlw status log
  ! dmlw: 2 Memory
  [1]
  $ memory:0 dmlw replay log first out flush
  ! dmlw: 2 Memory
  [1]
  $ show out
  no such file
  $ memory:0 dmlw judge small 0 sector
  ! dmlw: 2 Memory
  [1]
  $ stuck:full dmlw list log
  super version 1 entries 3 sectorsize 512
  0 @1 write 5+1
  1 @3 flush
  2 @4 mark dm-log-writes-end
  ! dmlw: 32 File
  [1]
  $ stuck:full dmlw status log
  3 4
  ! dmlw: 32 File
  [1]
  $ stuck:full dmlw replay log first out flush
  replayed 2
  ! dmlw: 32 File
  [1]
  $ show out
  no such file
  $ stuck:full dmlw judge small 0 sector
  yes
  ! dmlw: 32 File
  [1]
  $ stuck:memory dmlw list log
  super version 1 entries 3 sectorsize 512
  0 @1 write 5+1
  1 @3 flush
  2 @4 mark dm-log-writes-end
  ! dmlw: 2 Memory
  [1]
  $ stuck:memory dmlw status log
  3 4
  ! dmlw: 2 Memory
  [1]
  $ stuck:memory dmlw replay log first out flush
  replayed 2
  ! dmlw: 2 Memory
  [1]
  $ show out
  no such file
  $ stuck:memory dmlw judge small 0 sector
  yes
  ! dmlw: 2 Memory
  [1]

Texts that are shown are flushed too, and so are faults.

  $ stuck:full dmlw help list
  Lists the entries of a log
  
  Usage: dmlw list <LOG>
  
  Arguments:
    <LOG>  The log to read
  
  Options:
    -h, --help  Print help
  ! dmlw: 32 File
  [1]
  $ stuck:full dmlw --version
  dmlw 1.1.0-pre.3 (log format version 1)
  ! dmlw: 32 File
  [1]
  $ deaf dmlw frob
  ! error: unrecognized subcommand 'frob'
  ! 
  ! Usage: dmlw <COMMAND>
  ! 
  ! For more information, try '--help'.
  (not all told)
  [2]
  $ deaf dmlw judge small x sector
  ! error: invalid value 'x' for '<M>'
  !   [possible values: a number of 1 to 20 digits, below 2^64]
  ! 
  ! For more information, try 'dmlw help judge'.
  (not all told)
  [2]
  $ deaf dmlw list none
  ! dmlw: 32 File
  (not all told)
  [1]
