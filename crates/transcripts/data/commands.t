Command lines after one another, on what the ones before have written.

  $ write script
  > data 16
  > log 32
  > w a 5 1 41
  > c a
  > f b
  > c b
  > close
  $ write dust
  > data 16
  > log 32
  > data-layer 0 16 dust disk 0 512
  > data-layer 0 14 linear disk 2
  > data-layer 0 12 dust disk 2 1024
  > data-layer 0 12 delay disk 0 10 disk 0 20
  > message data 1 addbadblock 6 1
  > message data 3 addbadblock 0
  > message data 3 enable
  > message data 1 enable
  > w a 0 2 11
  > c a
  > w b 2 1 22
  > c b
  > w d 2 1 33
  > c d
  > r 0 3
  > message data 1 addbadblock 16
  > close
  $ image zeroes 8192
  $ dmlw record script log
  a ok
  b ok
  3 4
  $ dmlw list log
  super version 1 entries 3 sectorsize 512
  0 @1 write 5+1
  1 @3 flush
  2 @4 mark dm-log-writes-end
  $ dmlw status log
  3 4
  $ dmlw replay log zeroes image flush
  replayed 2
  $ dmlw judge script 4 image
  yes
  $ dmlw judge script 5 image
  yes
  $ dmlw judge script 0004 image
  yes
  $ dmlw judge script 0 zeroes
  yes
  $ dmlw judge script 3 zeroes
  yes
  $ dmlw judge script 4 zeroes
  no sector 5 ruled out by event 0
  [1]
  $ dmlw judge script 0 image
  no sector 5 holds no submitted value
  [1]
  $ dmlw judge script 6 image
  ! dmlw: 34 BadMoment
  [1]
  $ dmlw judge script 18446744073709551615 image
  ! dmlw: 34 BadMoment
  [1]
  $ dmlw judge image 0 image
  ! dmlw: line 1: 30 BadLine
  [1]
  $ dmlw judge script 0 absent
  ! dmlw: 32 File
  [1]
  $ dmlw replay log zeroes none entries:0
  replayed 0
  $ dmlw judge script 0 none
  yes
  $ dmlw replay log zeroes whole mark:dm-log-writes-end
  replayed 3
  $ dmlw replay log whole whole entries:3
  replayed 3
  $ dmlw replay log zeroes other mark:
  ! dmlw: 25 NoSuchMark after 0 entries
  [1]
  $ dmlw replay log zeroes other entries:4
  ! dmlw: 33 PastEntries after 0 entries
  [1]
  $ dmlw replay log zeroes other entries:18446744073709551615
  ! dmlw: 33 PastEntries after 0 entries
  [1]
  $ dmlw replay log zeroes log flush
  ! dmlw: 32 File
  [1]
  $ dmlw replay log absent other flush
  ! dmlw: 32 File
  [1]
  $ dmlw replay log zeroes fixed flush
  replayed 2
  ! dmlw: 32 File
  [1]
  $ dmlw replay zeroes zeroes other flush
  ! dmlw: 13 BadMagic
  [1]
  $ dmlw replay -- log zeroes -x flush
  replayed 2
  $ dmlw judge -- script 4 -x
  yes
  $ dmlw record dust dustlog
  a ok
  b failed
  d ok
  read 0+3 ok 111133
  ! dmlw: line 18: 6 BadMessage
  [1]
  $ show image
  8192 bytes
  5: 41*512
  $ same whole image
  same
  $ same none zeroes
  same

A word that is none of those that stand in its place.

  $ dmlw replay script zeroes other what
  ! error: invalid value 'what' for '<WHAT>'
  !   [possible values: entries:<n> with n below 2^64, mark:<text>, flush]
  ! 
  ! For more information, try 'dmlw help replay'.
  [2]
  $ dmlw replay script zeroes other entries:18446744073709551616
  ! error: invalid value 'entries:18446744073709551616' for '<WHAT>'
  !   [possible values: entries:<n> with n below 2^64, mark:<text>, flush]
  ! 
  ! For more information, try 'dmlw help replay'.
  [2]
  $ dmlw replay script zeroes other entries:000000000000000000001
  ! error: invalid value 'entries:000000000000000000001' for '<WHAT>'
  !   [possible values: entries:<n> with n below 2^64, mark:<text>, flush]
  ! 
  ! For more information, try 'dmlw help replay'.
  [2]
  $ dmlw replay script zeroes other entries:
  ! error: invalid value 'entries:' for '<WHAT>'
  !   [possible values: entries:<n> with n below 2^64, mark:<text>, flush]
  ! 
  ! For more information, try 'dmlw help replay'.
  [2]
  $ dmlw replay script zeroes other entries:1x
  ! error: invalid value 'entries:1x' for '<WHAT>'
  !   [possible values: entries:<n> with n below 2^64, mark:<text>, flush]
  ! 
  ! For more information, try 'dmlw help replay'.
  [2]
  $ dmlw replay script zeroes other flush2
  ! error: invalid value 'flush2' for '<WHAT>'
  !   [possible values: entries:<n> with n below 2^64, mark:<text>, flush]
  ! 
  ! For more information, try 'dmlw help replay'.
  [2]
  $ dmlw replay script zeroes other mark
  ! error: invalid value 'mark' for '<WHAT>'
  !   [possible values: entries:<n> with n below 2^64, mark:<text>, flush]
  ! 
  ! For more information, try 'dmlw help replay'.
  [2]
  $ dmlw replay script zeroes other --explain Flush
  ! error: invalid value 'Flush' for '<WHAT>'
  !   [possible values: entries:<n> with n below 2^64, mark:<text>, flush]
  ! 
  ! For more information, try 'dmlw help replay'.
  [2]
  $ dmlw judge script x zeroes
  ! error: invalid value 'x' for '<M>'
  !   [possible values: a number of 1 to 20 digits, below 2^64]
  ! 
  ! For more information, try 'dmlw help judge'.
  [2]
  $ dmlw judge script 18446744073709551616 zeroes
  ! error: invalid value '18446744073709551616' for '<M>'
  !   [possible values: a number of 1 to 20 digits, below 2^64]
  ! 
  ! For more information, try 'dmlw help judge'.
  [2]
  $ dmlw judge script +1 zeroes
  ! error: invalid value '+1' for '<M>'
  !   [possible values: a number of 1 to 20 digits, below 2^64]
  ! 
  ! For more information, try 'dmlw help judge'.
  [2]
  $ dmlw judge script --explain 1.0 zeroes
  ! error: invalid value '1.0' for '<M>'
  !   [possible values: a number of 1 to 20 digits, below 2^64]
  ! 
  ! For more information, try 'dmlw help judge'.
  [2]
