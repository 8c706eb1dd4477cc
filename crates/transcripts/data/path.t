How an image could have come to the device: a run of a device with a cache that submits and ends these requests in this order, and leaves the image. A write lands in the
cache, a sector is destaged to what power leaves, and the device's power goes at the end.

  $ write script
  > data 16
  > log 32
  > w a 3 1 01
  > w b 3 1 02
  > c a
  > c b
  > f g
  > c g
  $ image zeroes 8192
  $ image one 8192 1536:=01*512
  $ image two 8192 1536:=02*512
  $ image three 8192 1536:=03*512

Before the flush: neither write, the first or the second has reached the disk.

  $ dmlw path script 4 zeroes
  submit 0
  land 0 3
  submit 1
  land 1 3
  end 0 ok
  end 1 ok
  power
  $ dmlw path script 4 one
  submit 0
  submit 1
  land 1 3
  land 0 3
  destage 3
  end 0 ok
  end 1 ok
  power
  $ dmlw path script 4 two
  submit 0
  land 0 3
  submit 1
  end 0 ok
  land 1 3
  destage 3
  end 1 ok
  power

No write has this value, and the verdict is printed.

  $ dmlw path script 4 three
  no sector 3 holds no submitted value
  [1]
  $ dmlw judge script 4 three
  no sector 3 holds no submitted value
  [1]

After the flush both writes ended before it, so one of them is on the disk.

  $ dmlw path script 6 one
  submit 0
  submit 1
  land 1 3
  destage 3
  land 0 3
  destage 3
  end 0 ok
  end 1 ok
  submit 4
  end 4 ok
  power
  $ dmlw path script 6 two
  submit 0
  land 0 3
  destage 3
  submit 1
  end 0 ok
  land 1 3
  destage 3
  end 1 ok
  submit 4
  end 4 ok
  power
  $ dmlw path script 6 zeroes
  no sector 3 ruled out by event 1
  [1]
  $ dmlw judge script 6 zeroes
  no sector 3 ruled out by event 1
  [1]

At no event the disk is as it was; past the last one there is no moment.

  $ dmlw path script 0 zeroes
  power
  $ dmlw path script 7 one
  ! dmlw: 34 BadMoment
  [1]
  $ dmlw path script 18446744073709551616 one
  ! error: invalid value '18446744073709551616' for '<M>'
  !   [possible values: a number of 1 to 20 digits, below 2^64]
  ! 
  ! For more information, try 'dmlw help judge'.
  [2]

A flush is held back by nothing: what it made sure stays, and the FUA write's value stands over the older one.

  $ write fua
  > data 16
  > log 32
  > w a 5 1 61
  > c a
  > w b 5 1 62 fua
  > c b
  > f g
  > c g
  > close
  $ image old 8192 2560:=61*512
  $ image new 8192 2560:=62*512
  $ dmlw path fua 2 old
  submit 0
  land 0 5
  destage 5
  end 0 ok
  power
  $ dmlw path fua 4 new
  submit 0
  land 0 5
  destage 5
  end 0 ok
  submit 2
  land 2 5
  destage 5
  end 2 ok
  power
  $ dmlw path fua 4 old
  no sector 5 ruled out by event 2
  [1]
  $ dmlw path fua 7 new
  submit 0
  land 0 5
  destage 5
  end 0 ok
  submit 2
  land 2 5
  destage 5
  end 2 ok
  submit 4
  end 4 ok
  power

A request that failed may have landed or not.

  $ write failing
  > data 16
  > log 32
  > data-layer 0 16 error
  > w a 3 1 01
  > c a
  > f g
  > c g
  $ dmlw path failing 4 one
  submit 0
  land 0 3
  destage 3
  end 0 failed
  submit 2
  end 2 failed
  power
  $ dmlw path failing 4 zeroes
  submit 0
  end 0 failed
  submit 2
  end 2 failed
  power

With log sectors of 4,096 bytes, and a discard: each beginning of the log is a disk that a run leaves.

  $ write large
  > data 16
  > log 64 4096
  > w a 0 8 41
  > c a
  > f b
  > c b
  > d c 0 8
  > c c
  > close
  $ quiet dmlw record large log
  $ dmlw replay log zeroes image entries:2
  replayed 2
  $ dmlw path large 4 image
  submit 0
  land 0 0
  destage 0
  land 0 1
  destage 1
  land 0 2
  destage 2
  land 0 3
  destage 3
  land 0 4
  destage 4
  land 0 5
  destage 5
  land 0 6
  destage 6
  land 0 7
  destage 7
  end 0 ok
  submit 2
  end 2 ok
  power
  $ dmlw replay log zeroes image entries:3
  replayed 3
  $ dmlw path large 6 image
  submit 0
  land 0 0
  destage 0
  land 0 1
  destage 1
  land 0 2
  destage 2
  land 0 3
  destage 3
  land 0 4
  destage 4
  land 0 5
  destage 5
  land 0 6
  destage 6
  land 0 7
  destage 7
  end 0 ok
  submit 2
  end 2 ok
  submit 4
  land 4 0
  destage 0
  land 4 1
  destage 1
  land 4 2
  destage 2
  land 4 3
  destage 3
  land 4 4
  destage 4
  land 4 5
  destage 5
  land 4 6
  destage 6
  land 4 7
  destage 7
  end 4 ok
  power

The first entry of a log, replayed over zeroes: before the flush's end there is a run that leaves it, afterwards there is none.

  $ write spliced
  > data 64
  > log 32
  > w w1 10 1 11
  > w w2 20 1 22
  > w w3 30 1 33
  > c w3
  > c w2
  > f wf
  > c w1
  > c wf
  > close
  $ quiet dmlw record spliced log
  $ image blank 32768
  $ dmlw replay log blank image entries:1
  replayed 1
  $ dmlw path spliced 7 image
  submit 0
  land 0 10
  submit 1
  land 1 20
  submit 2
  land 2 30
  destage 30
  end 2 ok
  end 1 ok
  submit 5
  end 0 ok
  power
  $ dmlw path spliced 8 image
  no sector 20 ruled out by event 1
  [1]

Of two open flushes the later one ends first: each beginning of the log is a disk that a run leaves.

  $ write overtaken
  > data 16
  > log 32
  > w a 5 1 61
  > c a
  > f f0
  > f f1
  > c f1
  > w x 9 1 63 fua
  > c x
  > c f0
  > close
  $ quiet dmlw record overtaken log
  $ dmlw replay log zeroes image entries:1
  replayed 1
  $ dmlw path overtaken 4 image
  submit 0
  land 0 5
  destage 5
  end 0 ok
  submit 2
  submit 3
  power
  $ dmlw path overtaken 5 image
  submit 0
  land 0 5
  destage 5
  end 0 ok
  submit 2
  submit 3
  end 3 ok
  power
  $ dmlw path overtaken 5 zeroes
  no sector 5 ruled out by event 0
  [1]
  $ dmlw replay log zeroes image entries:3
  replayed 3
  $ dmlw path overtaken 6 image
  submit 0
  land 0 5
  destage 5
  end 0 ok
  submit 2
  submit 3
  end 3 ok
  submit 5
  land 5 9
  destage 9
  power
  $ dmlw path overtaken 9 image
  submit 0
  land 0 5
  destage 5
  end 0 ok
  submit 2
  submit 3
  end 3 ok
  submit 5
  land 5 9
  destage 9
  end 5 ok
  end 2 ok
  power

What isn't a script, an image or a moment is refused as by `judge`.

  $ dmlw path one 0 one
  ! dmlw: line 1: 30 BadLine
  [1]
  $ dmlw path script 0 absent
  ! dmlw: 32 File
  [1]
  $ dmlw path script x one
  ! error: invalid value 'x' for '<M>'
  !   [possible values: a number of 1 to 20 digits, below 2^64]
  ! 
  ! For more information, try 'dmlw help judge'.
  [2]
  $ dmlw path script 0
  ! error: the following required arguments were not provided:
  !   <IMAGE>
  ! 
  ! Usage: dmlw path <SCRIPT> <M> <IMAGE>
  ! 
  ! For more information, try '--help'.
  [2]

With --explain each step has its line of the script, on the standard error: a destage has that of what landed last, and power goes after the last call's.

  $ dmlw path script 6 one --explain
  submit 0
  submit 1
  land 1 3
  destage 3
  land 0 3
  destage 3
  end 0 ok
  end 1 ok
  submit 4
  end 4 ok
  power
  !   the steps and their lines of script:
  !     submit 0: line 3: w a 3 1 01
  !     submit 1: line 4: w b 3 1 02
  !     land 1 3: line 4: w b 3 1 02
  !     destage 3: line 4: w b 3 1 02
  !     land 0 3: line 3: w a 3 1 01
  !     destage 3: line 3: w a 3 1 01
  !     end 0 ok: line 5: c a
  !     end 1 ok: line 6: c b
  !     submit 4: line 7: f g
  !     end 4 ok: line 8: c g
  !     power: after line 8: c g

Lines that are no events have no step, and a mark has none either. Power that goes before the first event has no line.

  $ write marked
  > # A comment, an empty line, a moment and a mark.
  > data 16
  > log 32
  > 
  > at 5
  > w a 3 1 01
  > mark w b 3 1 02
  > turn
  > c a
  $ dmlw --explain path marked 0 zeroes
  power
  !   the steps and their lines of marked:
  !     power
  $ dmlw path marked --explain 3 one
  submit 0
  land 0 3
  destage 3
  end 0 ok
  power
  !   the steps and their lines of marked:
  !     submit 0: line 6: w a 3 1 01
  !     land 0 3: line 6: w a 3 1 01
  !     destage 3: line 6: w a 3 1 01
  !     end 0 ok: line 9: c a
  !     power: after line 9: c a

Where no run leaves the image, there is nothing to explain.

  $ dmlw --explain path script 4 three
  no sector 3 holds no submitted value
  [1]
