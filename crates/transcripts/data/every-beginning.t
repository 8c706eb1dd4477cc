Each beginning of a log, at each moment that it belongs to, could have been on the disk. Moment m is after the first m events, of which a script's lines are one each, counted from 0; after them the completion list
has q(m) entries. A beginning of n entries belongs to moment m if n is at least q(m) and at most q(m + 1), and to the last moment if it is whole.

What `splice-order.t` records, of which `early-beginning.t` judges a beginning of one entry. The flush's end, event 7, brings three entries, the close two. q is 0, 0, 0, 0, 0, 0, 0, 0, 3, 5.

  $ write script
  > data 64
  > log 32
  > w w1 10 1 11
  > w w2 20 1 22
  > w w3 30 1 33
  > c w3
  > c w2
  > f wf
  > c w1
  > c wf
  > close
  $ quiet dmlw record script log
  $ image zeroes 32768
  $ dmlw replay log zeroes image entries:0
  replayed 0
  $ dmlw judge script 0 image
  yes
  $ dmlw judge script 1 image
  yes
  $ dmlw judge script 2 image
  yes
  $ dmlw judge script 3 image
  yes
  $ dmlw judge script 4 image
  yes
  $ dmlw judge script 5 image
  yes
  $ dmlw judge script 6 image
  yes
  $ dmlw judge script 7 image
  yes
  $ dmlw replay log zeroes image entries:1
  replayed 1
  $ dmlw judge script 7 image
  yes
  $ dmlw replay log zeroes image entries:2
  replayed 2
  $ dmlw judge script 7 image
  yes
  $ dmlw replay log zeroes image entries:3
  replayed 3
  $ dmlw judge script 7 image
  yes
  $ dmlw judge script 8 image
  yes
  $ dmlw replay log zeroes image entries:4
  replayed 4
  $ dmlw judge script 8 image
  yes
  $ dmlw replay log zeroes image entries:5
  replayed 5
  $ dmlw judge script 8 image
  yes
  $ dmlw judge script 9 image
  yes
What `fua-overtakes.t` records. The end of `b`, event 3, brings `a` and `b`, the flush's end, event 5, the flush. q is 0, 0, 0, 0, 2, 2, 3, 4.

  $ write script
  > data 16
  > log 32
  > w a 5 1 61
  > c a
  > w b 5 1 62 fua
  > c b
  > f g
  > c g
  > close
  $ quiet dmlw record script log
  $ image zeroes 8192
  $ dmlw replay log zeroes image entries:0
  replayed 0
  $ dmlw judge script 0 image
  yes
  $ dmlw judge script 1 image
  yes
  $ dmlw judge script 2 image
  yes
  $ dmlw judge script 3 image
  yes
  $ dmlw replay log zeroes image entries:1
  replayed 1
  $ dmlw judge script 3 image
  yes
  $ dmlw replay log zeroes image entries:2
  replayed 2
  $ dmlw judge script 3 image
  yes
  $ dmlw judge script 4 image
  yes
  $ dmlw judge script 5 image
  yes
  $ dmlw replay log zeroes image entries:3
  replayed 3
  $ dmlw judge script 5 image
  yes
  $ dmlw judge script 6 image
  yes
  $ dmlw replay log zeroes image entries:4
  replayed 4
  $ dmlw judge script 6 image
  yes
  $ dmlw judge script 7 image
  yes
What `flush-overtakes.t` records. The end of `f1`, event 4, brings `a` and `f1`; then each end brings one entry. q is 0, 0, 0, 0, 0, 2, 2, 3, 4, 5.

  $ write script
  > data 16
  > log 32
  > w a 5 1 61
  > c a
  > f f0
  > f f1
  > c f1
  > w x 9 1 63 fua
  > c x
  > c f0
  > close
  $ quiet dmlw record script log
  $ image zeroes 8192
  $ dmlw replay log zeroes image entries:0
  replayed 0
  $ dmlw judge script 0 image
  yes
  $ dmlw judge script 1 image
  yes
  $ dmlw judge script 2 image
  yes
  $ dmlw judge script 3 image
  yes
  $ dmlw judge script 4 image
  yes
  $ dmlw replay log zeroes image entries:1
  replayed 1
  $ dmlw judge script 4 image
  yes
  $ dmlw replay log zeroes image entries:2
  replayed 2
  $ dmlw judge script 4 image
  yes
  $ dmlw judge script 5 image
  yes
  $ dmlw judge script 6 image
  yes
  $ dmlw replay log zeroes image entries:3
  replayed 3
  $ dmlw judge script 6 image
  yes
  $ dmlw judge script 7 image
  yes
  $ dmlw replay log zeroes image entries:4
  replayed 4
  $ dmlw judge script 7 image
  yes
  $ dmlw judge script 8 image
  yes
  $ dmlw replay log zeroes image entries:5
  replayed 5
  $ dmlw judge script 8 image
  yes
  $ dmlw judge script 9 image
  yes
A FUA write over `b`, which is over `a`: its end, event 7, brings the three. `q` is over none of them, and waits for the close. q is 0, 0, 0, 0, 0, 0, 0, 0, 3, 5.

  $ write script
  > data 16
  > log 32
  > w q 9 1 44
  > c q
  > w a 5 2 11
  > c a
  > w b 6 2 22
  > c b
  > w x 7 1 33 fua
  > c x
  > close
  $ quiet dmlw record script log
  $ image zeroes 8192
  $ dmlw replay log zeroes image entries:0
  replayed 0
  $ dmlw judge script 0 image
  yes
  $ dmlw judge script 1 image
  yes
  $ dmlw judge script 2 image
  yes
  $ dmlw judge script 3 image
  yes
  $ dmlw judge script 4 image
  yes
  $ dmlw judge script 5 image
  yes
  $ dmlw judge script 6 image
  yes
  $ dmlw judge script 7 image
  yes
  $ dmlw replay log zeroes image entries:1
  replayed 1
  $ dmlw judge script 7 image
  yes
  $ dmlw replay log zeroes image entries:2
  replayed 2
  $ dmlw judge script 7 image
  yes
  $ dmlw replay log zeroes image entries:3
  replayed 3
  $ dmlw judge script 7 image
  yes
  $ dmlw judge script 8 image
  yes
  $ dmlw replay log zeroes image entries:4
  replayed 4
  $ dmlw judge script 8 image
  yes
  $ dmlw replay log zeroes image entries:5
  replayed 5
  $ dmlw judge script 8 image
  yes
  $ dmlw judge script 9 image
  yes
