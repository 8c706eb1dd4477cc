Sessions of `dmlw serve`, byte for byte. bench/sessions.py plays them. Each expected byte comes from the protocol
(doc/proto.md of the NetworkBlockDevice project), from docs/FORMATS.md or from a count by hand, never only from the
program.

A paragraph at the margin names a session, which begins without files. The commands of the session follow. `head` writes
the file `head` from its lines, and the file `first`, which has as many zeroes as the data disk has bytes. `first` gives
the first bytes of that file, and `length` its length. `write` writes a file from its lines, and `show` prints the
sectors of a file that aren't zeroes. `dmlw` is the program. Below a command are its output, its standard error after
`!`, and its status in brackets if it isn't 0.

Below `dmlw serve` is a dialog in bytes. What the client sends is after `>`, and what the server has to send is between
these lines. The client sends a line when it has got all answers above it. A line after `+` is appended to the file
`marks`, with its escapes (a line feed is `\n`). After `~` is a number of seconds for which the client waits. After the
last line the client's bytes end.

A word of these bytes is hexadecimal digits, or such as `41*512`, which is 512 bytes 41, or a name. The lines with `=`
give the names their bytes. `#` begins a remark.

NBDMAGIC, IHAVEOPT, and the flags: the fixed newstyle, and no zeroes if the client refuses them.
  = GREETING 4e42444d41474943 49484156454f5054 0003

What an option begins with (IHAVEOPT), and its replies. The option's number follows; then, in a reply, its type: 1
acknowledges, 2 is an export, 3 is an information, and an error has the highest bit; and then the length of the data.
  = OPTION 49484156454f5054
  = ANSWER 0003e889045565a9

What a request begins with, and a reply. In a request the flags (0001 is FUA), the type (0 reads, 1 writes, 2
disconnects, 3 flushes, 4 trims), 8 bytes that name the request, the offset and the length follow. In a reply the error
and the request's name follow. The errors are 5 (EIO), 0c (ENOMEM), 16 (EINVAL) and 1c (ENOSPC).
  = REQUEST 25609513
  = REPLY 67446698

A client's handshake: its flags (the fixed newstyle, no zeroes), and GO (7) with an empty name and no wish. The server
answers that the export has 32,768 bytes, and flushes, FUA and trims (2d); that requests are whole blocks of 512 bytes,
best of 4,096, and at most 1,048,576; and that it goes on.
  = HELLO 00000003 OPTION 00000007 00000006 00000000 0000
  = BEGUN GREETING ANSWER 00000007 00000003 0000000c 0000 0000000000008000 002d
  = BLOCKS ANSWER 00000007 00000003 0000000e 0003 00000200 00001000 00100000
  = GOES-ON BLOCKS ANSWER 00000007 00000001 00000000

A shorter handshake, for disks of other sizes: EXPORT_NAME (1) with an empty name. The server answers with the length in
bytes and the flags.
  = BY-NAME 00000003 OPTION 00000001 00000000

What ends a session.
  = LEAVE REQUEST 0000 0002 6c65617665212121 0000000000000000 00000000


---- requests ----

A plain write is logged when recording is closed, at the latest.
  $ head
  > data 64
  > log 256
  $ dmlw serve head first log
  > HELLO
  BEGUN GOES-ON
  > REQUEST 0000 0001 0000000000000001 0000000000000600 00000200 41*512    # sector 3
  REPLY 00000000 0000000000000001
  > LEAVE
  ! 2 3
  ! requests: 0 reads, 1 writes, 0 flushes, 0 trims; 0 with FUA, 0 split
  $ dmlw list log
  super version 1 entries 2 sectorsize 512
  0 @1 write 3+1
  1 @3 mark dm-log-writes-end
  $ dmlw replay log first out entries:2
  replayed 2
  $ show out
  32768 bytes
  3: 41*512

The log's bytes: the super block with two entries, the entry of a write and its data, and the end mark.
  $ head
  > data 64
  > log 256
  $ dmlw serve head first log
  > HELLO
  BEGUN GOES-ON
  > REQUEST 0001 0001 0000000000000001 0000000000000a00 00000400 41*512 42*512
  REPLY 00000000 0000000000000001
  > LEAVE
  ! 2 4
  ! requests: 0 reads, 1 writes, 0 flushes, 0 trims; 1 with FUA, 0 split
  $ show log
  131072 bytes
  0: 72 68 73 77 66 73 6a 00 01 00*7 02 00*8 02 00*486
  1: 05 00*7 02 00*7 02 00*495
  2: 41*512
  3: 42*512
  4: 00*16 08 00*7 11 00*7 64 6d 2d 6c 6f 67 2d 77 72 69 74 65 73 2d 65 6e 64 00*463

A read sends the data: what the disk held at first, and what was written.
  $ head
  > data 64
  > log 256
  $ first 11*512 22*512 33*512
  $ dmlw serve head first log
  > HELLO
  BEGUN GOES-ON
  > REQUEST 0000 0001 0000000000000001 0000000000000200 00000200 41*512
  REPLY 00000000 0000000000000001
  > REQUEST 0000 0000 0000000000000002 0000000000000000 00000800
  REPLY 00000000 0000000000000002 11*512 41*512 33*512 00*512
  > LEAVE
  ! 2 3
  ! requests: 1 reads, 1 writes, 0 flushes, 0 trims; 0 with FUA, 0 split
  $ dmlw list log
  super version 1 entries 2 sectorsize 512
  0 @1 write 1+1
  1 @3 mark dm-log-writes-end

The first and the last sector of the disk are read and written.
  $ head
  > data 64
  > log 256
  $ dmlw serve head first log
  > HELLO
  BEGUN GOES-ON
  > REQUEST 0000 0001 0000000000000001 0000000000000000 00000200 41*512
  REPLY 00000000 0000000000000001
  > REQUEST 0000 0001 0000000000000002 0000000000007e00 00000200 42*512
  REPLY 00000000 0000000000000002
  > REQUEST 0000 0000 0000000000000003 0000000000000000 00008000
  REPLY 00000000 0000000000000003 41*512 00*31744 42*512
  > LEAVE
  ! 3 5
  ! requests: 1 reads, 2 writes, 0 flushes, 0 trims; 0 with FUA, 0 split
  $ dmlw list log
  super version 1 entries 3 sectorsize 512
  0 @1 write 0+1
  1 @3 write 63+1
  2 @5 mark dm-log-writes-end

A flush is logged after the writes that ended before it.
  $ head
  > data 64
  > log 256
  $ dmlw serve head first log
  > HELLO
  BEGUN GOES-ON
  > REQUEST 0000 0001 0000000000000001 0000000000000600 00000200 41*512
  REPLY 00000000 0000000000000001
  > REQUEST 0000 0003 0000000000000002 0000000000000000 00000000
  REPLY 00000000 0000000000000002
  > REQUEST 0000 0001 0000000000000003 0000000000000600 00000200 42*512
  REPLY 00000000 0000000000000003
  > LEAVE
  ! 4 6
  ! requests: 0 reads, 2 writes, 1 flushes, 0 trims; 0 with FUA, 0 split
  $ dmlw list log
  super version 1 entries 4 sectorsize 512
  0 @1 write 3+1
  1 @3 flush
  2 @4 write 3+1
  3 @6 mark dm-log-writes-end
  $ dmlw replay log first out flush
  replayed 2
  $ show out
  32768 bytes
  3: 41*512

A flush has no sectors, so its offset and its length aren't looked at.
  $ head
  > data 64
  > log 256
  $ dmlw serve head first log
  > HELLO
  BEGUN GOES-ON
  > REQUEST 0000 0003 0000000000000001 ffffffffffffffff ffffffff
  REPLY 00000000 0000000000000001
  > LEAVE
  ! 2 2
  ! requests: 0 reads, 0 writes, 1 flushes, 0 trims; 0 with FUA, 0 split
  $ dmlw list log
  super version 1 entries 2 sectorsize 512
  0 @1 flush
  1 @2 mark dm-log-writes-end

A write with FUA is logged at once, before an earlier plain write of other sectors.
  $ head
  > data 64
  > log 256
  $ dmlw serve head first log
  > HELLO
  BEGUN GOES-ON
  > REQUEST 0000 0001 0000000000000001 0000000000000600 00000200 41*512    # sector 3
  REPLY 00000000 0000000000000001
  > REQUEST 0001 0001 0000000000000002 0000000000000a00 00000200 42*512    # sector 5
  REPLY 00000000 0000000000000002
  > LEAVE
  ! 3 5
  ! requests: 0 reads, 2 writes, 0 flushes, 0 trims; 1 with FUA, 0 split
  $ dmlw list log
  super version 1 entries 3 sectorsize 512
  0 @1 write 5+1 fua
  1 @3 write 3+1
  2 @5 mark dm-log-writes-end

A write with FUA is logged after the earlier writes that overlap it, or that overlap such a one.
  $ head
  > data 64
  > log 256
  $ dmlw serve head first log
  > HELLO
  BEGUN GOES-ON
  > REQUEST 0000 0001 0000000000000001 0000000000000600 00000400 41*1024    # sectors 3 and 4
  REPLY 00000000 0000000000000001
  > REQUEST 0000 0001 0000000000000002 0000000000001400 00000200 42*512     # sector 10
  REPLY 00000000 0000000000000002
  > REQUEST 0000 0001 0000000000000003 0000000000000800 00000400 43*1024    # sectors 4 and 5
  REPLY 00000000 0000000000000003
  > REQUEST 0001 0001 0000000000000004 0000000000000a00 00000200 44*512     # sector 5
  REPLY 00000000 0000000000000004
  > LEAVE
  ! 5 11
  ! requests: 0 reads, 4 writes, 0 flushes, 0 trims; 1 with FUA, 0 split
  $ dmlw list log
  super version 1 entries 5 sectorsize 512
  0 @1 write 3+2
  1 @4 write 4+2
  2 @7 write 5+1 fua
  3 @9 write 10+1
  4 @11 mark dm-log-writes-end
  $ dmlw replay log first out entries:5
  replayed 5
  $ show out
  32768 bytes
  3: 41*512
  4: 43*512
  5: 44*512
  10: 42*512

A trim makes its sectors zeroes, and is logged as a discard.
  $ head
  > data 64
  > log 256
  $ first 11*2048
  $ dmlw serve head first log
  > HELLO
  BEGUN GOES-ON
  > REQUEST 0000 0004 0000000000000001 0000000000000200 00000400
  REPLY 00000000 0000000000000001
  > REQUEST 0000 0000 0000000000000002 0000000000000000 00000800
  REPLY 00000000 0000000000000002 11*512 00*1024 11*512
  > LEAVE
  ! 2 2
  ! requests: 1 reads, 0 writes, 0 flushes, 1 trims; 0 with FUA, 0 split
  $ dmlw list log
  super version 1 entries 2 sectorsize 512
  0 @1 discard 1+2
  1 @2 mark dm-log-writes-end

A flush follows a trim with FUA, because an entry can't be a discard with FUA.
  $ head
  > data 64
  > log 256
  $ dmlw serve head first log
  > HELLO
  BEGUN GOES-ON
  > REQUEST 0000 0001 0000000000000001 0000000000000a00 00000200 41*512
  REPLY 00000000 0000000000000001
  > REQUEST 0001 0004 0000000000000002 0000000000000200 00000400
  REPLY 00000000 0000000000000002
  > LEAVE
  ! 4 5
  ! requests: 0 reads, 1 writes, 0 flushes, 1 trims; 1 with FUA, 0 split
  $ dmlw list log
  super version 1 entries 4 sectorsize 512
  0 @1 write 5+1
  1 @3 discard 1+2
  2 @4 flush
  3 @5 mark dm-log-writes-end

A disconnect has no reply, and what follows it isn't looked at.
  $ head
  > data 64
  > log 256
  $ dmlw serve head first log
  > HELLO
  BEGUN GOES-ON
  > LEAVE REQUEST 0000 0001 0000000000000001 0000000000000600 00000200 41*512
  ! 1 1
  ! requests: 0 reads, 0 writes, 0 flushes, 0 trims; 0 with FUA, 0 split
  $ dmlw list log
  super version 1 entries 1 sectorsize 512
  0 @1 mark dm-log-writes-end

A disconnect needs no offset, length or flags.
  $ head
  > data 64
  > log 256
  $ dmlw serve head first log
  > HELLO
  BEGUN GOES-ON
  > REQUEST ffff 0002 0000000000000001 ffffffffffffffff ffffffff
  ! 1 1
  ! requests: 0 reads, 0 writes, 0 flushes, 0 trims; 0 with FUA, 0 split
  $ dmlw list log
  super version 1 entries 1 sectorsize 512
  0 @1 mark dm-log-writes-end

A client that sends many requests before it reads an answer gets the answers in their order.
  $ head
  > data 64
  > log 256
  $ dmlw serve head first log
  > HELLO
  > REQUEST 0000 0001 00000000000000a1 0000000000000000 00000200 41*512
  > REQUEST 0000 0000 00000000000000a2 0000000000000000 00000200
  > REQUEST 0001 0001 00000000000000a3 0000000000000000 00000200 42*512
  > REQUEST 0000 0000 00000000000000a4 0000000000000000 00000200
  > REQUEST 0000 0004 00000000000000a5 0000000000000000 00000200
  > REQUEST 0000 0000 00000000000000a6 0000000000000000 00000200
  > REQUEST 0000 0003 00000000000000a7 0000000000000000 00000000
  > LEAVE
  BEGUN GOES-ON
  REPLY 00000000 00000000000000a1
  REPLY 00000000 00000000000000a2 41*512
  REPLY 00000000 00000000000000a3
  REPLY 00000000 00000000000000a4 42*512
  REPLY 00000000 00000000000000a5
  REPLY 00000000 00000000000000a6 00*512
  REPLY 00000000 00000000000000a7
  ! 5 7
  ! requests: 3 reads, 2 writes, 1 flushes, 1 trims; 1 with FUA, 0 split
  $ dmlw list log
  super version 1 entries 5 sectorsize 512
  0 @1 write 0+1
  1 @3 write 0+1 fua
  2 @5 discard 0+1
  3 @6 flush
  4 @7 mark dm-log-writes-end

A request that comes in pieces is done when it is whole.
  $ head
  > data 64
  > log 256
  $ dmlw serve head first log
  > 000000
  GREETING
  > 03 OPTION 000000
  > 07 00000006 0000
  > 0000 0000
  ANSWER 00000007 00000003 0000000c 0000 0000000000008000 002d GOES-ON
  > 2560
  > 9513 0000 0001 00000000
  > 00000001 0000000000000600 00000200 41*100
  > 41*412
  REPLY 00000000 0000000000000001
  > LEAVE
  ! 2 3
  ! requests: 0 reads, 1 writes, 0 flushes, 0 trims; 0 with FUA, 0 split
  $ dmlw list log
  super version 1 entries 2 sectorsize 512
  0 @1 write 3+1
  1 @3 mark dm-log-writes-end

A reply has the request's name as it came.
  $ head
  > data 64
  > log 256
  $ dmlw serve head first log
  > HELLO
  BEGUN GOES-ON
  > REQUEST 0000 0003 ffffffffffffffff 0000000000000000 00000000
  REPLY 00000000 ffffffffffffffff
  > REQUEST 0000 0000 fedcba9876543210 0000000000000000 00000200
  REPLY 00000000 fedcba9876543210 00*512
  > REQUEST 0000 0001 0000000000000000 0000000000000000 00000200 41*512
  REPLY 00000000 0000000000000000
  > LEAVE
  ! 3 4
  ! requests: 1 reads, 1 writes, 1 flushes, 0 trims; 0 with FUA, 0 split
  $ dmlw list log
  super version 1 entries 3 sectorsize 512
  0 @1 flush
  1 @2 write 0+1
  2 @4 mark dm-log-writes-end

A request's other flags aren't looked at, and a read and a flush have no FUA.
  $ head
  > data 64
  > log 256
  $ dmlw serve head first log
  > HELLO
  BEGUN GOES-ON
  > REQUEST 0002 0001 0000000000000001 0000000000000000 00000200 41*512
  REPLY 00000000 0000000000000001
  > REQUEST ffff 0001 0000000000000002 0000000000000200 00000200 42*512
  REPLY 00000000 0000000000000002
  > REQUEST 0001 0000 0000000000000003 0000000000000000 00000200
  REPLY 00000000 0000000000000003 41*512
  > REQUEST 0001 0003 0000000000000004 0000000000000000 00000000
  REPLY 00000000 0000000000000004
  > LEAVE
  ! 4 6
  ! requests: 1 reads, 2 writes, 1 flushes, 0 trims; 1 with FUA, 0 split
  $ dmlw list log
  super version 1 entries 4 sectorsize 512
  0 @1 write 1+1 fua
  1 @3 write 0+1
  2 @5 flush
  3 @6 mark dm-log-writes-end


---- requests of more than 1 MiB, which are recorded in parts of 2,048 sectors ----

A write of 2,048 sectors is one entry.
  $ head
  > data 4096
  > log 8192
  $ dmlw serve head first log
  > BY-NAME
  GREETING 0000000000200000 002d
  > REQUEST 0000 0001 0000000000000001 0000000000000000 00100000 41*1048576
  REPLY 00000000 0000000000000001
  > LEAVE
  ! 2 2050
  ! requests: 0 reads, 1 writes, 0 flushes, 0 trims; 0 with FUA, 0 split
  $ dmlw list log
  super version 1 entries 2 sectorsize 512
  0 @1 write 0+2048
  1 @2050 mark dm-log-writes-end

A longer write is two entries. A long read sends all its data.
  $ head
  > data 4096
  > log 8192
  $ dmlw serve head first log
  > BY-NAME
  GREETING 0000000000200000 002d
  > REQUEST 0000 0001 0000000000000001 0000000000000200 00101000 41*1048576 42*4096    # 2,056 sectors from sector 1 on
  REPLY 00000000 0000000000000001
  > REQUEST 0000 0000 0000000000000002 0000000000000000 00101400
  REPLY 00000000 0000000000000002 00*512 41*1048576 42*4096 00*512
  > LEAVE
  ! 3 2059
  ! requests: 1 reads, 1 writes, 0 flushes, 0 trims; 0 with FUA, 1 split
  $ dmlw list log
  super version 1 entries 3 sectorsize 512
  0 @1 write 1+2048
  1 @2050 write 2049+8
  2 @2059 mark dm-log-writes-end

Each part of a long write with FUA has FUA.
  $ head
  > data 4096
  > log 8192
  $ dmlw serve head first log
  > BY-NAME
  GREETING 0000000000200000 002d
  > REQUEST 0001 0001 0000000000000001 0000000000000000 00100200 41*1049088
  REPLY 00000000 0000000000000001
  > LEAVE
  ! 3 2052
  ! requests: 0 reads, 1 writes, 0 flushes, 0 trims; 1 with FUA, 1 split
  $ dmlw list log
  super version 1 entries 3 sectorsize 512
  0 @1 write 0+2048 fua
  1 @2050 write 2048+1 fua
  2 @2052 mark dm-log-writes-end

One flush follows the parts of a long trim with FUA.
  $ head
  > data 6144
  > log 8192
  $ dmlw serve head first log
  > BY-NAME
  GREETING 0000000000300000 002d
  > REQUEST 0001 0004 0000000000000001 0000000000000200 00200200
  REPLY 00000000 0000000000000001
  > REQUEST 0000 0004 0000000000000002 0000000000000000 00100200
  REPLY 00000000 0000000000000002
  > LEAVE
  ! 7 7
  ! requests: 0 reads, 0 writes, 0 flushes, 2 trims; 1 with FUA, 2 split
  $ dmlw list log
  super version 1 entries 7 sectorsize 512
  0 @1 discard 1+2048
  1 @2 discard 2049+2048
  2 @3 discard 4097+1
  3 @4 flush
  4 @5 discard 0+2048
  5 @6 discard 2048+1
  6 @7 mark dm-log-writes-end

If a part of a long write fails, the later parts aren't done or logged, and the next request is read from its beginning.
  $ head
  > data 6144
  > log 8192
  > data-layer 0 6144 fuse disk 0 1
  $ dmlw serve head first log
  > BY-NAME
  GREETING 0000000000300000 002d
  > REQUEST 0000 0001 0000000000000001 0000000000000000 00300000 41*3145728
  REPLY 00000005 0000000000000001
  > REQUEST 0000 0000 0000000000000002 00000000000ffe00 00000400
  REPLY 00000000 0000000000000002 41*512 00*512
  > LEAVE
  ! 3 4099
  ! requests: 1 reads, 1 writes, 0 flushes, 0 trims; 0 with FUA, 1 split
  $ dmlw list log
  super version 1 entries 3 sectorsize 512
  0 @1 write 0+2048
  1 @2050 write 2048+2048
  2 @4099 mark dm-log-writes-end

If a part of a long trim with FUA fails, neither the later parts nor a flush follow.
  $ head
  > data 6144
  > log 8192
  > data-layer 0 6144 fuse disk 0 1
  $ dmlw serve head first log
  > BY-NAME
  GREETING 0000000000300000 002d
  > REQUEST 0001 0004 0000000000000001 0000000000000000 00300000
  REPLY 00000005 0000000000000001
  > LEAVE
  ! 3 3
  ! requests: 0 reads, 0 writes, 0 flushes, 1 trims; 1 with FUA, 1 split
  $ dmlw list log
  super version 1 entries 3 sectorsize 512
  0 @1 discard 0+2048
  1 @2 discard 2048+2048
  2 @3 mark dm-log-writes-end


---- errors ----

EINVAL: an offset that isn't whole sectors. A refused write's data is taken all the same.
  $ head
  > data 64
  > log 256
  $ dmlw serve head first log
  > HELLO
  BEGUN GOES-ON
  > REQUEST 0000 0000 0000000000000001 0000000000000001 00000200
  REPLY 00000016 0000000000000001
  > REQUEST 0000 0001 0000000000000002 0000000000000100 00000200 41*512
  REPLY 00000016 0000000000000002
  > REQUEST 0001 0001 0000000000000003 00000000000003ff 00000400 41*1024
  REPLY 00000016 0000000000000003
  > REQUEST 0000 0004 0000000000000004 0000000000000201 00000200
  REPLY 00000016 0000000000000004
  > LEAVE
  ! 1 1
  ! requests: 1 reads, 2 writes, 0 flushes, 1 trims; 1 with FUA, 0 split
  $ dmlw list log
  super version 1 entries 1 sectorsize 512
  0 @1 mark dm-log-writes-end

EINVAL: a length that isn't whole sectors.
  $ head
  > data 64
  > log 256
  $ dmlw serve head first log
  > HELLO
  BEGUN GOES-ON
  > REQUEST 0000 0000 0000000000000001 0000000000000000 000001ff
  REPLY 00000016 0000000000000001
  > REQUEST 0000 0001 0000000000000002 0000000000000000 00000064 41*100
  REPLY 00000016 0000000000000002
  > REQUEST 0000 0004 0000000000000003 0000000000000000 00000201
  REPLY 00000016 0000000000000003
  > REQUEST 0000 0000 0000000000000004 0000000000000000 ffffffff
  REPLY 00000016 0000000000000004
  > LEAVE
  ! 1 1
  ! requests: 2 reads, 1 writes, 0 flushes, 1 trims; 0 with FUA, 0 split
  $ dmlw list log
  super version 1 entries 1 sectorsize 512
  0 @1 mark dm-log-writes-end

EINVAL: a length of zero.
  $ head
  > data 64
  > log 256
  $ dmlw serve head first log
  > HELLO
  BEGUN GOES-ON
  > REQUEST 0000 0000 0000000000000001 0000000000000000 00000000
  REPLY 00000016 0000000000000001
  > REQUEST 0000 0001 0000000000000002 0000000000000000 00000000
  REPLY 00000016 0000000000000002
  > REQUEST 0001 0004 0000000000000003 0000000000000000 00000000
  REPLY 00000016 0000000000000003
  > LEAVE
  ! 1 1
  ! requests: 1 reads, 1 writes, 0 flushes, 1 trims; 1 with FUA, 0 split
  $ dmlw list log
  super version 1 entries 1 sectorsize 512
  0 @1 mark dm-log-writes-end

ENOSPC: a request that reaches past the end of the disk, or begins there.
  $ head
  > data 64
  > log 256
  $ dmlw serve head first log
  > HELLO
  BEGUN GOES-ON
  > REQUEST 0000 0000 0000000000000001 0000000000008000 00000200
  REPLY 0000001c 0000000000000001
  > REQUEST 0000 0001 0000000000000002 0000000000007e00 00000400 41*1024
  REPLY 0000001c 0000000000000002
  > REQUEST 0000 0004 0000000000000003 0000000000000200 00008000
  REPLY 0000001c 0000000000000003
  > REQUEST 0000 0000 0000000000000004 0000000000000000 fffffe00
  REPLY 0000001c 0000000000000004
  > LEAVE
  ! 1 1
  ! requests: 2 reads, 1 writes, 0 flushes, 1 trims; 0 with FUA, 0 split
  $ dmlw list log
  super version 1 entries 1 sectorsize 512
  0 @1 mark dm-log-writes-end

ENOSPC: an offset so large that its end has more than 64 bits.
  $ head
  > data 64
  > log 256
  $ dmlw serve head first log
  > HELLO
  BEGUN GOES-ON
  > REQUEST 0000 0000 0000000000000001 fffffffffffffe00 00000400
  REPLY 0000001c 0000000000000001
  > REQUEST 0000 0001 0000000000000002 fffffffffffffe00 00000400 41*1024
  REPLY 0000001c 0000000000000002
  > REQUEST 0001 0004 0000000000000003 fffffffffffffe00 fffffe00
  REPLY 0000001c 0000000000000003
  > LEAVE
  ! 1 1
  ! requests: 1 reads, 1 writes, 0 flushes, 1 trims; 1 with FUA, 1 split
  $ dmlw list log
  super version 1 entries 1 sectorsize 512
  0 @1 mark dm-log-writes-end

A request that isn't whole sectors and reaches past the end is answered EINVAL.
  $ head
  > data 64
  > log 256
  $ dmlw serve head first log
  > HELLO
  BEGUN GOES-ON
  > REQUEST 0000 0000 0000000000000001 0000000000008001 00000200
  REPLY 00000016 0000000000000001
  > REQUEST 0000 0004 0000000000000002 0000000000008000 00000000
  REPLY 00000016 0000000000000002
  > LEAVE
  ! 1 1
  ! requests: 1 reads, 0 writes, 0 flushes, 1 trims; 0 with FUA, 0 split
  $ dmlw list log
  super version 1 entries 1 sectorsize 512
  0 @1 mark dm-log-writes-end

EINVAL: requests that the server doesn't offer, CACHE (5), WRITE_ZEROES (6), BLOCK_STATUS (7) and others. They have no data.
  $ head
  > data 64
  > log 256
  $ dmlw serve head first log
  > HELLO
  BEGUN GOES-ON
  > REQUEST 0000 0005 0000000000000001 0000000000000000 00000200
  REPLY 00000016 0000000000000001
  > REQUEST 0001 0006 0000000000000002 0000000000000000 00000200
  REPLY 00000016 0000000000000002
  > REQUEST 0000 0007 0000000000000003 0000000000000000 00000200
  REPLY 00000016 0000000000000003
  > REQUEST 0000 ffff 0000000000000004 0000000000000000 00000000
  REPLY 00000016 0000000000000004
  > REQUEST 0000 0101 0000000000000005 0000000000000000 00000200
  REPLY 00000016 0000000000000005
  > REQUEST 0000 0001 0000000000000006 0000000000000600 00000200 41*512
  REPLY 00000000 0000000000000006
  > LEAVE
  ! 2 3
  ! requests: 0 reads, 1 writes, 0 flushes, 0 trims; 0 with FUA, 0 split
  $ dmlw list log
  super version 1 entries 2 sectorsize 512
  0 @1 write 3+1
  1 @3 mark dm-log-writes-end

EIO: an `error` layer fails each request. What failed is logged as what succeeded, because it may have reached the disk.
  $ head
  > data 64
  > log 256
  > data-layer 0 64 error
  $ dmlw serve head first log
  > HELLO
  BEGUN GOES-ON
  > REQUEST 0000 0001 0000000000000001 0000000000000600 00000200 41*512
  REPLY 00000005 0000000000000001
  > REQUEST 0000 0000 0000000000000002 0000000000000600 00000200
  REPLY 00000005 0000000000000002
  > REQUEST 0000 0003 0000000000000003 0000000000000000 00000000
  REPLY 00000005 0000000000000003
  > REQUEST 0000 0004 0000000000000004 0000000000000800 00000200
  REPLY 00000005 0000000000000004
  > REQUEST 0001 0001 0000000000000005 0000000000000a00 00000200 42*512
  REPLY 00000005 0000000000000005
  > LEAVE
  ! 5 7
  ! requests: 1 reads, 2 writes, 1 flushes, 1 trims; 1 with FUA, 0 split
  $ dmlw list log
  super version 1 entries 5 sectorsize 512
  0 @1 write 3+1
  1 @3 flush
  2 @4 write 5+1 fua
  3 @6 discard 4+1
  4 @7 mark dm-log-writes-end

EIO: a `fuse` layer fails writes, trims and flushes after the first two of them. Reads pass, and show what was written.
  $ head
  > data 64
  > log 256
  > data-layer 0 64 fuse disk 0 2
  $ dmlw serve head first log
  > HELLO
  BEGUN GOES-ON
  > REQUEST 0000 0001 0000000000000001 0000000000000000 00000200 41*512
  REPLY 00000000 0000000000000001
  > REQUEST 0000 0003 0000000000000002 0000000000000000 00000000
  REPLY 00000000 0000000000000002
  > REQUEST 0000 0001 0000000000000003 0000000000000000 00000200 42*512
  REPLY 00000005 0000000000000003
  > REQUEST 0000 0000 0000000000000004 0000000000000000 00000400
  REPLY 00000000 0000000000000004 41*512 00*512
  > REQUEST 0001 0004 0000000000000005 0000000000000000 00000200
  REPLY 00000005 0000000000000005
  > REQUEST 0000 0003 0000000000000006 0000000000000000 00000000
  REPLY 00000005 0000000000000006
  > LEAVE
  ! 6 8
  ! requests: 1 reads, 2 writes, 2 flushes, 1 trims; 1 with FUA, 0 split
  $ dmlw list log
  super version 1 entries 6 sectorsize 512
  0 @1 write 0+1
  1 @3 flush
  2 @4 write 0+1
  3 @6 discard 0+1
  4 @7 flush
  5 @8 mark dm-log-writes-end

Reads that fail have no data, and the session goes on.
  $ head
  > data 64
  > log 256
  > data-layer 0 64 flakey disk 0 0 3600 1 error_reads
  $ dmlw serve head first log
  > HELLO
  BEGUN GOES-ON
  > REQUEST 0000 0000 0000000000000001 0000000000000000 00000200
  REPLY 00000005 0000000000000001
  > REQUEST 0001 0001 0000000000000002 0000000000000000 00000200 41*512
  REPLY 00000000 0000000000000002
  > REQUEST 0000 0000 0000000000000003 0000000000000000 00000200
  REPLY 00000005 0000000000000003
  > LEAVE
  ! 2 3
  ! requests: 2 reads, 1 writes, 0 flushes, 0 trims; 1 with FUA, 0 split
  $ dmlw list log
  super version 1 entries 2 sectorsize 512
  0 @1 write 0+1 fua
  1 @3 mark dm-log-writes-end

A long read that fails has no data either.
  $ head
  > data 4096
  > log 256
  > data-layer 0 4096 flakey disk 0 0 3600 1 error_reads
  $ dmlw serve head first log
  > BY-NAME
  GREETING 0000000000200000 002d
  > REQUEST 0000 0000 0000000000000001 0000000000000000 00200000
  REPLY 00000005 0000000000000001
  > REQUEST 0000 0003 0000000000000002 0000000000000000 00000000
  REPLY 00000000 0000000000000002
  > LEAVE
  ! 2 2
  ! requests: 1 reads, 0 writes, 1 flushes, 0 trims; 0 with FUA, 0 split
  $ dmlw list log
  super version 1 entries 2 sectorsize 512
  0 @1 flush
  1 @2 mark dm-log-writes-end

Under `drop_writes` a layer answers well what it doesn't do. That isn't in the log, but the lies are counted.
  $ head
  > data 64
  > log 256
  > data-layer 0 64 flakey disk 0 0 3600 1 drop_writes
  $ dmlw serve head first log
  > HELLO
  BEGUN GOES-ON
  > REQUEST 0001 0001 0000000000000001 0000000000000600 00000200 41*512
  REPLY 00000000 0000000000000001
  > REQUEST 0000 0000 0000000000000002 0000000000000600 00000200
  REPLY 00000000 0000000000000002 00*512
  > REQUEST 0000 0003 0000000000000003 0000000000000000 00000000
  REPLY 00000000 0000000000000003
  > LEAVE
  ! 3 4
  ! lies 2 0
  ! requests: 1 reads, 1 writes, 1 flushes, 0 trims; 1 with FUA, 0 split
  $ dmlw list log
  super version 1 entries 3 sectorsize 512
  0 @1 write 3+1 fua
  1 @3 flush
  2 @4 mark dm-log-writes-end
  $ dmlw replay log first out entries:3
  replayed 3
  $ show out
  32768 bytes
  3: 41*512

Layers have the time since the session began: after a second this one fails calls for an hour.
  $ head
  > data 64
  > log 256
  > data-layer 0 64 flakey disk 0 1 3600
  $ dmlw serve head first log
  > HELLO
  BEGUN GOES-ON
  ~ 1.1
  > REQUEST 0000 0001 0000000000000001 0000000000000600 00000200 41*512
  REPLY 00000005 0000000000000001
  > REQUEST 0000 0000 0000000000000002 0000000000000600 00000200
  REPLY 00000005 0000000000000002
  > REQUEST 0000 0003 0000000000000003 0000000000000000 00000000
  REPLY 00000005 0000000000000003
  > LEAVE
  ! 3 4
  ! requests: 1 reads, 1 writes, 1 flushes, 0 trims; 0 with FUA, 0 split
  $ dmlw list log
  super version 1 entries 3 sectorsize 512
  0 @1 write 3+1
  1 @3 flush
  2 @4 mark dm-log-writes-end

A layer that delays each call by an hour delays no answer, since nothing waits for the call's end.
  $ head
  > data 64
  > log 256
  > data-layer 0 64 delay disk 0 3600000
  $ dmlw serve head first log
  > HELLO
  BEGUN GOES-ON
  > REQUEST 0001 0001 0000000000000001 0000000000000600 00000200 41*512
  REPLY 00000000 0000000000000001
  > REQUEST 0000 0000 0000000000000002 0000000000000600 00000200
  REPLY 00000000 0000000000000002 41*512
  > REQUEST 0000 0003 0000000000000003 0000000000000000 00000000
  REPLY 00000000 0000000000000003
  > LEAVE
  ! 3 4
  ! requests: 1 reads, 1 writes, 1 flushes, 0 trims; 1 with FUA, 0 split
  $ dmlw list log
  super version 1 entries 3 sectorsize 512
  0 @1 write 3+1 fua
  1 @3 flush
  2 @4 mark dm-log-writes-end

But the layers below have the later time: here a call comes to them after their hour of passing calls.
  $ head
  > data 64
  > log 256
  > data-layer 0 64 flakey disk 0 3600 3600
  > data-layer 0 64 delay disk 0 3600000
  $ dmlw serve head first log
  > HELLO
  BEGUN GOES-ON
  > REQUEST 0001 0001 0000000000000001 0000000000000600 00000200 41*512
  REPLY 00000005 0000000000000001
  > REQUEST 0000 0000 0000000000000002 0000000000000600 00000200
  REPLY 00000005 0000000000000002
  > LEAVE
  ! 2 3
  ! requests: 1 reads, 1 writes, 0 flushes, 0 trims; 1 with FUA, 0 split
  $ dmlw list log
  super version 1 entries 2 sectorsize 512
  0 @1 write 3+1 fua
  1 @3 mark dm-log-writes-end

The top layer's length is that of the disk, and the log has its sectors. FIRST is the disk below the layers.
  $ head
  > data 128
  > log 256
  > data-layer 0 100 linear disk 8
  > data-layer 0 64 dust disk 8 512
  $ first 00*8192 11*512
  $ dmlw serve head first log
  > HELLO
  BEGUN GOES-ON
  > REQUEST 0000 0000 0000000000000001 0000000000000000 00000400
  REPLY 00000000 0000000000000001 11*512 00*512
  > REQUEST 0000 0001 0000000000000002 0000000000007e00 00000200 41*512
  REPLY 00000000 0000000000000002
  > REQUEST 0000 0001 0000000000000003 0000000000008000 00000200 41*512
  REPLY 0000001c 0000000000000003
  > LEAVE
  ! 2 3
  ! requests: 1 reads, 2 writes, 0 flushes, 0 trims; 0 with FUA, 0 split
  $ dmlw list log
  super version 1 entries 2 sectorsize 512
  0 @1 write 63+1
  1 @3 mark dm-log-writes-end


---- options ----

EXPORT_NAME from a client that takes zeroes: 124 of them end the answer.
  $ head
  > data 64
  > log 256
  $ dmlw serve head first log
  GREETING
  > 00000001
  > OPTION 00000001 00000000
  0000000000008000 002d 00*124
  > LEAVE
  ! 1 1
  ! requests: 0 reads, 0 writes, 0 flushes, 0 trims; 0 with FUA, 0 split
  $ dmlw list log
  super version 1 entries 1 sectorsize 512
  0 @1 mark dm-log-writes-end

EXPORT_NAME from a client that refuses zeroes. Any name is the name of the one export.
  $ head
  > data 64
  > log 256
  $ dmlw serve head first log
  GREETING
  > 00000003
  > OPTION 00000001 00000008 6e6f737563684e4d
  0000000000008000 002d
  > LEAVE
  ! 1 1
  ! requests: 0 reads, 0 writes, 0 flushes, 0 trims; 0 with FUA, 0 split
  $ dmlw list log
  super version 1 entries 1 sectorsize 512
  0 @1 mark dm-log-writes-end

A client without flags takes zeroes.
  $ head
  > data 64
  > log 256
  $ dmlw serve head first log
  GREETING
  > 00000000 OPTION 00000001 00000000
  0000000000008000 002d 00*124
  > REQUEST 0000 0000 0000000000000001 0000000000000000 00000200
  REPLY 00000000 0000000000000001 00*512
  > LEAVE
  ! 1 1
  ! requests: 1 reads, 0 writes, 0 flushes, 0 trims; 0 with FUA, 0 split
  $ dmlw list log
  super version 1 entries 1 sectorsize 512
  0 @1 mark dm-log-writes-end

GO with a name and with wishes (for the name, 1, the block sizes, 3, and an unknown one): the answers are those without a wish.
  $ head
  > data 64
  > log 256
  $ dmlw serve head first log
  GREETING
  > 00000003 OPTION 00000007 0000000f 00000003 616263 0003 0001 0003 00ff
  ANSWER 00000007 00000003 0000000c 0000 0000000000008000 002d GOES-ON
  > LEAVE
  ! 1 1
  ! requests: 0 reads, 0 writes, 0 flushes, 0 trims; 0 with FUA, 0 split
  $ dmlw list log
  super version 1 entries 1 sectorsize 512
  0 @1 mark dm-log-writes-end

INFO is answered as GO, but the handshake goes on.
  $ head
  > data 64
  > log 256
  $ dmlw serve head first log
  GREETING
  > 00000003 OPTION 00000006 00000006 00000000 0000
  ANSWER 00000006 00000003 0000000c 0000 0000000000008000 002d
  ANSWER 00000006 00000003 0000000e 0003 00000200 00001000 00100000
  ANSWER 00000006 00000001 00000000
  > OPTION 00000007 00000006 00000000 0000
  ANSWER 00000007 00000003 0000000c 0000 0000000000008000 002d GOES-ON
  > REQUEST 0000 0003 0000000000000001 0000000000000000 00000000
  REPLY 00000000 0000000000000001
  > LEAVE
  ! 2 2
  ! requests: 0 reads, 0 writes, 1 flushes, 0 trims; 0 with FUA, 0 split
  $ dmlw list log
  super version 1 entries 2 sectorsize 512
  0 @1 flush
  1 @2 mark dm-log-writes-end

LIST has one export, whose name is empty. It has no data, so a LIST with data is refused.
  $ head
  > data 64
  > log 256
  $ dmlw serve head first log
  GREETING
  > 00000003 OPTION 00000003 00000000
  ANSWER 00000003 00000002 00000004 00000000
  ANSWER 00000003 00000001 00000000
  > OPTION 00000003 00000001 00
  ANSWER 00000003 80000003 00000000
  > OPTION 00000001 00000000
  0000000000008000 002d
  > LEAVE
  ! 1 1
  ! requests: 0 reads, 0 writes, 0 flushes, 0 trims; 0 with FUA, 0 split
  $ dmlw list log
  super version 1 entries 1 sectorsize 512
  0 @1 mark dm-log-writes-end

ABORT is acknowledged, and ends the session. What follows it isn't looked at.
  $ head
  > data 64
  > log 256
  $ dmlw serve head first log
  GREETING
  > 00000003 OPTION 00000002 00000000 OPTION 00000001 00000000
  ANSWER 00000002 00000001 00000000
  ! 1 1
  ! requests: 0 reads, 0 writes, 0 flushes, 0 trims; 0 with FUA, 0 split
  ! dmlw: the client left at the handshake
  $ dmlw list log
  super version 1 entries 1 sectorsize 512
  0 @1 mark dm-log-writes-end

ABORT with data is an ABORT all the same.
  $ head
  > data 64
  > log 256
  $ dmlw serve head first log
  GREETING
  > 00000003 OPTION 00000002 00000003 627965
  ANSWER 00000002 00000001 00000000
  ! 1 1
  ! requests: 0 reads, 0 writes, 0 flushes, 0 trims; 0 with FUA, 0 split
  ! dmlw: the client left at the handshake
  $ dmlw list log
  super version 1 entries 1 sectorsize 512
  0 @1 mark dm-log-writes-end

Unsupported options: PEEK_EXPORT (4), STARTTLS (5), STRUCTURED_REPLY (8), LIST_META_CONTEXT (9), SET_META_CONTEXT (10), EXTENDED_HEADERS (11), and others with and without data.
  $ head
  > data 64
  > log 256
  $ dmlw serve head first log
  GREETING
  > 00000003 OPTION 00000004 00000000
  ANSWER 00000004 80000001 00000000
  > OPTION 00000005 00000000
  ANSWER 00000005 80000001 00000000
  > OPTION 00000008 00000000
  ANSWER 00000008 80000001 00000000
  > OPTION 00000009 00000008 00000000 00000000
  ANSWER 00000009 80000001 00000000
  > OPTION 0000000a 0000001b 00000000 00000001 0000000f 626173653a616c6c6f636174696f6e
  ANSWER 0000000a 80000001 00000000
  > OPTION 0000000b 00000000 OPTION ffffffff 00000003 010203 OPTION 00000000 00000000
  ANSWER 0000000b 80000001 00000000
  ANSWER ffffffff 80000001 00000000
  ANSWER 00000000 80000001 00000000
  > OPTION 00000007 00000006 00000000 0000
  ANSWER 00000007 00000003 0000000c 0000 0000000000008000 002d GOES-ON
  > REQUEST 0000 0000 0000000000000001 0000000000000000 00000200
  REPLY 00000000 0000000000000001 00*512
  > LEAVE
  ! 1 1
  ! requests: 1 reads, 0 writes, 0 flushes, 0 trims; 0 with FUA, 0 split
  $ dmlw list log
  super version 1 entries 1 sectorsize 512
  0 @1 mark dm-log-writes-end

A GO or INFO that hasn't its form is refused, and the handshake goes on.
  $ head
  > data 64
  > log 256
  $ dmlw serve head first log
  GREETING
  > 00000003 OPTION 00000007 00000000                 # no data
  ANSWER 00000007 80000003 00000000
  > OPTION 00000007 00000003 000000                   # no whole length of a name
  ANSWER 00000007 80000003 00000000
  > OPTION 00000007 00000004 00000000                 # no number of wishes
  ANSWER 00000007 80000003 00000000
  > OPTION 00000007 00000006 00000001 0000            # the name's length reaches into the number of wishes
  ANSWER 00000007 80000003 00000000
  > OPTION 00000007 00000006 ffffffff 0000            # the name's length reaches past the data
  ANSWER 00000007 80000003 00000000
  > OPTION 00000007 00000006 00000000 0001            # a wish is missing
  ANSWER 00000007 80000003 00000000
  > OPTION 00000007 00000007 00000000 0000 00         # a byte too much
  ANSWER 00000007 80000003 00000000
  > OPTION 00000006 00000008 00000000 0000 0003       # a wish too much
  ANSWER 00000006 80000003 00000000
  > OPTION 00000007 00000006 00000000 0000
  ANSWER 00000007 00000003 0000000c 0000 0000000000008000 002d GOES-ON
  > LEAVE
  ! 1 1
  ! requests: 0 reads, 0 writes, 0 flushes, 0 trims; 0 with FUA, 0 split
  $ dmlw list log
  super version 1 entries 1 sectorsize 512
  0 @1 mark dm-log-writes-end

An option's data may have 65,536 bytes.
  $ head
  > data 64
  > log 256
  $ dmlw serve head first log
  GREETING
  > 00000003 OPTION 00000063 00010000 00*65536
  ANSWER 00000063 80000001 00000000
  > OPTION 00000001 00000000
  0000000000008000 002d
  > LEAVE
  ! 1 1
  ! requests: 0 reads, 0 writes, 0 flushes, 0 trims; 0 with FUA, 0 split
  $ dmlw list log
  super version 1 entries 1 sectorsize 512
  0 @1 mark dm-log-writes-end

More data of an option ends the session, before the data comes.
  $ head
  > data 64
  > log 256
  $ dmlw serve head first log
  GREETING
  > 00000003 OPTION 00000063 00010001
  ! 1 1
  ! requests: 0 reads, 0 writes, 0 flushes, 0 trims; 0 with FUA, 0 split
  ! dmlw: the session broke off: the client sent what isn't of the protocol
  $ dmlw list log
  super version 1 entries 1 sectorsize 512
  0 @1 mark dm-log-writes-end

An option that doesn't begin with IHAVEOPT ends the session.
  $ head
  > data 64
  > log 256
  $ dmlw serve head first log
  GREETING
  > 00000003 49484156454f5055 00000001 00000000
  ! 1 1
  ! requests: 0 reads, 0 writes, 0 flushes, 0 trims; 0 with FUA, 0 split
  ! dmlw: the session broke off: the client sent what isn't of the protocol
  $ dmlw list log
  super version 1 entries 1 sectorsize 512
  0 @1 mark dm-log-writes-end

An unknown flag of the client ends the session, before its options are read.
  $ head
  > data 64
  > log 256
  $ dmlw serve head first log
  GREETING
  > 00000007 OPTION 00000001 00000000
  ! 1 1
  ! requests: 0 reads, 0 writes, 0 flushes, 0 trims; 0 with FUA, 0 split
  ! dmlw: the session broke off: the client sent what isn't of the protocol
  $ dmlw list log
  super version 1 entries 1 sectorsize 512
  0 @1 mark dm-log-writes-end


---- ends ----

The client's bytes end before its flags.
  $ head
  > data 64
  > log 256
  $ dmlw serve head first log
  GREETING
  ! 1 1
  ! requests: 0 reads, 0 writes, 0 flushes, 0 trims; 0 with FUA, 0 split
  ! dmlw: the session broke off: the client's bytes ended
  $ dmlw list log
  super version 1 entries 1 sectorsize 512
  0 @1 mark dm-log-writes-end

The client's bytes end within its flags.
  $ head
  > data 64
  > log 256
  $ dmlw serve head first log
  GREETING
  > 0000
  ! 1 1
  ! requests: 0 reads, 0 writes, 0 flushes, 0 trims; 0 with FUA, 0 split
  ! dmlw: the session broke off: the client's bytes ended
  $ dmlw list log
  super version 1 entries 1 sectorsize 512
  0 @1 mark dm-log-writes-end

The client's bytes end between two options.
  $ head
  > data 64
  > log 256
  $ dmlw serve head first log
  GREETING
  > 00000003 OPTION 00000005 00000000
  ANSWER 00000005 80000001 00000000
  ! 1 1
  ! requests: 0 reads, 0 writes, 0 flushes, 0 trims; 0 with FUA, 0 split
  ! dmlw: the session broke off: the client's bytes ended
  $ dmlw list log
  super version 1 entries 1 sectorsize 512
  0 @1 mark dm-log-writes-end

The client's bytes end within an option's data.
  $ head
  > data 64
  > log 256
  $ dmlw serve head first log
  GREETING
  > 00000003 OPTION 00000007 00000006 00000000 00
  ! 1 1
  ! requests: 0 reads, 0 writes, 0 flushes, 0 trims; 0 with FUA, 0 split
  ! dmlw: the session broke off: the client's bytes ended
  $ dmlw list log
  super version 1 entries 1 sectorsize 512
  0 @1 mark dm-log-writes-end

The client's bytes end between two requests: what was written is logged.
  $ head
  > data 64
  > log 256
  $ dmlw serve head first log
  > HELLO
  BEGUN GOES-ON
  > REQUEST 0000 0001 0000000000000001 0000000000000600 00000200 41*512
  REPLY 00000000 0000000000000001
  ! 2 3
  ! requests: 0 reads, 1 writes, 0 flushes, 0 trims; 0 with FUA, 0 split
  ! dmlw: the session broke off: the client's bytes ended
  $ dmlw list log
  super version 1 entries 2 sectorsize 512
  0 @1 write 3+1
  1 @3 mark dm-log-writes-end

The client's bytes end one byte before the end of a header.
  $ head
  > data 64
  > log 256
  $ dmlw serve head first log
  > HELLO
  BEGUN GOES-ON
  > REQUEST 0001 0001 0000000000000001 0000000000000600 00000200 41*512
  REPLY 00000000 0000000000000001
  > REQUEST 0000 0003 0000000000000002 0000000000000000 000000
  ! 2 3
  ! requests: 0 reads, 1 writes, 0 flushes, 0 trims; 1 with FUA, 0 split
  ! dmlw: the session broke off: the client's bytes ended
  $ dmlw list log
  super version 1 entries 2 sectorsize 512
  0 @1 write 3+1 fua
  1 @3 mark dm-log-writes-end

The client's bytes end within a write's data: nothing of this write is logged.
  $ head
  > data 64
  > log 256
  $ dmlw serve head first log
  > HELLO
  BEGUN GOES-ON
  > REQUEST 0000 0001 0000000000000001 0000000000000600 00000200 41*512
  REPLY 00000000 0000000000000001
  > REQUEST 0001 0001 0000000000000002 0000000000000800 00000400 42*1023
  ! 2 3
  ! requests: 0 reads, 2 writes, 0 flushes, 0 trims; 1 with FUA, 0 split
  ! dmlw: the session broke off: the client's bytes ended
  $ dmlw list log
  super version 1 entries 2 sectorsize 512
  0 @1 write 3+1
  1 @3 mark dm-log-writes-end

The client's bytes end within the second part of a long write: the first part is logged, as a power failure could leave it.
  $ head
  > data 4096
  > log 8192
  $ dmlw serve head first log
  > BY-NAME
  GREETING 0000000000200000 002d
  > REQUEST 0000 0001 0000000000000001 0000000000000000 00101000 41*1048576 42*4095
  ! 2 2050
  ! requests: 0 reads, 1 writes, 0 flushes, 0 trims; 0 with FUA, 1 split
  ! dmlw: the session broke off: the client's bytes ended
  $ dmlw list log
  super version 1 entries 2 sectorsize 512
  0 @1 write 0+2048
  1 @2050 mark dm-log-writes-end

The client's bytes end within the data of a write that is refused.
  $ head
  > data 64
  > log 256
  $ dmlw serve head first log
  > HELLO
  BEGUN GOES-ON
  > REQUEST 0000 0001 0000000000000001 0000000000008000 00002000 42*8191
  ! 1 1
  ! requests: 0 reads, 1 writes, 0 flushes, 0 trims; 0 with FUA, 0 split
  ! dmlw: the session broke off: the client's bytes ended
  $ dmlw list log
  super version 1 entries 1 sectorsize 512
  0 @1 mark dm-log-writes-end

A request that begins with another number ends the session. What was done before is logged.
  $ head
  > data 64
  > log 256
  $ dmlw serve head first log
  > HELLO
  BEGUN GOES-ON
  > REQUEST 0000 0001 0000000000000001 0000000000000600 00000200 41*512
  REPLY 00000000 0000000000000001
  > 25609514 0000 0003 0000000000000002 0000000000000000 00000000
  ! 2 3
  ! requests: 0 reads, 1 writes, 0 flushes, 0 trims; 0 with FUA, 0 split
  ! dmlw: the session broke off: the client sent what isn't of the protocol
  $ dmlw list log
  super version 1 entries 2 sectorsize 512
  0 @1 write 3+1
  1 @3 mark dm-log-writes-end

A request of the protocol's extended headers, which weren't agreed on, ends the session too.
  $ head
  > data 64
  > log 256
  $ dmlw serve head first log
  > HELLO
  BEGUN GOES-ON
  > 21e41c71 0000 0003 0000000000000002 0000000000000000 0000000000000000
  ! 1 1
  ! requests: 0 reads, 0 writes, 0 flushes, 0 trims; 0 with FUA, 0 split
  ! dmlw: the session broke off: the client sent what isn't of the protocol
  $ dmlw list log
  super version 1 entries 1 sectorsize 512
  0 @1 mark dm-log-writes-end


---- logs ----

Log sectors of 4,096 bytes: requests are whole blocks of 4,096 bytes. A shorter one is answered EINVAL.
  $ head
  > data 64
  > log 256 4096
  $ dmlw serve head first log
  > HELLO
  GREETING
  ANSWER 00000007 00000003 0000000c 0000 0000000000008000 002d
  ANSWER 00000007 00000003 0000000e 0003 00001000 00001000 00100000
  ANSWER 00000007 00000001 00000000
  > REQUEST 0000 0001 0000000000000001 0000000000001000 00000200 41*512
  REPLY 00000016 0000000000000001
  > REQUEST 0000 0001 0000000000000002 0000000000000200 00001000 41*4096
  REPLY 00000016 0000000000000002
  > REQUEST 0000 0001 0000000000000003 0000000000002000 00002000 41*8192
  REPLY 00000000 0000000000000003
  > REQUEST 0000 0000 0000000000000004 0000000000001000 00001000
  REPLY 00000000 0000000000000004 00*4096
  > REQUEST 0000 0000 0000000000000005 0000000000002000 00000200
  REPLY 00000016 0000000000000005
  > REQUEST 0001 0004 0000000000000006 0000000000003000 00001000
  REPLY 00000000 0000000000000006
  > REQUEST 0000 0004 0000000000000007 0000000000008000 00001000
  REPLY 0000001c 0000000000000007
  > LEAVE
  ! 4 55
  ! requests: 2 reads, 3 writes, 0 flushes, 2 trims; 1 with FUA, 0 split
  $ dmlw list log
  super version 1 entries 4 sectorsize 4096
  0 @1 write 2+2
  1 @4 discard 3+1
  2 @5 flush
  3 @6 mark dm-log-writes-end
  $ dmlw replay log first out entries:4
  replayed 4
  $ show out
  32768 bytes
  16: 41*512
  17: 41*512
  18: 41*512
  19: 41*512
  20: 41*512
  21: 41*512
  22: 41*512
  23: 41*512

A disk whose last block isn't whole: that block can't be read or written.
  $ head
  > data 60
  > log 256 4096
  $ dmlw serve head first log
  > BY-NAME
  GREETING 0000000000007800 002d
  > REQUEST 0000 0000 0000000000000001 0000000000007000 00001000
  REPLY 0000001c 0000000000000001
  > REQUEST 0000 0001 0000000000000002 0000000000006000 00001000 41*4096
  REPLY 00000000 0000000000000002
  > LEAVE
  ! 2 31
  ! requests: 1 reads, 1 writes, 0 flushes, 0 trims; 0 with FUA, 0 split
  $ dmlw list log
  super version 1 entries 2 sectorsize 4096
  0 @1 write 6+1
  1 @3 mark dm-log-writes-end

The log is full at the second of three writes with FUA, since its last sector is never used. All are answered well, and the session goes on.
  $ head
  > data 64
  > log 5
  $ dmlw serve head first log
  > HELLO
  BEGUN GOES-ON
  > REQUEST 0001 0001 0000000000000001 0000000000000000 00000200 41*512
  REPLY 00000000 0000000000000001
  > REQUEST 0001 0001 0000000000000002 0000000000000200 00000200 42*512
  REPLY 00000000 0000000000000002
  > REQUEST 0001 0001 0000000000000003 0000000000000400 00000200 43*512
  REPLY 00000000 0000000000000003
  > REQUEST 0000 0000 0000000000000004 0000000000000000 00000600
  REPLY 00000000 0000000000000004 41*512 42*512 43*512
  > LEAVE
  ! dmlw: the session goes on unrecorded: the log is full
  ! 1 2 logging_disabled
  ! requests: 1 reads, 3 writes, 0 flushes, 0 trims; 3 with FUA, 0 split
  [3]
  $ dmlw list log
  super version 1 entries 1 sectorsize 512
  0 @1 write 0+1 fua

A log that has no room for the end mark is full when recording is closed. So nothing is printed while the session goes on.
  $ head
  > data 64
  > log 4
  $ dmlw serve head first log
  > HELLO
  BEGUN GOES-ON
  > REQUEST 0001 0001 0000000000000001 0000000000000000 00000200 41*512
  REPLY 00000000 0000000000000001
  > LEAVE
  ! 1 2 logging_disabled
  ! requests: 0 reads, 1 writes, 0 flushes, 0 trims; 1 with FUA, 0 split
  [3]
  $ dmlw list log
  super version 1 entries 1 sectorsize 512
  0 @1 write 0+1 fua

The log's disk fails after the log was made: logging ends, and the writes are answered well.
  $ head
  > data 64
  > log 256
  > log-layer 0 256 fuse disk 0 1
  $ dmlw serve head first log
  > HELLO
  BEGUN GOES-ON
  > REQUEST 0000 0001 0000000000000001 0000000000000000 00000200 41*512
  REPLY 00000000 0000000000000001
  > REQUEST 0001 0001 0000000000000002 0000000000000200 00000200 42*512
  REPLY 00000000 0000000000000002
  > REQUEST 0000 0003 0000000000000003 0000000000000000 00000000
  REPLY 00000000 0000000000000003
  > LEAVE
  ! dmlw: the session goes on unrecorded: the log's device failed
  ! 0 0 logging_disabled
  ! requests: 0 reads, 2 writes, 1 flushes, 0 trims; 1 with FUA, 0 split
  [3]
  $ dmlw list log
  super version 1 entries 0 sectorsize 512

The log's disk fails before the log was made: nothing is served, and there is no log.
  $ head
  > data 64
  > log 256
  > log-layer 0 256 error
  $ dmlw serve head first log
  > HELLO
  ! dmlw: 19 Device
  [3]
  $ show log
  no such file

The log's disk lies: it drops the super block twice, and the entry and the flush of the end mark.
  $ head
  > data 64
  > log 256
  > log-layer 0 256 flakey disk 0 0 3600 1 drop_writes
  $ dmlw serve head first log
  > HELLO
  BEGUN GOES-ON
  > LEAVE
  ! 1 1
  ! lies 0 4
  ! requests: 0 reads, 0 writes, 0 flushes, 0 trims; 0 with FUA, 0 split
  $ dmlw list log
  ! dmlw: 13 BadMagic
  [1]


---- marks ----

A line that is appended before a request is sent is a mark before it. A line that is there before the session is none.
  $ head
  > data 64
  > log 256
  $ write marks
  > old
  $ dmlw serve head first log --marks marks
  > HELLO
  BEGUN GOES-ON
  > REQUEST 0001 0001 0000000000000001 0000000000000000 00000200 41*512
  REPLY 00000000 0000000000000001
  + one\n
  > REQUEST 0001 0001 0000000000000002 0000000000000000 00000200 42*512
  REPLY 00000000 0000000000000002
  + two\nthree\n
  > REQUEST 0000 0000 0000000000000003 0000000000000000 00000200
  REPLY 00000000 0000000000000003 42*512
  > REQUEST 0001 0001 0000000000000004 0000000000000000 00000200 43*512
  REPLY 00000000 0000000000000004
  + last\n
  > LEAVE
  ! 8 11
  ! requests: 1 reads, 3 writes, 0 flushes, 0 trims; 3 with FUA, 0 split
  $ dmlw list log
  super version 1 entries 8 sectorsize 512
  0 @1 write 0+1 fua
  1 @3 mark one
  2 @4 write 0+1 fua
  3 @6 mark two
  4 @7 mark three
  5 @8 write 0+1 fua
  6 @10 mark last
  7 @11 mark dm-log-writes-end
  $ dmlw replay log first out mark:two
  replayed 4
  $ show out
  32768 bytes
  0: 42*512

A plain write before a mark waits for a flush, so that it comes after the mark.
  $ head
  > data 64
  > log 256
  $ write marks
  $ dmlw serve head first log --marks marks
  > HELLO
  BEGUN GOES-ON
  > REQUEST 0000 0001 0000000000000001 0000000000000000 00000200 41*512
  REPLY 00000000 0000000000000001
  + not synced\n
  > REQUEST 0000 0003 0000000000000002 0000000000000000 00000000
  REPLY 00000000 0000000000000002
  + synced\n
  > LEAVE
  ! 5 6
  ! requests: 0 reads, 1 writes, 1 flushes, 0 trims; 0 with FUA, 0 split
  $ dmlw list log
  super version 1 entries 5 sectorsize 512
  0 @1 mark not synced
  1 @2 write 0+1
  2 @4 flush
  3 @5 mark synced
  4 @6 mark dm-log-writes-end

Half a line is no mark until it ends, and a line that never ends is none.
  $ head
  > data 64
  > log 256
  $ write marks
  $ dmlw serve head first log --marks marks
  > HELLO
  BEGUN GOES-ON
  + ha
  > REQUEST 0001 0001 0000000000000001 0000000000000000 00000200 41*512
  REPLY 00000000 0000000000000001
  + lf\nwithout an end
  > REQUEST 0001 0001 0000000000000002 0000000000000000 00000200 42*512
  REPLY 00000000 0000000000000002
  > LEAVE
  ! 4 6
  ! requests: 0 reads, 2 writes, 0 flushes, 0 trims; 2 with FUA, 0 split
  $ dmlw list log
  super version 1 entries 4 sectorsize 512
  0 @1 write 0+1 fua
  1 @3 mark half
  2 @4 write 0+1 fua
  3 @6 mark dm-log-writes-end

A line that is appended while a header comes is a mark before that request.
  $ head
  > data 64
  > log 256
  $ write marks
  $ dmlw serve head first log --marks marks
  > HELLO
  BEGUN GOES-ON
  > REQUEST 0001 0001 0000000000000001
  + within the header\n
  > 0000000000000000 00000200 41*512
  REPLY 00000000 0000000000000001
  > LEAVE
  ! 3 4
  ! requests: 0 reads, 1 writes, 0 flushes, 0 trims; 1 with FUA, 0 split
  $ dmlw list log
  super version 1 entries 3 sectorsize 512
  0 @1 mark within the header
  1 @2 write 0+1 fua
  2 @4 mark dm-log-writes-end

A line that is appended before the client's bytes end is a mark, at a session that breaks off too.
  $ head
  > data 64
  > log 256
  $ write marks
  $ dmlw serve head first log --marks marks
  > HELLO
  BEGUN GOES-ON
  > REQUEST 0000 0003 0000000000000001 0000000000000000 00000000
  REPLY 00000000 0000000000000001
  + at the end\n
  ! 3 3
  ! requests: 0 reads, 0 writes, 1 flushes, 0 trims; 0 with FUA, 0 split
  ! dmlw: the session broke off: the client's bytes ended
  $ dmlw list log
  super version 1 entries 3 sectorsize 512
  0 @1 flush
  1 @2 mark at the end
  2 @3 mark dm-log-writes-end

A line with a zero byte is no mark. An empty line is one, without a text. Other bytes are listed by their numbers.
  $ head
  > data 64
  > log 256
  $ write marks
  $ dmlw serve head first log --marks marks
  > HELLO
  BEGUN GOES-ON
  + with\x00zero\n\n\xff \\\t\r\n
  > LEAVE
  ! 3 3
  ! requests: 0 reads, 0 writes, 0 flushes, 0 trims; 0 with FUA, 0 split
  $ dmlw list log
  super version 1 entries 3 sectorsize 512
  0 @1 mark 
  1 @2 mark \ff \5c\09\0d
  2 @3 mark dm-log-writes-end

A session whose file of marks isn't there is refused before anything is sent.
  $ head
  > data 64
  > log 256
  $ dmlw serve head first log --marks marks
  > HELLO
  ! dmlw: 32 File
  [1]
  $ show log
  no such file


---- refusals, before anything is sent ----

A line after the head.
  $ head
  > data 64
  > log 256
  > close
  $ dmlw serve head first log
  > HELLO
  ! dmlw: line 3: 30 BadLine
  [1]
  $ show log
  no such file

A message to a layer is a line after the head too. So a `dust` layer of a session has no bad blocks.
  $ head
  > data 64
  > log 256
  > data-layer 0 64 dust disk 0 512
  > message data 1 enable
  $ dmlw serve head first log
  > HELLO
  ! dmlw: line 4: 30 BadLine
  [1]
  $ show log
  no such file

A layer that doesn't fit on the disk.
  $ head
  > data 64
  > log 256
  > data-layer 0 64 linear disk 1
  $ dmlw serve head first log
  > HELLO
  ! dmlw: line 3: 12 OutOfRange
  [1]
  $ show log
  no such file

A first content that is a sector shorter than the disk.
  $ head
  > data 64
  > log 256
  $ length 32256
  $ dmlw serve head first log
  > HELLO
  ! dmlw: 32 File
  [1]
  $ show log
  no such file

A log that has the name of the first content, which keeps its bytes.
  $ head
  > data 64
  > log 256
  $ first 11*512
  $ dmlw serve head first first
  > HELLO
  ! dmlw: 32 File
  [1]
  $ show first
  32768 bytes
  0: 11*512
