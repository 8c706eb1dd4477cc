Command lines and their texts.

  $ dmlw --help
  Records block requests in a log, and reads logs back
  
  Usage: dmlw [--explain] <COMMAND>
  
  Commands:
    record        Records the requests of a script in a new log
    run           Runs the seats of a script in threads, and records them in a new log
    serve         Serves an NBD client on standard input and output, and records it in a new log
    list          Lists the entries of a log
    status        Prints how many entries a log has, and how far they reach
    replay        Replays a prefix of a log on an image
    copy          Copies a log to one with sectors of 4096 bytes
    judge         Judges whether an image could have been on the device
    path          Prints how an image could have come to be on the device
    help          Prints this page, or with a command's name that command's words
    help formats  Prints the grammar of scripts, the faults and the limits
  
  Options:
        --explain  In any place: adds lines that help after a fault's line. DMLW_EXPLAIN=1 does the same
        --rebuild  The only word, for the launcher ./dmlw: proves and builds the program again
    -h, --help     Print help
    -V, --version  Print version
  
  Exit status: 0 done, 1 refused or ruled out, 2 usage, 3 logging ended before its time.
  A status such as 3 4 says: 3 entries, of which the last uses sector 4.
  $ dmlw help
  Records block requests in a log, and reads logs back
  
  Usage: dmlw [--explain] <COMMAND>
  
  Commands:
    record        Records the requests of a script in a new log
    run           Runs the seats of a script in threads, and records them in a new log
    serve         Serves an NBD client on standard input and output, and records it in a new log
    list          Lists the entries of a log
    status        Prints how many entries a log has, and how far they reach
    replay        Replays a prefix of a log on an image
    copy          Copies a log to one with sectors of 4096 bytes
    judge         Judges whether an image could have been on the device
    path          Prints how an image could have come to be on the device
    help          Prints this page, or with a command's name that command's words
    help formats  Prints the grammar of scripts, the faults and the limits
  
  Options:
        --explain  In any place: adds lines that help after a fault's line. DMLW_EXPLAIN=1 does the same
        --rebuild  The only word, for the launcher ./dmlw: proves and builds the program again
    -h, --help     Print help
    -V, --version  Print version
  
  Exit status: 0 done, 1 refused or ruled out, 2 usage, 3 logging ended before its time.
  A status such as 3 4 says: 3 entries, of which the last uses sector 4.
  $ dmlw record --help
  Records the requests of a script in a new log
  
  Usage: dmlw record <SCRIPT> <LOG>
  
  Arguments:
    <SCRIPT>  The script to read
    <LOG>     The log to write
  
  Options:
    -h, --help  Print help
  $ dmlw help
  Records block requests in a log, and reads logs back
  
  Usage: dmlw [--explain] <COMMAND>
  
  Commands:
    record        Records the requests of a script in a new log
    run           Runs the seats of a script in threads, and records them in a new log
    serve         Serves an NBD client on standard input and output, and records it in a new log
    list          Lists the entries of a log
    status        Prints how many entries a log has, and how far they reach
    replay        Replays a prefix of a log on an image
    copy          Copies a log to one with sectors of 4096 bytes
    judge         Judges whether an image could have been on the device
    path          Prints how an image could have come to be on the device
    help          Prints this page, or with a command's name that command's words
    help formats  Prints the grammar of scripts, the faults and the limits
  
  Options:
        --explain  In any place: adds lines that help after a fault's line. DMLW_EXPLAIN=1 does the same
        --rebuild  The only word, for the launcher ./dmlw: proves and builds the program again
    -h, --help     Print help
    -V, --version  Print version
  
  Exit status: 0 done, 1 refused or ruled out, 2 usage, 3 logging ended before its time.
  A status such as 3 4 says: 3 entries, of which the last uses sector 4.
  $ dmlw help
  Records block requests in a log, and reads logs back
  
  Usage: dmlw [--explain] <COMMAND>
  
  Commands:
    record        Records the requests of a script in a new log
    run           Runs the seats of a script in threads, and records them in a new log
    serve         Serves an NBD client on standard input and output, and records it in a new log
    list          Lists the entries of a log
    status        Prints how many entries a log has, and how far they reach
    replay        Replays a prefix of a log on an image
    copy          Copies a log to one with sectors of 4096 bytes
    judge         Judges whether an image could have been on the device
    path          Prints how an image could have come to be on the device
    help          Prints this page, or with a command's name that command's words
    help formats  Prints the grammar of scripts, the faults and the limits
  
  Options:
        --explain  In any place: adds lines that help after a fault's line. DMLW_EXPLAIN=1 does the same
        --rebuild  The only word, for the launcher ./dmlw: proves and builds the program again
    -h, --help     Print help
    -V, --version  Print version
  
  Exit status: 0 done, 1 refused or ruled out, 2 usage, 3 logging ended before its time.
  A status such as 3 4 says: 3 entries, of which the last uses sector 4.
  $ dmlw list --help
  Lists the entries of a log
  
  Usage: dmlw list <LOG>
  
  Arguments:
    <LOG>  The log to read
  
  Options:
    -h, --help  Print help
  $ dmlw help status
  Prints how many entries a log has, and how far they reach
  
  Usage: dmlw status <LOG>
  
  Arguments:
    <LOG>  The log to read
  
  Options:
    -h, --help  Print help
  $ dmlw --version
  dmlw 1.1.0-pre.3 (log format version 1)
  $ dmlw --help
  Records block requests in a log, and reads logs back
  
  Usage: dmlw [--explain] <COMMAND>
  
  Commands:
    record        Records the requests of a script in a new log
    run           Runs the seats of a script in threads, and records them in a new log
    serve         Serves an NBD client on standard input and output, and records it in a new log
    list          Lists the entries of a log
    status        Prints how many entries a log has, and how far they reach
    replay        Replays a prefix of a log on an image
    copy          Copies a log to one with sectors of 4096 bytes
    judge         Judges whether an image could have been on the device
    path          Prints how an image could have come to be on the device
    help          Prints this page, or with a command's name that command's words
    help formats  Prints the grammar of scripts, the faults and the limits
  
  Options:
        --explain  In any place: adds lines that help after a fault's line. DMLW_EXPLAIN=1 does the same
        --rebuild  The only word, for the launcher ./dmlw: proves and builds the program again
    -h, --help     Print help
    -V, --version  Print version
  
  Exit status: 0 done, 1 refused or ruled out, 2 usage, 3 logging ended before its time.
  A status such as 3 4 says: 3 entries, of which the last uses sector 4.
  $ dmlw --help
  Records block requests in a log, and reads logs back
  
  Usage: dmlw [--explain] <COMMAND>
  
  Commands:
    record        Records the requests of a script in a new log
    run           Runs the seats of a script in threads, and records them in a new log
    serve         Serves an NBD client on standard input and output, and records it in a new log
    list          Lists the entries of a log
    status        Prints how many entries a log has, and how far they reach
    replay        Replays a prefix of a log on an image
    copy          Copies a log to one with sectors of 4096 bytes
    judge         Judges whether an image could have been on the device
    path          Prints how an image could have come to be on the device
    help          Prints this page, or with a command's name that command's words
    help formats  Prints the grammar of scripts, the faults and the limits
  
  Options:
        --explain  In any place: adds lines that help after a fault's line. DMLW_EXPLAIN=1 does the same
        --rebuild  The only word, for the launcher ./dmlw: proves and builds the program again
    -h, --help     Print help
    -V, --version  Print version
  
  Exit status: 0 done, 1 refused or ruled out, 2 usage, 3 logging ended before its time.
  A status such as 3 4 says: 3 entries, of which the last uses sector 4.
  $ dmlw --help
  Records block requests in a log, and reads logs back
  
  Usage: dmlw [--explain] <COMMAND>
  
  Commands:
    record        Records the requests of a script in a new log
    run           Runs the seats of a script in threads, and records them in a new log
    serve         Serves an NBD client on standard input and output, and records it in a new log
    list          Lists the entries of a log
    status        Prints how many entries a log has, and how far they reach
    replay        Replays a prefix of a log on an image
    copy          Copies a log to one with sectors of 4096 bytes
    judge         Judges whether an image could have been on the device
    path          Prints how an image could have come to be on the device
    help          Prints this page, or with a command's name that command's words
    help formats  Prints the grammar of scripts, the faults and the limits
  
  Options:
        --explain  In any place: adds lines that help after a fault's line. DMLW_EXPLAIN=1 does the same
        --rebuild  The only word, for the launcher ./dmlw: proves and builds the program again
    -h, --help     Print help
    -V, --version  Print version
  
  Exit status: 0 done, 1 refused or ruled out, 2 usage, 3 logging ended before its time.
  A status such as 3 4 says: 3 entries, of which the last uses sector 4.
  $ dmlw --help
  Records block requests in a log, and reads logs back
  
  Usage: dmlw [--explain] <COMMAND>
  
  Commands:
    record        Records the requests of a script in a new log
    run           Runs the seats of a script in threads, and records them in a new log
    serve         Serves an NBD client on standard input and output, and records it in a new log
    list          Lists the entries of a log
    status        Prints how many entries a log has, and how far they reach
    replay        Replays a prefix of a log on an image
    copy          Copies a log to one with sectors of 4096 bytes
    judge         Judges whether an image could have been on the device
    path          Prints how an image could have come to be on the device
    help          Prints this page, or with a command's name that command's words
    help formats  Prints the grammar of scripts, the faults and the limits
  
  Options:
        --explain  In any place: adds lines that help after a fault's line. DMLW_EXPLAIN=1 does the same
        --rebuild  The only word, for the launcher ./dmlw: proves and builds the program again
    -h, --help     Print help
    -V, --version  Print version
  
  Exit status: 0 done, 1 refused or ruled out, 2 usage, 3 logging ended before its time.
  A status such as 3 4 says: 3 entries, of which the last uses sector 4.
  $ dmlw --help
  Records block requests in a log, and reads logs back
  
  Usage: dmlw [--explain] <COMMAND>
  
  Commands:
    record        Records the requests of a script in a new log
    run           Runs the seats of a script in threads, and records them in a new log
    serve         Serves an NBD client on standard input and output, and records it in a new log
    list          Lists the entries of a log
    status        Prints how many entries a log has, and how far they reach
    replay        Replays a prefix of a log on an image
    copy          Copies a log to one with sectors of 4096 bytes
    judge         Judges whether an image could have been on the device
    path          Prints how an image could have come to be on the device
    help          Prints this page, or with a command's name that command's words
    help formats  Prints the grammar of scripts, the faults and the limits
  
  Options:
        --explain  In any place: adds lines that help after a fault's line. DMLW_EXPLAIN=1 does the same
        --rebuild  The only word, for the launcher ./dmlw: proves and builds the program again
    -h, --help     Print help
    -V, --version  Print version
  
  Exit status: 0 done, 1 refused or ruled out, 2 usage, 3 logging ended before its time.
  A status such as 3 4 says: 3 entries, of which the last uses sector 4.
  $ dmlw help record
  Records the requests of a script in a new log
  
  Usage: dmlw record <SCRIPT> <LOG>
  
  Arguments:
    <SCRIPT>  The script to read
    <LOG>     The log to write
  
  Options:
    -h, --help  Print help
  $ dmlw help record
  Records the requests of a script in a new log
  
  Usage: dmlw record <SCRIPT> <LOG>
  
  Arguments:
    <SCRIPT>  The script to read
    <LOG>     The log to write
  
  Options:
    -h, --help  Print help
  $ dmlw help list
  Lists the entries of a log
  
  Usage: dmlw list <LOG>
  
  Arguments:
    <LOG>  The log to read
  
  Options:
    -h, --help  Print help
  $ dmlw help replay
  Replays a prefix of a log on an image
  
  Usage: dmlw replay <LOG> <FIRST> <OUT> <WHAT>
  
  Arguments:
    <LOG>    The log to read
    <FIRST>  The image to begin with
    <OUT>    The image to write
    <WHAT>   entries:<n>, mark:<text> or flush
  
  Options:
    -h, --help  Print help
  $ dmlw help replay
  Replays a prefix of a log on an image
  
  Usage: dmlw replay <LOG> <FIRST> <OUT> <WHAT>
  
  Arguments:
    <LOG>    The log to read
    <FIRST>  The image to begin with
    <OUT>    The image to write
    <WHAT>   entries:<n>, mark:<text> or flush
  
  Options:
    -h, --help  Print help
  $ dmlw help replay
  Replays a prefix of a log on an image
  
  Usage: dmlw replay <LOG> <FIRST> <OUT> <WHAT>
  
  Arguments:
    <LOG>    The log to read
    <FIRST>  The image to begin with
    <OUT>    The image to write
    <WHAT>   entries:<n>, mark:<text> or flush
  
  Options:
    -h, --help  Print help
  $ dmlw help copy
  Copies a log to one with sectors of 4096 bytes
  
  Usage: dmlw copy <LOG> <OUT> <SECTORS>
  
  Arguments:
    <LOG>      The log to read
    <OUT>      The log to write
    <SECTORS>  The sectors of the new log's disk
  
  Options:
    -h, --help  Print help
  $ dmlw help judge
  Judges whether an image could have been on the device
  
  Usage: dmlw judge <SCRIPT> <M> <IMAGE>
  
  Arguments:
    <SCRIPT>  The script to read
    <M>       The number of events before the power failure
    <IMAGE>   The image to judge
  
  Options:
    -h, --help  Print help
  
  An event is a line of the script with an id, which submits a request or ends one, a mark, or the
  close; so is the end of logging, if that comes first. Events count from 0. Other lines aren't events.
  
    data 16
    log 32
    w a 5 1 41    event 0
    c a           event 1
    f b           event 2
    c b           event 3
    close         event 4
  
  M is 0 to 5 here. At 3 the flush hasn't ended: sector 5 may hold zeroes, or the bytes of a. At 4 it
  has, and made a durable: event 0 rules zeroes out. With --explain its line of the script is printed.
  $ dmlw help judge
  Judges whether an image could have been on the device
  
  Usage: dmlw judge <SCRIPT> <M> <IMAGE>
  
  Arguments:
    <SCRIPT>  The script to read
    <M>       The number of events before the power failure
    <IMAGE>   The image to judge
  
  Options:
    -h, --help  Print help
  
  An event is a line of the script with an id, which submits a request or ends one, a mark, or the
  close; so is the end of logging, if that comes first. Events count from 0. Other lines aren't events.
  
    data 16
    log 32
    w a 5 1 41    event 0
    c a           event 1
    f b           event 2
    c b           event 3
    close         event 4
  
  M is 0 to 5 here. At 3 the flush hasn't ended: sector 5 may hold zeroes, or the bytes of a. At 4 it
  has, and made a durable: event 0 rules zeroes out. With --explain its line of the script is printed.
  $ dmlw frob
  ! error: unrecognized subcommand 'frob'
  ! 
  ! Usage: dmlw <COMMAND>
  ! 
  ! For more information, try '--help'.
  [2]
  $ dmlw help frob
  ! error: unrecognized subcommand 'frob'
  ! 
  ! Usage: dmlw <COMMAND>
  ! 
  ! For more information, try '--help'.
  [2]
  $ dmlw record a
  ! error: the following required arguments were not provided:
  !   <LOG>
  ! 
  ! Usage: dmlw record <SCRIPT> <LOG>
  ! 
  ! For more information, try '--help'.
  [2]
  $ dmlw record a b c
  ! error: unexpected argument 'c' found
  ! 
  ! Usage: dmlw record <SCRIPT> <LOG>
  ! 
  ! For more information, try '--help'.
  [2]
  $ dmlw record a b c d e f g h i j k l m n o p
  ! error: unexpected argument 'c' found
  ! 
  ! Usage: dmlw record <SCRIPT> <LOG>
  ! 
  ! For more information, try '--help'.
  [2]
  $ dmlw record -x b
  ! error: unexpected argument '-x' found
  ! 
  !   tip: to pass '-x' as a value, use '-- -x'
  ! 
  ! Usage: dmlw record <SCRIPT> <LOG>
  ! 
  ! For more information, try '--help'.
  [2]
  $ dmlw --explain frob
  ! error: unrecognized subcommand 'frob'
  ! 
  ! Usage: dmlw <COMMAND>
  ! 
  ! For more information, try '--help'.
  [2]
  $ dmlw list
  ! error: the following required arguments were not provided:
  !   <LOG>
  ! 
  ! Usage: dmlw list <LOG>
  ! 
  ! For more information, try '--help'.
  [2]
  $ dmlw status
  ! error: the following required arguments were not provided:
  !   <LOG>
  ! 
  ! Usage: dmlw status <LOG>
  ! 
  ! For more information, try '--help'.
  [2]
  $ dmlw list a b
  ! error: unexpected argument 'b' found
  ! 
  ! Usage: dmlw list <LOG>
  ! 
  ! For more information, try '--help'.
  [2]
  $ dmlw help
  Records block requests in a log, and reads logs back
  
  Usage: dmlw [--explain] <COMMAND>
  
  Commands:
    record        Records the requests of a script in a new log
    run           Runs the seats of a script in threads, and records them in a new log
    serve         Serves an NBD client on standard input and output, and records it in a new log
    list          Lists the entries of a log
    status        Prints how many entries a log has, and how far they reach
    replay        Replays a prefix of a log on an image
    copy          Copies a log to one with sectors of 4096 bytes
    judge         Judges whether an image could have been on the device
    path          Prints how an image could have come to be on the device
    help          Prints this page, or with a command's name that command's words
    help formats  Prints the grammar of scripts, the faults and the limits
  
  Options:
        --explain  In any place: adds lines that help after a fault's line. DMLW_EXPLAIN=1 does the same
        --rebuild  The only word, for the launcher ./dmlw: proves and builds the program again
    -h, --help     Print help
    -V, --version  Print version
  
  Exit status: 0 done, 1 refused or ruled out, 2 usage, 3 logging ended before its time.
  A status such as 3 4 says: 3 entries, of which the last uses sector 4.
  $ dmlw help
  Records block requests in a log, and reads logs back
  
  Usage: dmlw [--explain] <COMMAND>
  
  Commands:
    record        Records the requests of a script in a new log
    run           Runs the seats of a script in threads, and records them in a new log
    serve         Serves an NBD client on standard input and output, and records it in a new log
    list          Lists the entries of a log
    status        Prints how many entries a log has, and how far they reach
    replay        Replays a prefix of a log on an image
    copy          Copies a log to one with sectors of 4096 bytes
    judge         Judges whether an image could have been on the device
    path          Prints how an image could have come to be on the device
    help          Prints this page, or with a command's name that command's words
    help formats  Prints the grammar of scripts, the faults and the limits
  
  Options:
        --explain  In any place: adds lines that help after a fault's line. DMLW_EXPLAIN=1 does the same
        --rebuild  The only word, for the launcher ./dmlw: proves and builds the program again
    -h, --help     Print help
    -V, --version  Print version
  
  Exit status: 0 done, 1 refused or ruled out, 2 usage, 3 logging ended before its time.
  A status such as 3 4 says: 3 entries, of which the last uses sector 4.
  $ dmlw replay --help
  Replays a prefix of a log on an image
  
  Usage: dmlw replay <LOG> <FIRST> <OUT> <WHAT>
  
  Arguments:
    <LOG>    The log to read
    <FIRST>  The image to begin with
    <OUT>    The image to write
    <WHAT>   entries:<n>, mark:<text> or flush
  
  Options:
    -h, --help  Print help
  $ dmlw replay --help
  Replays a prefix of a log on an image
  
  Usage: dmlw replay <LOG> <FIRST> <OUT> <WHAT>
  
  Arguments:
    <LOG>    The log to read
    <FIRST>  The image to begin with
    <OUT>    The image to write
    <WHAT>   entries:<n>, mark:<text> or flush
  
  Options:
    -h, --help  Print help
  $ dmlw judge --help
  Judges whether an image could have been on the device
  
  Usage: dmlw judge <SCRIPT> <M> <IMAGE>
  
  Arguments:
    <SCRIPT>  The script to read
    <M>       The number of events before the power failure
    <IMAGE>   The image to judge
  
  Options:
    -h, --help  Print help
  
  An event is a line of the script with an id, which submits a request or ends one, a mark, or the
  close; so is the end of logging, if that comes first. Events count from 0. Other lines aren't events.
  
    data 16
    log 32
    w a 5 1 41    event 0
    c a           event 1
    f b           event 2
    c b           event 3
    close         event 4
  
  M is 0 to 5 here. At 3 the flush hasn't ended: sector 5 may hold zeroes, or the bytes of a. At 4 it
  has, and made a durable: event 0 rules zeroes out. With --explain its line of the script is printed.
  $ dmlw help judge
  Judges whether an image could have been on the device
  
  Usage: dmlw judge <SCRIPT> <M> <IMAGE>
  
  Arguments:
    <SCRIPT>  The script to read
    <M>       The number of events before the power failure
    <IMAGE>   The image to judge
  
  Options:
    -h, --help  Print help
  
  An event is a line of the script with an id, which submits a request or ends one, a mark, or the
  close; so is the end of logging, if that comes first. Events count from 0. Other lines aren't events.
  
    data 16
    log 32
    w a 5 1 41    event 0
    c a           event 1
    f b           event 2
    c b           event 3
    close         event 4
  
  M is 0 to 5 here. At 3 the flush hasn't ended: sector 5 may hold zeroes, or the bytes of a. At 4 it
  has, and made a durable: event 0 rules zeroes out. With --explain its line of the script is printed.
  $ dmlw replay
  ! error: the following required arguments were not provided:
  !   <LOG>
  !   <FIRST>
  !   <OUT>
  !   <WHAT>
  ! 
  ! Usage: dmlw replay <LOG> <FIRST> <OUT> <WHAT>
  ! 
  ! For more information, try '--help'.
  [2]
  $ dmlw replay a b c
  ! error: the following required arguments were not provided:
  !   <WHAT>
  ! 
  ! Usage: dmlw replay <LOG> <FIRST> <OUT> <WHAT>
  ! 
  ! For more information, try '--help'.
  [2]
  $ dmlw replay a b c flush d
  ! error: unexpected argument 'd' found
  ! 
  ! Usage: dmlw replay <LOG> <FIRST> <OUT> <WHAT>
  ! 
  ! For more information, try '--help'.
  [2]
  $ dmlw replay a b -c flush
  ! error: unexpected argument '-c' found
  ! 
  !   tip: to pass '-c' as a value, use '-- -c'
  ! 
  ! Usage: dmlw replay <LOG> <FIRST> <OUT> <WHAT>
  ! 
  ! For more information, try '--help'.
  [2]
  $ dmlw replay a b c what
  ! error: invalid value 'what' for '<WHAT>'
  !   [possible values: entries:<n> with n below 2^64, mark:<text>, flush]
  ! 
  ! For more information, try 'dmlw help replay'.
  [2]
  $ dmlw replay a b c entries:18446744073709551616
  ! error: invalid value 'entries:18446744073709551616' for '<WHAT>'
  !   [possible values: entries:<n> with n below 2^64, mark:<text>, flush]
  ! 
  ! For more information, try 'dmlw help replay'.
  [2]
  $ dmlw judge a 1
  ! error: the following required arguments were not provided:
  !   <IMAGE>
  ! 
  ! Usage: dmlw judge <SCRIPT> <M> <IMAGE>
  ! 
  ! For more information, try '--help'.
  [2]
  $ dmlw judge a 1 b c
  ! error: unexpected argument 'c' found
  ! 
  ! Usage: dmlw judge <SCRIPT> <M> <IMAGE>
  ! 
  ! For more information, try '--help'.
  [2]
  $ dmlw judge a -1 b
  ! error: unexpected argument '-1' found
  ! 
  !   tip: to pass '-1' as a value, use '-- -1'
  ! 
  ! Usage: dmlw judge <SCRIPT> <M> <IMAGE>
  ! 
  ! For more information, try '--help'.
  [2]
  $ dmlw judge a x b
  ! error: invalid value 'x' for '<M>'
  !   [possible values: a number of 1 to 20 digits, below 2^64]
  ! 
  ! For more information, try 'dmlw help judge'.
  [2]
  $ dmlw
  ! Records block requests in a log, and reads logs back
  ! 
  ! Usage: dmlw [--explain] <COMMAND>
  ! 
  ! Commands:
  !   record        Records the requests of a script in a new log
  !   run           Runs the seats of a script in threads, and records them in a new log
  !   serve         Serves an NBD client on standard input and output, and records it in a new log
  !   list          Lists the entries of a log
  !   status        Prints how many entries a log has, and how far they reach
  !   replay        Replays a prefix of a log on an image
  !   copy          Copies a log to one with sectors of 4096 bytes
  !   judge         Judges whether an image could have been on the device
  !   path          Prints how an image could have come to be on the device
  !   help          Prints this page, or with a command's name that command's words
  !   help formats  Prints the grammar of scripts, the faults and the limits
  ! 
  ! Options:
  !       --explain  In any place: adds lines that help after a fault's line. DMLW_EXPLAIN=1 does the same
  !       --rebuild  The only word, for the launcher ./dmlw: proves and builds the program again
  !   -h, --help     Print help
  !   -V, --version  Print version
  ! 
  ! Exit status: 0 done, 1 refused or ruled out, 2 usage, 3 logging ended before its time.
  ! A status such as 3 4 says: 3 entries, of which the last uses sector 4.
  [2]
