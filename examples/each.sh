#!/bin/sh
# Goes over the entries of a log: replays the log up to and with each of them on a first image, and runs a check on the result.
#
#   examples/each.sh [OPTION ..] marks|flushes|fua|all LOG FIRST CHECK [WORD ..]
#
# marks are the marks, flushes the entries with FLUSH, fua those with FUA, all every entry. CHECK is run with its words and then the image's name, such as
# `examples/check-ext4.sh`. It may change the image, because it gets a copy. Its environment has the entry: DMLW_ENTRY is the number, DMLW_KIND is mark, write, flush or
# discard, and DMLW_MARK is the text of a mark, or empty.
#
#   --from mark:NAME|N   begins at the first mark NAME, or at entry N: what is before is replayed, but not checked, because a log with mkfs in it has no file system
#                        before mkfs has ended. NAME is the mark's text as `dmlw list` prints it
#   --to mark:NAME|N     ends with the first such mark from there on, or with entry N
#   --every N            checks the first of these entries and then each N-th one
#   --stop               ends at the first failure
#   -j N                 checks N states side by side, each in a folder of its own; with 0 as many as there are processors. The output stays in the order of entries
#   --bisect             finds the first bad entry by checking about log2 of the states. It takes for granted that what fails keeps failing, and begins with the last
#                        state. It prints the last good entry and the first bad one, each with the command that makes its image
#
# Each state prints `entry 12 (mark NAME): passed`, or `failed (status 1)` with the status of CHECK and below it what CHECK printed; a status over 128 is 128 and the number
# of the signal that ended CHECK, and 124 is that of `timeout 60 CHECK`. In brackets is what `dmlw list` prints of the entry. The last line counts, and names the first
# failed entry. A state that can't be checked ends the loop as `not checked`, with the reason: if the replay fails, if there is no room for the image, if CHECK ends
# with status 3, by which a check says so, or with 126 or 127, by which a shell says that a program can't be run.
#
# Exit status: 0 if all passed, 1 if one failed or the log has a fault, 2 if the loop can't begin, 3 if a state can't be checked, 130 if it was interrupted (129 and 143 at
# the signals HUP and TERM).
#
# A state is replayed from FIRST, or from a state that was kept after each 2 MiB of the log or so, because reading a long log for each state would take longer. The images
# are kept in memory, in /dev/shm, if twice the room that they need is free there, and otherwise in /tmp; TMPDIR names another folder. For each state that is checked at
# a time there may be three images. The program is ./dmlw of the repository, or the dmlw that was installed together with this file, or `dmlw` on the PATH; $DMLW is another.
set -u

usage() {
    echo "usage: $0 [--from mark:NAME|N] [--to mark:NAME|N] [--every N] [--stop] [-j N] [--bisect] marks|flushes|fua|all LOG FIRST CHECK [WORD ..]" >&2
    echo "CHECK ends with status 0 if all is well, and with 3, 126 or 127 if it can't be made: that ends the loop with status 3" >&2
    exit 2
}

refuse() {
    echo "$0: $*" >&2
    exit 2
}

no_room() {
    echo "$0: no room in $room: TMPDIR names a folder with room for two images" >&2
    exit 3
}

# Whether a word is a whole number of few enough digits.
is_number() {
    case $1 in '' | *[!0-9]* | ??????????????????*) return 1 ;; esac
}

# --- A worker: `each.sh --work FOLDER ..` makes the images of FOLDER/steps and checks them. It prints a line for each: its place, and its check's status, or `image` if the
# image can't be made. What was said of a state that didn't pass is then in FOLDER/said.PLACE.

# Writes the part of the log from a sector on, of some sectors, as a log of its own. Its super block has the log's first 16 bytes, the part's count, and the sector size.
make_part() {
    printf "$magic$3$sizes" >"$folder/part" && dd if="$log" of="$folder/part" bs=65536 skip="$(($1 * size))" count="$(($2 * size))" seek="$size" \
        iflag=skip_bytes,count_bytes oflag=seek_bytes conv=notrunc 2>"$folder/dd" || { cat "$folder/dd" && return 1; }
}

# Replays the first entries of the part on the kept state.
replay() {
    "$dmlw" --explain replay "$folder/part" "$state" "$2" "entries:$1" >/dev/null
}

# Makes an image. That of a part's last state is kept, and the check gets a copy.
make_image() {
    if [ "$1" = step ]; then
        replay "$2" "$folder/image"
    else
        replay "$2" "$folder/next" && mv "$folder/next" "$folder/state" && rm -f "$folder/image" && copy "$folder/state" "$folder/image"
    fi
}

copy() {
    cp --reflink=auto --sparse=always "$1" "$2" 2>/dev/null || cp "$1" "$2"
}

# Prints why an image can't be made: what the replay from the first image says, which counts the log's entries, or else what the step said.
reason() {
    "$dmlw" --explain replay "$log" "$first" "$folder/image" "entries:$(($1 + 1))" 2>&1 >/dev/null && cat "$folder/said"
}

work() {
    folder=$1 dmlw=$2 log=$3 first=$4 size=$5 magic=$6 sizes=$7
    shift 7
    trap 'exit 143' HUP INT TERM
    state=$first
    made=yes
    while read -r kind place number count text; do
        text=${text%|}
        if [ "$kind" = part ]; then
            make_part "$place" "$number" "$text" >"$folder/said" 2>&1 || made=no
            continue
        fi
        if [ $made = yes ] && make_image "$kind" "$count" >"$folder/said" 2>&1; then
            [ "$kind" = step ] || state=$folder/state
            DMLW_ENTRY=$number
            DMLW_KIND=${text%% *}
            DMLW_MARK=
            [ "$DMLW_KIND" != mark ] || DMLW_MARK=${text#mark }
            export DMLW_ENTRY DMLW_KIND DMLW_MARK
            { "$@" "$folder/image"; } </dev/null >"$folder/said" 2>&1
            ended=$?
            [ $ended = 0 ] || mv "$folder/said" "$folder/said.$place"
        else
            reason "$number" >"$folder/said.$place"
            ended=image
        fi
        echo "$place $ended" || exit 3
    done <"$folder/steps" 3>&-
}

if [ "${1-}" = --work ]; then
    shift
    work "$@"
    exit
fi

# --- The words.

stop=no
from=0
to=
every=1
jobs=1
bisect=no
while :; do
    case ${1-} in
    --stop) stop=yes ;;
    --bisect) bisect=yes ;;
    --from | --to | --every | -j)
        [ $# -ge 2 ] || usage
        case $1 in --from) from=$2 ;; --to) to=$2 ;; --every) every=$2 ;; -j) jobs=$2 ;; esac
        shift
        ;;
    -j[0-9]*) jobs=${1#-j} ;;
    *) break ;;
    esac
    shift
done
[ $# -ge 4 ] || usage
case $from in mark:*) ;; *) is_number "$from" || usage ;; esac
case $to in mark:* | '') ;; *) is_number "$to" || usage ;; esac
is_number "$every" && [ "$every" -ge 1 ] && is_number "$jobs" && [ "$jobs" -le 1024 ] || usage
[ "$jobs" != 0 ] || jobs=$(nproc 2>/dev/null || getconf _NPROCESSORS_ONLN)
[ $bisect = no ] || [ "$jobs$stop" = 1no ] || refuse "--bisect checks one state after another: it takes neither -j nor --stop"
which=$1
log=$2
first=$3
shift 3
case $which in marks | flushes | fua | all) ;; *) usage ;; esac
case $log in --*) refuse "$log: options come before $which" ;; esac
for file in "$log" "$first"; do [ -r "$file" ] || refuse "$file can't be read"; done
command -v "$1" >/dev/null || refuse "$1 is no program"

self=$(readlink -f "$0")
here=$(dirname "$self")
# The program, and how it is called in the commands that are printed.
if [ -n "${DMLW-}" ]; then
    dmlw=$DMLW shown=$DMLW
elif [ -x "$here/../dmlw" ]; then
    dmlw=$("$here/../dmlw" --which) || exit 3
    shown=$(dirname "$here")/dmlw
    [ "$(readlink -f ./dmlw)" != "$shown" ] || shown=./dmlw
else
    case $here in */share/dmlw/examples) shown=${here%/share/dmlw/examples}/bin/dmlw ;; *) shown= ;; esac
    [ -x "$shown" ] || shown=$(command -v dmlw) || refuse "there is no dmlw: put it on the PATH, or name it in \$DMLW"
    # (what is installed in bin/ is a script that runs the program)
    dmlw=$(dirname "$(readlink -f "$shown")")/../lib/dmlw/dmlw
    [ -x "$dmlw" ] || dmlw=$shown
    [ "$(command -v dmlw)" != "$shown" ] || shown=dmlw
fi

# --- The folder, which goes at the end, however that comes.

# Whether /dev/shm has twice the room, and the machine twice the memory, that the images and the parts of the log may take.
in_memory() {
    [ -f "$first" ] && [ -f "$log" ] && [ -d /dev/shm ] && [ -w /dev/shm ] && { df -Pk /dev/shm && cat /proc/meminfo; } 2>/dev/null |
        awk -v image="$(wc -c <"$first")" -v log_size="$(du -kL "$log" | cut -f1)" -v jobs="$jobs" '
            NR == 2 { free = $4 }
            /^MemAvailable:/ { left = $2 }
            END { need = (image / 1024 * 3 + log_size + 8192) * jobs * 2; exit free < need || left < need }'
}

signal_workers() {
    for pid in $pids; do kill -s "$1" -- "-$pid" 2>/dev/null || kill -s "$1" "$pid" 2>/dev/null; done
}

# Ends what runs, and waits for it, since a check may have something to undo, such as a mount. Each worker is the head of a process group, so that its check gets the signal
# too. A second signal to the loop ends a check that doesn't end at the first.
end_workers() {
    trap 'signal_workers KILL' HUP INT TERM
    signal_workers TERM
    [ -z "$pids" ] || wait
    pids=
}

interrupted() {
    end_workers
    [ -z "$checked" ] || summary 2>/dev/null
    exit "$1"
}

pids=
checked=
room=
trap 'trap "" PIPE; end_workers; [ -z "$room" ] || rm -rf "$room"' EXIT
trap 'interrupted 129' HUP
trap 'interrupted 130' INT
trap 'exit 141' PIPE
trap 'interrupted 143' TERM
if [ -z "${TMPDIR-}" ] && in_memory; then
    room=$(mktemp -d -p /dev/shm) || exit 3
else
    room=$(mktemp -d) || exit 3
fi

# --- The steps.

# Writes the states that are asked for: into `steps` a line each with the entry's number, the log sector after it, and what the list prints of it, with a bar that ends it.
# Into `steps` of each worker's folder: a line of each part of the log, with the sector at which it begins, the count of its sectors, that of its entries and this number's
# 8 bytes as the log has them; behind it a line for each state in it, with its place, the entry's number, how many entries of the part it takes, and the same text. `last`
# is the last state of a part that another one follows.
steps() {
    which=$which from=$from to=$to awk -v every="$every" -v jobs="$jobs" -v room="$room" '
        function bytes(n,  place, shown) {
            for (place = 0; place < 8; place++) {
                shown = shown sprintf("\\%03o", n % 256)
                n = int(n / 256)
            }
            return shown
        }
        function add(end, text,  worker) {
            print $1, end, text "|" >(room "/steps")
            worker = found++ % jobs + 1
            if (held[worker] && end - begins[worker] > limit) write_part(worker, "last")
            held[worker]++
            lines[worker, held[worker]] = found " " $1 " " (count - before[worker]) " " text "|"
            ends[worker] = end
            counts[worker] = count
        }
        function write_part(worker, last,  at, file, size) {
            file = room "/" worker "/steps"
            size = counts[worker] - before[worker]
            print "part", begins[worker], ends[worker] - begins[worker], size, bytes(size) "|" >file
            for (at = 1; at <= held[worker]; at++) print at == held[worker] ? last : "step", lines[worker, at] >file
            held[worker] = 0
            begins[worker] = ends[worker]
            before[worker] = counts[worker]
        }
        BEGIN {
            which = ENVIRON["which"]
            from = ENVIRON["from"]
            to = ENVIRON["to"]
            from_mark = sub(/^mark:/, "", from)
            to_mark = sub(/^mark:/, "", to)
            open_end = to == "" && !to_mark
            for (worker = 1; worker <= jobs; worker++) begins[worker] = 1
        }
        /^super / { limit = 2097152 / $NF }
        !/^[0-9]/ { next }
        {
            text = $0
            sub(/^[0-9]+ @[0-9]+ /, "", text)
            count++
            end = substr($2, 2) + 1
            if ($3 == "write") {
                split($4, range, "+")
                end += range[2]
            }
            if (from_mark ? text == "mark " from : $1 + 0 >= from + 0) begun = 1
            if (!begun || ended || !open_end && !to_mark && $1 + 0 > to + 0) next
            flags = $3 == "mark" ? "" : text " "
            if (which == "all" || which == "marks" && $3 == "mark" ||
                which == "flushes" && (flags ~ /^flush / || flags ~ /^write .* flush /) || which == "fua" && flags ~ / fua /) {
                if (met++ % every == 0) add(end, text)
            }
            if (!open_end && (to_mark ? text == "mark " to : $1 + 0 == to + 0)) reached = ended = 1
        }
        END {
            for (worker = 1; worker <= jobs; worker++) if (held[worker]) write_part(worker, "step")
            exit begun ? open_end || reached ? 0 : 4 : 1
        }' "$room/list"
}

status=0
said=$("$dmlw" --explain list "$log" 2>&1 >"$room/list") || status=1
[ -z "$said" ] || printf '%s\n' "$said" >&2
case $said in *': 32 File'*'standard output'*) no_room ;; esac
case $said in *': 32 File'*) exit 3 ;; esac
[ -s "$room/list" ] || exit 1
grep -q '^[0-9]' "$room/list" || refuse "the log counts no entry: there is nothing to check"
worker=1
while [ $worker -le "$jobs" ]; do
    mkdir "$room/$worker" || exit 3
    worker=$((worker + 1))
done
: >"$room/steps"
steps
case $? in
0) ;;
1) refuse "the log has no entry $from" ;;
4) refuse "the log has no entry $to at or after $from" ;;
*) no_room ;;
esac
states=$(wc -l <"$room/steps")
size=$(sed -n '1s/.* sectorsize //p' "$room/list")
bytes_at() { od -An -v -t o1 -j "$1" -N "$2" "$log" | tr -d '\n' | sed 's/ /\\/g'; }
magic=$(bytes_at 0 16) && sizes=$(bytes_at 24 4) || exit 3
mkfifo "$room/told" || exit 3

# --- The loop.

# Opens the pipe from the workers, its end for reading as 6 and that for writing as 7. With both ends open, neither open waits for the other.
open_pipe() {
    exec 5<>"$room/told" 6<"$room/told" 7>"$room/told"
    exec 5<&-
}

# Starts the worker of a folder, in a process group of its own, so that it can be ended with its check.
begin_worker() {
    worker=$1
    shift
    set -- /bin/sh "$self" --work "$room/$worker" "$dmlw" "$log" "$first" "$size" "$magic" "$sizes" "$@"
    if command -v setsid >/dev/null; then setsid "$@" >&7 6<&- 7>&- & else "$@" >&7 6<&- 7>&- & fi
    pids="$pids $!"
}

say() {
    printf '%s\n' "$*" 2>/dev/null || { echo "$0: the output can't be written" >&2 && exit 3; }
}

summary() {
    if [ "$failed" = 0 ]; then say "$checked checked, 0 failed"; else say "$checked checked, $failed failed, the first is entry $first_failed"; fi
}

# Prints a state, by the status of its check, and counts it. Sets `told` to passed, failed, or not checked, which sets the status to 3.
show() {
    place=$1
    ended=$2
    folder=$3
    reason="the check can't be made: it ended with status $ended"
    case $ended in
    0) told=passed ;;
    image) told='not checked' reason="the image can't be made in $room" ;;
    3 | 126 | 127) told='not checked' ;;
    *) told=failed ;;
    esac
    case $told in failed) say "entry $number ($text): failed (status $ended)" ;; *) say "entry $number ($text): $told" ;; esac
    if [ "$told" != passed ]; then
        said=$(cat "$folder/said.$place")
        rm -f "$folder/said.$place"
        [ -z "$said" ] || say "$(printf '%s\n' "$said" | sed 's/^/  /')"
    fi
    if [ "$told" = 'not checked' ]; then
        echo "$0: $reason" >&2
        status=3
        return
    fi
    checked=$((checked + 1))
    [ "$told" = failed ] || return 0
    [ $failed != 0 ] && [ "$first_failed" -lt "$number" ] || first_failed=$number
    failed=$((failed + 1))
    status=1
}

gone() {
    echo "$0: entry $number isn't checked: what checks it has ended" >&2
    status=3
}

# Prints the states in their order, as the workers end with them.
in_order() {
    next=1
    while read -r place ended; do
        eval "ended_$place=\$ended"
        while eval "ended=\${ended_$next-}" && [ -n "$ended" ]; do
            unset "ended_$next"
            read -r number end text <&4
            text=${text%|}
            show $next "$ended" "$room/$(((next - 1) % jobs + 1))"
            [ "$told" != 'not checked' ] || return
            [ "$told$stop" != failedyes ] || return
            next=$((next + 1))
        done
    done
    wait
    pids=
    ! read -r number end text <&4 || gone
}

quoted() {
    case $1 in
    *[!A-Za-z0-9_./:+=,@%-]*) printf "'%s'" "$(printf '%s' "$1" | sed "s/'/'\\\\''/g")" ;;
    *) printf '%s' "$1" ;;
    esac
}

# Reads the entry of a place among the steps.
find() {
    sed -n "$1p" "$room/steps" >"$room/found"
    read -r number end text <"$room/found"
    text=${text%|}
}

# Checks the state of a place.
check_state() {
    place=$1
    shift
    find "$place"
    bytes=$(awk -v n=$((number + 1)) 'BEGIN { for (at = 0; at < 8; at++) { printf "\\%03o", n % 256; n = int(n / 256) } }')
    printf 'part 1 %s %s %s|\nstep %s %s %s %s|\n' $((end - 1)) $((number + 1)) "$bytes" "$place" "$number" $((number + 1)) "$text" >"$room/1/steps" || no_room
    open_pipe
    begin_worker 1 "$@"
    exec 7>&-
    if read -r place ended <&6; then show "$place" "$ended" "$room/1"; else gone; fi
    wait
    pids=
    [ $status != 3 ]
}

# Prints an entry with the command that makes its image.
end_of_search() {
    find "$1"
    say "the $2: entry $number ($text)"
    say "  $(quoted "$shown") replay $(quoted "$log") $(quoted "$first") $3 entries:$((number + 1))"
}

# Looks for the first bad state between a good one, at first none, and a bad one, at first none.
search() {
    good=0
    bad=$((states + 1))
    say "$states states, of which about log2 are checked: it is taken for granted that what fails keeps failing"
    place=$states
    while [ $((bad - good)) -gt 1 ]; do
        fault=$status
        check_state "$place" "$@" || return
        if [ "$told" = failed ]; then bad=$place; else good=$place status=$fault; fi
        place=$(((good + bad) / 2))
    done
    if [ $bad -gt "$states" ]; then
        say "no bad state: the last one is good"
        return
    fi
    if [ $good = 0 ]; then say "no good state: the first one is bad"; else end_of_search $good "last good" good.img; fi
    end_of_search $bad "first bad" bad.img
}

checked=0
failed=0
first_failed=
if [ "$states" = 0 ]; then
    :
elif [ $bisect = yes ]; then
    search "$@"
else
    open_pipe
    worker=1
    while [ $worker -le "$jobs" ]; do
        [ ! -s "$room/$worker/steps" ] || begin_worker $worker "$@"
        worker=$((worker + 1))
    done
    exec 7>&-
    in_order <&6 4<"$room/steps"
fi
summary
exit $status
