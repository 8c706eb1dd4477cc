#!/bin/sh
# Lists what makes prefixes of a kernel's log doubtful: states that perhaps no power failure could have left, so that a check that fails there may be a false alarm.
#
#   examples/doubts.sh LOG [ENTRY]
#
# The kernel logs a FUA write at its own end, but a plain write or a discard only at the end of a flush that was submitted after it ended. So an older write of the same
# sector can come later in the log than the FUA write, and a replay then leaves the older value over a newer one that was durable. Such a pair is listed: a FUA write, and a
# later plain write or discard of one of its sectors, with at most one flush between them. Behind two flushes the plain write is the newer one, if never two flushes were
# open at once: it ended after the second one was submitted, therefore after the first one had ended, and so after the FUA write, which was logged before that. With one
# flush between, the plain write can be the older one only if the FUA write ended while that flush was open, and a file system that waits for its flushes sends none then.
# docs/KERNEL.md has the kernel's order, and docs/USING.md, "Is it a false alarm?", says what to do.
#
# With ENTRY the pairs are those of the prefix up to and with that entry, otherwise those of all prefixes. A pair makes the prefixes doubtful from its second write on, up to
# the entry before the one that writes the last of their common sectors again. Each is a line:
#
#   entries 40 (write 8+8 fua) and 47 (write 8+8): 0 flushes between, sector 8 (of 8), doubtful from 47 to 61
#
# What no log can show is whether two flushes were open at once. If they were, an entry FLUSH can come before writes that it made durable, without a pair in the list. A
# prefix with no pair in the list, of a log with one flush at a time, is a state that a power failure could have left. In a log that dmlw recorded the order is another, and
# no prefix is doubtful.
#
# Exit status: 0 if no pair is listed, 1 if one is, 2 if the words are wrong, 3 if the log can't be read or has a fault. The program is ./dmlw of the repository, or
# the dmlw that was installed together with this file, or `dmlw` on the PATH; $DMLW is another.
set -u

refuse() {
    echo "$0: $*" >&2
    exit 2
}

case $# in 1 | 2) ;; *) echo "usage: $0 LOG [ENTRY]" >&2 && exit 2 ;; esac
case ${2-0} in '' | *[!0-9]*) refuse "$2 is no entry's number" ;; esac
[ -r "$1" ] || refuse "$1 can't be read"
here=$(dirname "$(readlink -f "$0")")
if [ -n "${DMLW-}" ]; then
    dmlw=$DMLW
elif [ -x "$here/../dmlw" ]; then
    dmlw=$here/../dmlw
else
    case $here in */share/dmlw/examples) dmlw=${here%/share/dmlw/examples}/bin/dmlw ;; *) dmlw= ;; esac
    [ -x "$dmlw" ] || dmlw=$(command -v dmlw) || refuse "there is no dmlw: put it on the PATH, or name it in \$DMLW"
fi
room=$(mktemp -d) || exit 3
trap 'rm -rf "$room"' EXIT
trap 'exit 129' HUP
trap 'exit 130' INT
trap 'exit 141' PIPE
trap 'exit 143' TERM
"$dmlw" --explain list "$1" >"$room/list" || exit 3
awk -v wanted="${2-}" '
    # Of each sector that a FUA write wrote: `fua`, the last such entry, and `pair`, the pair of which a replay leaves the second value there. Of each pair: how many of
    # its sectors are so, and the first one.
    function settle(sector) {
        if (sector in pair) {
            if (!--left[pair[sector]]) until[pair[sector]] = number - 1
            delete pair[sector]
        }
    }
    function overwrite(sector,  between, key) {
        settle(sector)
        between = flushes - flushes_before[fua[sector]]
        if (between > 1) {
            delete fua[sector]
            kept--
            return
        }
        key = fua[sector] " " number
        if (!(key in first)) {
            keys[++pairs] = key
            first[key] = sector
            apart[key] = between
            until[key] = -1
        }
        if (sector < first[key]) first[key] = sector
        left[key]++
        all[key]++
        pair[sector] = key
    }
    !/^[0-9]/ { next }
    {
        number = $1 + 0
        if (wanted != "" && number > wanted + 0) { past = 1; exit }
        last = number
        text = $0
        sub(/^[0-9]+ @[0-9]+ /, "", text)
        kind = $3
        if (kind == "mark") next
        has_flush = (" " text " ") ~ / flush /
        if (kind == "write" || kind == "discard") {
            split($4, range, "+")
            begin = range[1] + 0
            end = begin + range[2]
            texts[number] = text
            if ((text " ") ~ / fua /) {
                flushes_before[number] = flushes + has_flush
                for (sector = begin; sector < end; sector++) {
                    settle(sector)
                    if (!(sector in fua)) kept++
                    fua[sector] = number
                }
            } else if (kept < end - begin) {
                # (the keys are collected first, since the loop deletes some)
                count = 0
                for (sector in fua) if (sector + 0 >= begin && sector + 0 < end) met[++count] = sector + 0
                for (at = 1; at <= count; at++) overwrite(met[at])
            } else {
                for (sector = begin; sector < end; sector++) if (sector in fua) overwrite(sector)
            }
        }
        flushes += has_flush
    }
    END {
        if (wanted != "" && last != wanted + 0) {
            print "the log has no entry " wanted >"/dev/stderr"
            exit 2
        }
        for (at = 1; at <= pairs; at++) {
            key = keys[at]
            split(key, both, " ")
            if (wanted != "" && until[key] >= 0) continue
            shown++
            printf "entries %d (%s) and %d (%s): %d flush%s between, sector %d", both[1], texts[both[1]], both[2], texts[both[2]], apart[key], apart[key] == 1 ? "" : "es", first[key]
            if (all[key] > 1) printf " (of %d)", all[key]
            if (wanted == "") printf ", doubtful from %d to %d", both[2], until[key] < 0 ? last : until[key]
            print ""
        }
        print (shown + 0) " doubtful pair" (shown == 1 ? "" : "s") (wanted == "" ? "" : " in the prefix up to entry " wanted)
        exit shown > 0
    }' "$room/list"
