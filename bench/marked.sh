#!/bin/sh
# Checks an ext4 image of a log of bench/guest.sh, as the second guest does, but without mounting it: replays the journal, calls e2fsck, and compares each file that the marks up to this
# state name (`have NAME SUM`, `gone NAME`) with its sum. It is a check for examples/each.sh, and needs neither root nor a guest:
#
#   bench/guest.sh --keep kept ext4
#   examples/each.sh --from mark:mkfs marks kept/ext4/log kept/ext4/first bench/marked.sh kept/ext4/log
#
# The program is $DMLW, or ./dmlw of the repository if that is empty. The image is changed. The status is 0 if all is there, 1 if something is missing or broken, and 127 if e2fsprogs isn't installed.
set -u
[ $# = 2 ] || { echo "usage: $0 LOG IMAGE" && exit 127; }
log=$1 image=$2
PATH=$PATH:/usr/sbin:/sbin
command -v e2fsck >/dev/null && command -v debugfs >/dev/null || { echo "e2fsck or debugfs isn't here: they are of e2fsprogs" && exit 127; }
top=$(cd "$(dirname "$0")/.." && pwd)
dmlw=${DMLW:-$("$top/dmlw" --which)} || exit 127
"$top/examples/check-ext4.sh" "$image" || exit
bad=0
wanted=$("$dmlw" list "$log" | sed -n 's/^ *\([0-9]*\) .* mark \(have\|gone\) /\1 \2 /p' |
    awk -v last="$DMLW_ENTRY" '$1 <= last { if ($2 == "have") sum[$3] = $4; else delete sum[$3] } END { for (it in sum) print sum[it], it }')
while read -r sum name; do
    [ -n "$name" ] || continue
    found=$(debugfs -R "cat $name" "$image" 2>/dev/null | md5sum)
    [ "$sum" = "${found%% *}" ] || { echo "$name is missing, or has another content" && bad=1; }
done <<END
$wanted
END
exit $bad
