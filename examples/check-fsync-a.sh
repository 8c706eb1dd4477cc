#!/bin/sh
# Checks a state of the sample's log, as an example of a check that knows what must be there: the file system is whole and, after the mark fsync-a, the file /a has the
# 3,000 bytes that were written to it and synced before that mark.
#
#   examples/each.sh --from mark:mkfs marks ext4.log ext4.first examples/check-fsync-a.sh
#
# The file is read from the image into a pipe. A copy of it under a fixed name would pass wrongly, because debugfs ends with status 0 even if /a is missing, and the copy
# of an earlier state would be compared. It needs e2fsprogs.
set -u
[ $# = 1 ] || { echo "usage: $0 IMAGE" && exit 127; }
PATH=$PATH:/usr/sbin:/sbin
command -v debugfs >/dev/null || { echo "debugfs isn't here: it is one of e2fsprogs" && exit 127; }
"$(dirname "$0")/check-ext4.sh" "$1" || exit
case ${DMLW_MARK-} in
fsync-a)
    wanted=$(yes alpha | head -c 3000 | sha256sum)
    [ "$(debugfs -R 'cat /a' "$1" | sha256sum)" = "$wanted" ] || { echo "the file /a isn't as it was synced" && exit 1; }
    ;;
esac
