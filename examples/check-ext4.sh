#!/bin/sh
# Checks an ext4 image as it would be mounted: replays its journal first, and then looks at the file system.
#
#   examples/check-ext4.sh IMAGE
#
# Without the journal's replay a healthy file system that lost power looks broken: `fsck.ext4 -fn` alone skips the recovery. `-p` replays the journal, and mends no
# damaged superblock or journal head, as `-y` would. The image is changed. It ends with status 0 where the file system is whole, and 127 where there is no e2fsck.
set -u
[ $# = 1 ] || { echo "usage: $0 IMAGE" && exit 127; }
PATH=$PATH:/usr/sbin:/sbin
command -v e2fsck >/dev/null || { echo "e2fsck isn't here: it is one of e2fsprogs" && exit 127; }
e2fsck -E journal_only -p "$1"
ended=$?
# (a crash of e2fsck keeps its status; of its own, 1 to 3 are that it changed something, and 3 would say that the image can't be checked)
case $ended in 0) ;; [123]) exit 1 ;; *) exit $ended ;; esac
exec e2fsck -fn "$1"
