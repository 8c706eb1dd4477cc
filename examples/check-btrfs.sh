#!/bin/sh
# Checks a btrfs image: looks at the file system, and changes nothing.
#
#   examples/check-btrfs.sh IMAGE
#
# It needs btrfs-progs, and neither root nor a mount: btrfs has no journal, and what a power failure leaves is the last commit, whole. Only what mounting would add
# to it from the log tree, for calls of fsync since then, isn't looked at. It ends with status 0 where the file system is whole.
set -u
[ $# = 1 ] || { echo "usage: $0 IMAGE" && exit 127; }
PATH=$PATH:/usr/sbin:/sbin
command -v btrfs >/dev/null || { echo "btrfs isn't here: it is one of btrfs-progs" && exit 127; }
exec btrfs check --readonly "$1"
