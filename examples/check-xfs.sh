#!/bin/sh
# Checks an XFS image as it would be mounted: lets the kernel replay its log first, and then looks at the file system.
#
#   examples/check-xfs.sh IMAGE
#
# It needs xfsprogs, a kernel with XFS and the right to mount on a loop device, as root: only the kernel can replay an XFS log (xfs_repair(8), DIRTY LOGS), so
# the image is mounted and unmounted once. Without that a healthy file system that lost power looks broken. The image is changed. It ends with status 0 where the
# file system is whole, and 1 where it isn't. Without that right it can't judge an image whose log is to be replayed: it says so, with status 3.
set -u
[ $# = 1 ] || { echo "usage: $0 IMAGE" && exit 127; }
PATH=$PATH:/usr/sbin:/sbin
command -v xfs_repair >/dev/null || { echo "xfs_repair isn't here: it is one of xfsprogs" && exit 127; }

# Whether a mount can succeed here at all: this kernel knows XFS, a loop device is free, and the right is there.
can_mount() {
    grep -qw xfs /proc/filesystems && losetup -f >/dev/null 2>&1 && mount -t tmpfs none "$room" 2>/dev/null && umount "$room"
}

room=$(mktemp -d) || exit 3
trap 'umount "$room" 2>/dev/null; rmdir "$room"' EXIT
trap 'exit 3' HUP INT TERM
if mount -t xfs -o loop,nouuid "$1" "$room"; then
    umount "$room" || exit 3
elif can_mount; then
    echo "$1 can't be mounted"
    exit 1
elif xfs_logprint -t "$1" 2>/dev/null | grep -q '<DIRTY>'; then
    echo "$1 isn't checked: its log is to be replayed first, and there is no right to mount it here"
    exit 3
fi
xfs_repair -n "$1"
