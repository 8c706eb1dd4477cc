#!/bin/sh
# Makes a Debian package of dmlw: what `make install` installs, with the program that ./dmlw runs, that of release/.
#
#   packaging/deb.sh [FOLDER]      writes FOLDER/dmlw_VERSION_amd64.deb, else into the caller's folder, and prints its name
#
# It needs make and dpkg-deb, and no right of root. The version is the program's, and the day and the commit of the checkout if there is one.
set -eu
folder=$(cd "${1:-.}" && pwd)
cd "$(dirname "$(readlink -f "$0")")/.."
command -v dpkg-deb >/dev/null || { echo "$0: the command dpkg-deb is missing: install dpkg" >&2 && exit 1; }
program=$(./dmlw --which)
version=$("$program" --version | sed 's/^dmlw \([0-9.]*\).*/\1/')
commit=$(git log -1 --format=%cd.%h --date=format:%Y%m%d 2>/dev/null) && version=$version+git$commit
room=$(mktemp -d)
trap 'rm -rf "$room"' EXIT
chmod 755 "$room"
make -s install DESTDIR="$room" PREFIX=/usr
gzip -9n "$room/usr/share/man/man1/dmlw.1"
mkdir -p "$room/usr/share/zsh/vendor-completions" "$room/DEBIAN"
mv "$room/usr/share/zsh/site-functions/_dmlw" "$room/usr/share/zsh/vendor-completions/"
rmdir "$room/usr/share/zsh/site-functions"
# The oldest C library whose names the program uses, if there is a tool that tells it.
needed=$(objdump -T "$program" 2>/dev/null | sed -n 's/.*GLIBC_\([0-9.]*\).*/\1/p' | sort -V | tail -1) || needed=
cat >"$room/DEBIAN/control" <<END
Package: dmlw
Version: $version
Architecture: amd64
Maintainer: the authors of dmlw <dmlw@localhost>
Installed-Size: $(du -sk --exclude=DEBIAN "$room" | cut -f1)
Depends: libc6${needed:+ (>= $needed)}
Suggests: e2fsprogs, xfsprogs, btrfs-progs
Section: utils
Priority: optional
Description: make, list and replay logs of dm-log-writes
 dmlw reads the logs that Linux's device mapper target dm-log-writes records,
 and replays prefixes of them on an image, to see what a power failure could
 leave of a file system. It also makes such logs from scripts. Its code is
 proved.
END
package=$folder/dmlw_${version}_amd64.deb
dpkg-deb --build --root-owner-group "$room" "$package" >/dev/null
echo "$package"
