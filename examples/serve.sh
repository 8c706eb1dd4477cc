#!/bin/sh
# Serves one client of the NBD protocol at a socket, and records its requests in a log.
#
#   examples/serve.sh [--marks FILE] HEAD FIRST LOG [SOCKET]
#
# HEAD is a script with the lines data, log and layers only. FIRST is the first content of the data disk, as large as HEAD says. LOG is the log to write. SOCKET is the
# socket at which the client is waited for, LOG.sock if it is left out. With --marks, each line that is appended to FILE becomes a mark; FILE is made if it isn't there.
#
# It prints how a guest, the kernel and other programs attach to the socket, and then waits for the client. It ends when LOG is written, with the status of `dmlw serve`:
# 0, or 3 if logging ended before the session, as in a full log, or 1 if HEAD or FIRST is refused or no client came.
#
# For example, with a data disk of 64 MiB and a log of 128 MiB:
#
#   printf 'data 131072\nlog 262144\n' >head && truncate -s 64M first
#   examples/serve.sh --marks marks head first my.log
#
# socat accepts the client. Half a second after a client closed, it asks what it started to end, by the signal TERM. Writing LOG may take longer, so the server ignores
# that signal, and socat waits ten minutes for it. One client is served, since a second one would write LOG again.
# The program is ./dmlw of the repository, or `dmlw` on the PATH; $DMLW is another.
set -eu

usage() {
    echo "usage: $0 [--marks FILE] HEAD FIRST LOG [SOCKET]" >&2
    exit 2
}

refuse() {
    echo "$0: $*" >&2
    exit 1
}

# The name of a file, from the root.
whole() {
    case $1 in /*) echo "$1" ;; *) echo "$PWD/$1" ;; esac
}

marks=
if [ "${1-}" = --marks ]; then
    [ "$#" -ge 2 ] || usage
    marks=$2
    shift 2
fi
case ${1-} in -*) usage ;; esac
[ "$#" = 3 ] || [ "$#" = 4 ] || usage
head=$1 first=$2 log=$3 socket=$(whole "${4:-$3.sock}")
case $socket in *[!A-Za-z0-9/._-]*) refuse "socat can't take the socket's name $socket: it may have letters, digits and /._- only" ;; esac
command -v socat >/dev/null || refuse "the command socat is missing, which accepts the client"
[ ! -e "$socket" ] || refuse "$socket is there already"

here=$(cd "$(dirname "$0")/.." && pwd)
if [ -z "${DMLW-}" ]; then
    if [ -x "$here/dmlw" ]; then DMLW=$("$here/dmlw" --which); else DMLW=$(command -v dmlw) || refuse "dmlw isn't on the PATH"; fi
fi
[ -z "$marks" ] || : >>"$marks"

room=$(mktemp -d)
trap 'rm -rf "$room" "$socket"' EXIT
# What socat starts, which leaves its status in a file.
cat >"$room/serve" <<'END'
trap '' TERM
echo $$ >"$SERVE_ROOM/process"
cd "$SERVE_FROM"
status=0
"$DMLW" serve ${SERVE_MARKS:+--marks "$SERVE_MARKS"} "$SERVE_HEAD" "$SERVE_FIRST" "$SERVE_LOG" || status=$?
echo "$status" >"$SERVE_ROOM/status.new"
mv "$SERVE_ROOM/status.new" "$SERVE_ROOM/status"
END
export DMLW SERVE_FROM="$PWD" SERVE_ROOM="$room" SERVE_HEAD="$head" SERVE_FIRST="$first" SERVE_LOG="$log" SERVE_MARKS="$marks"

cat >&2 <<END
Waiting for a client at $socket.
  a guest:   qemu-system-x86_64 .. -drive file=nbd+unix:///?socket=$socket,format=raw,if=none,id=d0,cache=writeback,discard=unmap -device virtio-blk-pci,drive=d0
  a kernel:  modprobe nbd && nbd-client -unix $socket /dev/nbd0, and at the end nbd-client -d /dev/nbd0
  others:    nbdcopy --flush IMAGE 'nbd+unix:///?socket=$socket', or qemu-io -f raw 'nbd+unix:///?socket=$socket'
END
if [ -n "$marks" ]; then
    cat >&2 <<END
  marks:     add -device virtio-serial-pci -chardev file,id=m,path=$(whole "$marks"),append=on -device virtserialport,chardev=m,name=marks
             to the guest's words, and in the guest: sync FILE && echo NAME >/dev/virtio-ports/marks
END
fi
(cd "$room" && exec socat -b 262144 -t 600 "UNIX-LISTEN:$socket" EXEC:'sh serve') || :
[ -s "$room/process" ] || refuse "no client came"
while kill -0 "$(cat "$room/process")" 2>/dev/null; do sleep 0.1; done
[ -s "$room/status" ] || refuse "the server ended before LOG was written"
exit "$(cat "$room/status")"
