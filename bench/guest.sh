#!/bin/sh
# Records what a guest's kernel does with a file system, through `dmlw serve`, and then checks every state of the log in a guest.
#
#   bench/guest.sh [--dmlw PROGRAM] [--kernel FOLDER] [--layer LINE] [--layers FILE] [--bus BUS] [--cache MODE] [--at WHAT] [--every N] [--accel kvm] [--keep FOLDER] ext4|xfs|btrfs ..
#
#   --dmlw PROGRAM    the program to try; ./dmlw of the repository if left out
#   --kernel FOLDER   a folder with boot/vmlinuz-* and lib/modules/*, as `dpkg -x linux-image-*.deb FOLDER` makes it. If it is left out, the package is fetched by apt-get
#   --layer LINE      a line that is added to the session's head, for example a layer that fails writes; it may be given several times. The words SECTORS and LOG in it
#                     become the sizes of the data disk and of the log's disk
#   --layers FILE     a file of such lines
#   --bus BUS         how the guest sees its disk: virtio (virtio-blk, if left out), scsi (scsi-hd with dpofua=on at virtio-scsi), plain-scsi (without dpofua), sata (ide-hd at ahci),
#                     nvme, or nbd: the guest's own kernel is the client, by nbd-client and a network
#   --cache MODE      QEMU's cache of that disk: writeback, or writethrough. If it is left out, it is writethrough for nvme, and writeback else
#   --at WHAT         which states are checked: all (if left out), marks, flushes or fua, as examples/each.sh has it, or none: then there is no second guest (bench/marked.sh
#                     checks the states of an ext4 in less time)
#   --every N         checks each N-th of these states only, and the first
#   --accel kvm       runs the guests by KVM in place of QEMU's emulation
#   --keep FOLDER     keeps each log, first image and output there
#
# The first guest makes the file system, writes files, calls fsync, and sets a mark `have NAME SUM` after each fsync that returned. It sets a mark `gone NAME` before it removes
# or renames a file. At last it unmounts, and tells the sum of the whole disk. The second guest goes over all states by examples/each.sh: it mounts the state, looks for
# each file that the marks up to there name, unmounts, and runs the file system's own check. The last state has to be the disk, unless layers fail writes: these are logged too.
#
# It needs qemu-system-x86_64, socat, cpio, kmod and the programs of the file system (e2fsprogs, xfsprogs, btrfs-progs), for nbd also iproute2 and nbd-client. By emulation a file system takes some minutes with --every 40, and over half an hour if
# every state is mounted.
# The last line counts. The status is 0 if no state failed, 1 if one did, 2 if something lacks.
set -u
top=$(cd "$(dirname "$0")/.." && pwd)
PATH=$PATH:/usr/sbin:/sbin
dmlw= kernel= layers= lines= bus=virtio cache= keep= at=all every=1 accel=tcg
while :; do
    case ${1-} in
    --dmlw) dmlw=$2 ;;
    --kernel) kernel=$2 ;;
    --layer) lines="$lines$2
" ;;
    --layers) layers=$2 ;;
    --bus) bus=$2 ;;
    --cache) cache=$2 ;;
    --at) at=$2 ;;
    --every) every=$2 ;;
    --accel) accel=$2 ;;
    --keep) keep=$2 ;;
    *) break ;;
    esac
    shift 2
done
[ $# -ge 1 ] || { sed -n 2,4p "$0" && exit 2; }
# nvme drops FUA (USING tells why), so its disk is written through.
[ -n "$cache" ] || case $bus in nvme) cache=writethrough ;; *) cache=writeback ;; esac
case $bus in
virtio) attach='virtio-blk-pci,drive=d0' disk=/dev/vda ;;
scsi) attach='virtio-scsi-pci -device scsi-hd,drive=d0,dpofua=on' disk=/dev/sda ;;
plain-scsi) attach='virtio-scsi-pci -device scsi-hd,drive=d0' disk=/dev/sda ;;
sata) attach='ide-hd,drive=d0,bus=ide.0' disk=/dev/sda ;;
nvme) attach='nvme,drive=d0,serial=d0' disk=/dev/nvme0n1 ;;
nbd) attach='virtio-net-pci,netdev=n' disk=/dev/nbd0 ;;
*) echo "$0: --bus is virtio, scsi, plain-scsi, sata, nvme or nbd" && exit 2 ;;
esac
case $at in all | marks | flushes | fua | none) ;; *) echo "$0: --at is all, marks, flushes, fua or none" && exit 2 ;; esac
case $cache in writeback | writethrough) ;; *) echo "$0: --cache is writeback or writethrough" && exit 2 ;; esac
for it in qemu-system-x86_64 socat cpio depmod modprobe ldd; do
    command -v $it >/dev/null || { echo "left out: $it isn't installed" && exit 2; }
done
[ -n "$dmlw" ] || dmlw=$("$top/dmlw" --which) || exit 2
dmlw=$(realpath "$dmlw")
[ -z "$layers" ] || layers=$(realpath "$layers")
room=$(mktemp -d) || exit 2
trap 'rm -rf "$room"' EXIT
trap 'exit 130' HUP INT TERM
if [ -z "$kernel" ]; then
    kernel=$room/kernel
    package=$(apt-cache depends linux-image-amd64 | sed -n 's/.*Depends: \(linux-image-[^ ]*\).*/\1/p' | head -1)
    (cd "$room" && apt-get download "$package" && dpkg -x "$package"_*.deb kernel) >"$room/fetched" 2>&1 || { cat "$room/fetched" && exit 2; }
fi
kernel=$(realpath "$kernel")
vmlinuz=$(ls "$kernel"/boot/vmlinuz-* | head -1)
version=${vmlinuz##*/vmlinuz-}
[ -f "$kernel/lib/modules/$version/modules.dep" ] || depmod -b "$kernel" "$version"

# Copies programs and the libraries that they are linked with to a guest's files.
add_programs() {
    for it; do
        path=$(command -v "$it") || { echo "left out: $it isn't installed" && return 1; }
        cp -L "$path" "$files/bin/"
        ldd "$path" 2>/dev/null | grep -o '/[^ ]*' | while read -r library; do
            mkdir -p "$files$(dirname "$library")"
            [ -e "$files$library" ] || cp -L "$library" "$files$library"
        done
    done
}

# Makes the first files of a guest, in which a file system's programs are: $1 is the file system, and $2 is what the guest runs.
make_guest() {
    files=$room/files
    rm -rf "$files"
    mkdir -p "$files/bin" "$files/proc" "$files/sys" "$files/dev" "$files/mnt" "$files/tmp" "$files/modules" "$files/sbin" "$files/etc"
    ln -s /proc/mounts "$files/etc/mtab"
    add_programs sh mount umount insmod dd cp mv rm cat md5sum sync sleep grep sed awk ls mkdir mktemp head tail cut tr wc sort seq fstrim losetup reboot stat truncate timeout expr \
        rmdir dirname basename realpath nproc getconf df od ln touch env date find xargs cmp paste mkfifo stdbuf readlink tee uname id dmesg || return 1
    case $1 in
    ext4) add_programs mkfs.ext4 e2fsck debugfs ;;
    xfs) add_programs mkfs.xfs xfs_repair xfs_logprint ;;
    btrfs) add_programs mkfs.btrfs btrfs ;;
    esac || return 1
    [ "$bus" != nbd ] || add_programs ip nbd-client || return 1
    for it in virtio_pci virtio_blk virtio_console virtio_scsi sd_mod ahci nvme virtio_net nbd loop crc32c_generic "$1"; do
        modprobe -d "$kernel" -S "$version" --show-depends "$it" 2>/dev/null | sed -n 's/^insmod \([^ ]*\).*/\1/p'
    done | awk '!seen[$0]++' >"$room/modules"
    while read -r it; do
        cp "$it" "$files/modules/" && echo "insmod /modules/${it##*/}" >>"$files/load"
    done <"$room/modules"
    {
        echo '#!/bin/sh'
        echo 'export PATH=/bin:/sbin:/usr/bin:/usr/sbin'
        echo 'mount -t proc proc /proc; mount -t sysfs sys /sys; mount -t devtmpfs dev /dev; mount -t tmpfs -o size=95% tmp /tmp'
        echo '. /load 2>/dev/null'
        echo "fs=$1 disk=$disk at=$at every=$every"
        cat "$2"
        echo 'sync; echo o >/proc/sysrq-trigger; sleep 60'
    } >"$files/init"
    chmod +x "$files/init"
}

# Runs the guest; the words are added to qemu's.
run_guest() {
    (cd "$files" && find . | cpio -o -H newc 2>/dev/null) >"$room/guest.cpio"
    timeout 3000 qemu-system-x86_64 -machine q35,accel=$accel -cpu max -display none -nodefaults -no-reboot -serial stdio -kernel "$vmlinuz" -initrd "$room/guest.cpio" \
        -append 'console=ttyS0 quiet panic=-1 rdinit=/init' "$@"
}

# What the first guest does.
cat >"$room/work" <<'END'
for n in 1 2 3 4 5 6 7 8 9 10; do set -- /dev/vport*p1; [ -e "$1" ] && break; sleep 0.2; done
exec 3>"$1"
# (QEMU connects this address to the server's socket)
[ "$disk" != /dev/nbd0 ] || { ip link set eth0 up && ip addr add 10.0.2.15/24 dev eth0 && nbd-client 10.0.2.100 10809 "$disk" && sleep 1; }
mark() { echo "$*" >&3; }
queue=/sys/block/${disk#/dev/}/queue
echo "guest: offered FUA: $(cat "$queue/fua"), cache: $(cat "$queue/write_cache")"
have() { sum=$(md5sum <"/mnt/$1") && mark have "$1" "${sum%% *}"; }
case $fs in
ext4) mkfs.ext4 -q "$disk" ;;
xfs) mkfs.xfs -q "$disk" ;;
btrfs) mkfs.btrfs -q "$disk" ;;
esac && mount -t $fs "$disk" /mnt || echo guest: not mounted
mark mkfs
for n in $(seq 20); do
    dd if=/dev/urandom of=/mnt/f$n bs=$((1000 * n)) count=3 conv=fsync 2>/dev/null && have f$n
done
for n in 1 2 3; do mark gone f$n; rm /mnt/f$n; done
for n in 4 5 6; do mark gone f$n; mv /mnt/f$n /mnt/g$n; sync /mnt/g$n && sync /mnt && have g$n; done
mkdir /mnt/folder
for n in 7 8 9; do cp /mnt/f$n /mnt/folder/h$n; done
sync /mnt
for n in 11 12; do mark gone f$n; dd if=/dev/urandom of=/mnt/f$n bs=5000 count=4 conv=notrunc,fsync 2>/dev/null && have f$n; done
# four writers at once
for w in 1 2 3 4; do (for n in $(seq 8); do dd if=/dev/urandom of=/mnt/w$w.$n bs=3000 count=$n conv=fsync 2>/dev/null && have w$w.$n; done) & done
wait
fstrim /mnt
touch /mnt/last 2>/dev/null && can=written || can="only read"
echo "guest: the file system can be $can at the end, and the kernel told of $(dmesg | grep -c 'I/O error, dev') errors of the disk"
umount /mnt && mark unmounted
sum=$(dd if="$disk" bs=1M iflag=direct 2>/dev/null | md5sum) && echo "guest: disk ${sum%% *}"
[ "$disk" != /dev/nbd0 ] || nbd-client -d "$disk"
END

# What the second guest does: the log is its first disk, the first image its second, and this program and each.sh are among its files.
cat >"$room/look" <<'END'
cat /dev/vda >/tmp/log; cat /dev/vdb >/tmp/first
dmlw list /tmp/log | sed -n 's/^ *\([0-9]*\) .*mark \(have\|gone\) /\1 \2 /p' >/tmp/marks
cat >/tmp/check <<'CHECK'
#!/bin/sh
fs=$1 image=$2
case $fs in xfs) with=loop,nouuid ;; *) with=loop ;; esac
mount -t $fs -o $with "$image" /mnt || { echo "it can't be mounted"; exit 1; }
awk -v last="$DMLW_ENTRY" '$1 <= last { if ($2 == "have") sum[$3] = $4; else delete sum[$3] } END { for (it in sum) print sum[it] "  /mnt/" it }' /tmp/marks >/tmp/wanted
ended=0
[ ! -s /tmp/wanted ] || md5sum --quiet -c /tmp/wanted 2>&1 || ended=1
wc -l </tmp/wanted >>/tmp/sums
umount /mnt || exit 3
[ $ended = 0 ] || exit 1
case $fs in
ext4) e2fsck -fn "$image" ;;
xfs) xfs_repair -n "$image" ;;
btrfs) btrfs check --readonly "$image" ;;
esac
CHECK
DMLW=/bin/dmlw TMPDIR=/tmp sh /bin/each.sh --every $every --from mark:mkfs $at /tmp/log /tmp/first sh /tmp/check $fs 2>&1 | tee /tmp/out
echo "guest: $(tail -1 /tmp/out)"
echo "guest: files compared $(awk '{ n += $1 } END { print n + 0 }' /tmp/sums)"
END

ended=0
for fs; do
    case $fs in ext4) sectors=131072 log=262144 ;; xfs) sectors=655360 log=524288 ;; btrfs) sectors=262144 log=262144 ;; *) echo "$0: no such file system: $fs" && exit 2 ;; esac
    { printf 'data %s\nlog %s\n%s' $sectors $log "$lines" && { [ -z "$layers" ] || cat "$layers"; }; } | sed "s/SECTORS/$sectors/; s/LOG/$log/" >"$room/head"
    rm -f "$room/first" "$room/log" "$room/sock"
    truncate -s $((sectors * 512)) "$room/first" && : >"$room/marks"
    make_guest $fs "$room/work" || exit 2
    printf "trap '' TERM\ncd '%s' && exec '%s' serve head first log --marks marks\n" "$room" "$dmlw" >"$room/start"
    socat -t 600 "UNIX-LISTEN:$room/sock" "EXEC:sh $room/start" 2>"$room/served" &
    server=$!
    for n in $(seq 100); do [ ! -S "$room/sock" ] || break; sleep 0.1; done
    case $bus in
    nbd) link="-netdev user,id=n,guestfwd=tcp:10.0.2.100:10809-unix:$room/sock" ;;
    *) link="-drive file=nbd:unix:$room/sock,format=raw,if=none,id=d0,cache=$cache,discard=unmap" ;;
    esac
    # shellcheck disable=SC2086
    run_guest -m 768 -smp 2 $link -device $attach \
        -device virtio-serial-pci -chardev "file,id=m,path=$room/marks,append=on" -device virtserialport,chardev=m,name=marks >"$room/wrote" 2>&1 </dev/null
    wait $server
    [ -s "$room/log" ] || { cat "$room/wrote" "$room/served" && echo "$fs: FAILED: there is no log" && ended=1 && continue; }
    tr -d '\r' <"$room/wrote" | grep -a 'guest: ' | grep -v 'guest: disk' | sed "s/^.*guest: /$fs: first guest: /"
    # (the sum of the whole disk, which the guest read, against the replay of the whole log; under layers they may differ, since a failed write is logged too)
    count=$("$dmlw" status "$room/log" | sed -n '1s/[^0-9]*\([0-9]*\).*/\1/p')
    "$dmlw" replay "$room/log" "$room/first" "$room/last" "entries:$count" >/dev/null 2>"$room/replayed" || cat "$room/replayed"
    disk_sum=$(sed -n 's/.*guest: disk \([0-9a-f]*\).*/\1/p' "$room/wrote")
    last_sum=$(md5sum <"$room/last")
    same=same
    [ "$disk_sum" = "${last_sum%% *}" ] || case $(cat "$room/head") in
    *data-layer*) same="not the same, as may be under layers" ;;
    *) same="NOT the same" ended=1 ;;
    esac
    : >"$room/looked"
    if [ "$at" != none ]; then
        make_guest $fs "$room/look" || exit 2
        cp "$dmlw" "$files/bin/dmlw" && add_programs "$dmlw" && cp "$top/examples/each.sh" "$files/bin/each.sh"
        run_guest -m 4096 -smp 2 -drive "file=$room/log,format=raw,if=none,id=l,readonly=on" -device virtio-blk-pci,drive=l \
            -drive "file=$room/first,format=raw,if=none,id=f,readonly=on" -device virtio-blk-pci,drive=f >"$room/looked" 2>&1 </dev/null
        tr -d '\r' <"$room/looked" | grep -a 'guest: \|: failed\|not checked' | sed "s/^\(guest: \)*/$fs: second guest: /"
        tr -d '\r' <"$room/looked" | grep -aq 'guest: .*, 0 failed' || ended=1
    fi
    echo "$fs: $count entries, $(grep -c . "$room/marks") marks, the last state and the disk are $same; $(tr '\n' ';' <"$room/served")"
    [ -z "$keep" ] || { mkdir -p "$keep/$fs" && cp --sparse=always "$room/log" "$room/first" "$room/marks" "$room/head" "$room/wrote" "$room/looked" "$room/served" "$keep/$fs/"; }
done
[ $ended = 0 ] && echo passed || echo failed
exit $ended
