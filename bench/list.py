#!/usr/bin/env python3
"""Measures `dmlw list` and `dmlw status`: makes logs of 128, 256 and 512 MiB with 50,000, 100,000 and 200,000 writes of
four sectors, and one of 128 MiB of marks, runs the program on them, and prints CPU times, the ratio to the log before, the
ratio to the plain Rust program of bench/peer.rs, and the peak memory beside the image. Needs Python 3, and for the peer a
rustc.

usage: bench/list.py              (builds the program where needed, by ./dmlw)
"""

import tempfile

from logs import marks, writes
from measure import MIB, build, build_peer, measure


def main():
    program = build()
    print("image             command   CPU s  ratio  times the peer   peak MiB   of the image")
    images = [(f"writes, {size} MiB", lambda size=size, entries=entries: writes(size * MIB, entries))
              for size, entries in ((128, 50_000), (256, 100_000), (512, 200_000))]
    images += [("marks, 128 MiB", lambda: marks(128 * MIB))]
    before = {}
    with tempfile.TemporaryDirectory() as folder:
        peer = build_peer(folder)
        for kind, make in images:
            image = make()
            for command in ("list", "status"):
                ours = measure(program, [command, "log"], {"log": image})
                theirs = peer and measure(peer, [command, "log"], {"log": image})
                ratio = f"{ours.seconds / before[command]:5.2f}" if command in before and kind.startswith("w") else "     "
                before[command] = ours.seconds
                print(
                    f"{kind:18}{command:7}  {ours.seconds:6.2f}  {ratio}  {ours.beside(theirs)}         {ours.peak / MIB:9.1f}"
                    f"   {ours.peak / len(image):.2f} times"
                )


if __name__ == "__main__":
    main()
