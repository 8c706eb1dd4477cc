#!/usr/bin/env python3
"""Counts how many entries' bodies the built program holds at once, while it reads logs of 250, 500 and 1,000 writes of 60 KiB.

usage: bench/bodies.py [PROGRAM]    (without PROGRAM it builds the program where needed, by ./dmlw)

A small C library that is built here (it needs `cc`) stands before the program's `malloc`, `realloc` and `free`: it counts the blocks of a body's size that are held, and
the most at one time. `list` and `status` hold none, since they read no data. A disk keeps each write for itself, as `replay`'s and `copy`'s target do: so these
hold as many as there are writes, and the reader one more. Ends with status 1 where a command holds more.
"""
import os
import subprocess
import sys
import tempfile

from logs import SECTOR, writes
from measure import build

SECTORS = 120
SOURCE = r"""
#include <fcntl.h>
#include <malloc.h>
#include <stdatomic.h>
#include <stddef.h>
#include <stdlib.h>
#include <sys/mman.h>

extern void *__libc_malloc(size_t);
extern void *__libc_realloc(void *, size_t);
extern void __libc_free(void *);
static atomic_long unseen[2];
// How many blocks of the size are held, and the most at one time: in a file that outlives the program.
static atomic_long *held = unseen;
static size_t wanted;

__attribute__((constructor)) static void begin(void) {
    int file = open(getenv("HELD_FILE"), O_RDWR);
    void *shared = file < 0 ? MAP_FAILED : mmap(NULL, 2 * sizeof(long), PROT_READ | PROT_WRITE, MAP_SHARED, file, 0);
    wanted = atol(getenv("HELD_SIZE"));
    if (shared != MAP_FAILED) held = shared;
}

static int is_wanted(void *block) {
    if (!block || !wanted) return 0;
    size_t size = malloc_usable_size(block);
    return size >= wanted && size < wanted + 64;
}

static void *come(void *block) {
    if (is_wanted(block)) {
        long now = atomic_fetch_add(&held[0], 1) + 1;
        if (now > atomic_load(&held[1])) atomic_store(&held[1], now);
    }
    return block;
}

static void go(void *block) {
    if (is_wanted(block)) atomic_fetch_sub(&held[0], 1);
}

void *malloc(size_t size) { return come(__libc_malloc(size)); }

void *realloc(void *block, size_t size) {
    go(block);
    return come(__libc_realloc(block, size));
}

void free(void *block) {
    go(block);
    __libc_free(block);
}
"""


def most_held(program, library, folder, words):
    """The most blocks of a body's size that a run of the program holds at one time."""
    with open(f"{folder}/held", "wb") as it:
        it.write(bytes(16))
    how = dict(os.environ, LD_PRELOAD=library, HELD_FILE=f"{folder}/held", HELD_SIZE=str(SECTOR * SECTORS))
    subprocess.run([program, *words], cwd=folder, env=how, check=True, stdout=subprocess.DEVNULL)
    with open(f"{folder}/held", "rb") as it:
        return int.from_bytes(it.read()[8:], "little")


def main():
    program, differ = sys.argv[1] if sys.argv[1:] else build(), 0
    with tempfile.TemporaryDirectory() as folder:
        with open(f"{folder}/held.c", "w") as it:
            it.write(SOURCE)
        subprocess.run(["cc", "-O2", "-shared", "-fPIC", "-o", f"{folder}/held.so", f"{folder}/held.c"], check=True)
        print("writes  command   bodies at once   of them the target's")
        for count in (250, 500, 1000):
            for name, data in ("log", writes((count + 1) * (1 + SECTORS) * SECTOR, count + 1, SECTORS)), ("first", bytes(count * SECTORS * SECTOR)):
                with open(f"{folder}/{name}", "wb") as it:
                    it.write(data)
            for words, kept in (
                (["list", "log"], 0),
                (["status", "log"], 0),
                (["replay", "log", "first", "out", f"entries:{count}"], count),
                (["copy", "log", "out", str(8 * (count + 2) * (1 + SECTORS // 8))], count),
            ):
                most = most_held(program, f"{folder}/held.so", folder, words)
                allowed = kept + 1 if kept else 0
                differ += most > allowed
                print(f"{count:6}  {words[0]:8} {most:15}   {kept}{'' if most <= allowed else '   too many'}")
    sys.exit(differ > 0)


if __name__ == "__main__":
    main()
