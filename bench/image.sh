#!/usr/bin/env bash
# Times images. First one of 100,000 sectors: seconds to make the disk, to write its image and to read it, by a program of its own, built in a copy of the
# crates. Then one of 725,057 sectors, which is the longest that a disk has: each command on images by the built program, in turn with a program in C that
# reads the file and copies it once in memory. Each with the greatest memory. Not part of the gate.
set -eu
top=$(cd "$(dirname "$0")/.." && pwd)
work=$(mktemp -d)
trap 'rm -rf "$work"' EXIT
cp "$top/crates.txt" "$work/crates.txt"
cp -r "$top/crates" "$work/crates"
echo 'image_bench: frang_base disk_definitions image_file anyhow' >>"$work/crates.txt"
mkdir -p "$work/crates/image_bench/src" "$work/crates/image_bench/specs"
touch "$work/crates/image_bench/specs/Lib.antt"
cat >"$work/crates/image_bench/src/main.rt" <<'END'
#![tactic(auto)]

use disk_definitions::Disk;
use frang_base::{NoMemory, Sector};
use image_file::{read_image, write_image};
use std::alloc::Global;
use std::time::Instant;

fn filled(alloc: Global, count: u64) -> Result<Disk, NoMemory> {
    let mut parameters = [0; 512];
    parameters[..8].copy_from_slice(b"FRANGPAR");
    parameters[8] = 1;
    parameters[12] = 64;
    parameters[16] = 1;
    let mut disk = Disk::new(alloc);
    disk.set(Sector(0), parameters)?;
    for n in 1..count {
        disk.set(Sector(12_884_901_887u64.wrapping_add(n)), [7; 512])?;
    }
    Ok(disk)
}

fn main(rt: HostRuntime) -> anyhow::Result<()> {
    let start = Instant::now(&rt)?;
    let Ok(disk) = filled(rt.alloc(), 100_000) else {
        return Ok(());
    };
    let made = start.elapsed(&rt)?.as_millis();
    let mut image = Vec::new(rt.alloc());
    let start = Instant::now(&rt)?;
    let written = write_image(&disk, &mut image).is_ok();
    let write = start.elapsed(&rt)?.as_millis();
    drop(disk);
    let start = Instant::now(&rt)?;
    let read = read_image(rt.alloc(), &image);
    let reading = start.elapsed(&rt)?.as_millis();
    let sectors = match read {
        Ok(disk) => disk.len(),
        Err(_) => 0,
    };
    let len = image.len();
    println!(rt; "made in {made} ms, written {written} in {write} ms, {len} bytes, read in {reading} ms, {sectors} sectors")?;
    Ok(())
}
END
cd "$work/crates/image_bench"
rt run >"$work/log" 2>&1 || { tail -n 20 "$work/log"; exit 1; }
/usr/bin/env time -f '%e s, %M KB' ./out/image_bench

cat >"$work/full_image.py" <<'END'
# Writes the image of a disk of 64 segments in which each sector of each region has bytes: 5 directories name 4,091 files of 65,536 bytes, and 64 of
# them have a large block besides. Every slot of every log has a record of 20 changes, newer than the disk, so that a recovery lays 1,310,720 changes over it.
import struct
import sys

SEGMENTS = 64
INODES = 64 * SEGMENTS
BLOCKS = 1024 * SEGMENTS
DIRECTORIES = 5
LOGS, BITMAPS, ROWS, SMALL, LARGE = 1 << 31, 1 << 32, 5 << 31, 6 << 31, 134 << 31


def whole(start):
    return start.ljust(512, b"\0")


def named(d):
    if d == 0:
        return range(1, 1 + 896)
    first = 897 + 800 * (d - 1)
    return range(first, min(first + 800, INODES))


def entry(i):
    name = b"n%d" % i
    return struct.pack("<IBB64s2x", i, len(name), 2 if i < DIRECTORIES else 1, name)


def directory(d, sector):
    return whole(struct.pack("<Q", 1) + b"".join(entry(i) for i in named(d)[7 * sector : 7 * sector + 7]))


def inode(i):
    large = i - DIRECTORIES + 1 if DIRECTORIES <= i < DIRECTORIES + SEGMENTS else 0
    kind, size = (2, len(named(i))) if i < DIRECTORIES else (1, 1114112 if large else 65536)
    head = struct.pack("<QBxHHxxQQ", 1, kind, 1, 16, size, 0)
    return whole(head + struct.pack("<17I", *range(16 * i, 16 * i + 16), large))


def segment(k):
    states = bytes(0xFF if 1024 * k + 4 * j < 16 * DIRECTORIES else 0x55 for j in range(256))
    return whole(struct.pack("<Q", 1) + b"\xff" * 8 + states + b"\1")


# A record whose changes give 20 inodes another version, and leave the rest as it is.
def slot(log, number):
    first = (20 * number + 64 * log) % (INODES - 20)
    changes = b"".join(struct.pack("<QQHHHB", ROWS + first + i, 2 + number, 1, 12, 1, 16) for i in range(20))
    body = struct.pack("<H", 20) + changes
    frame = struct.pack("<QH", (1 << 32) + 256 * log + number, len(body)) + body
    return whole(struct.pack("<QQHHHH", 256 + number, 0, 0, 65535, len(frame), 0) + frame)


def sectors():
    yield 0, whole(b"FRANGPAR" + struct.pack("<III", 2, SEGMENTS, 1))
    for log in range(256):
        for number in range(256):
            yield LOGS + (log << 23) + number, slot(log, number)
    for k in range(SEGMENTS):
        yield BITMAPS + k, segment(k)
    for i in range(INODES):
        yield ROWS + i, inode(i)
    for b in range(BLOCKS):
        for part in range(8):
            block = directory(b // 16, 8 * (b % 16) + part) if b < 16 * DIRECTORIES else struct.pack("<IHH", b, part, 1) * 64
            yield SMALL + 8 * b + part, block
    for g in range(SEGMENTS):
        for part in range(2048):
            yield LARGE + (g << 31) + part, struct.pack("<IHH", g, part, 2) * 64


with open(sys.argv[1], "wb") as out:
    out.write(b"FRANGIM1" + struct.pack("<Q", 1 + 65536 + SEGMENTS + INODES + 8 * BLOCKS + 2048 * SEGMENTS))
    for number, block in sectors():
        out.write(struct.pack("<Q", number) + block)
END
cat >"$work/copy_once.c" <<'END'
// Reads a file and copies it once in memory.
#include <fcntl.h>
#include <stdlib.h>
#include <string.h>
#include <sys/stat.h>
#include <unistd.h>

int main(int count, char **words) {
  struct stat about;
  int file = count == 2 ? open(words[1], O_RDONLY) : -1;
  if (file < 0 || fstat(file, &about) != 0) return 1;
  size_t size = (size_t)about.st_size, had = 0;
  char *bytes = malloc(size), *copy = malloc(size);
  if (bytes == NULL || copy == NULL) return 1;
  while (had < size) {
    ssize_t more = read(file, bytes + had, size - had);
    if (more <= 0) return 1;
    had += (size_t)more;
  }
  memcpy(copy, bytes, size);
  return memcmp(copy + size / 2, bytes + size / 2, 8) != 0;
}
END
cat >"$work/turn_about.py" <<'END'
# Runs commands in turn, five times each, and prints of each the least seconds and the greatest memory, also as multiples of the first command's
# seconds and of the file's bytes.
import os
import subprocess
import sys
import time

program, once, image, new = sys.argv[1:]
size = os.path.getsize(image)
commands = {
    "read and copied once": [once, image],
    "fsck": [program, "fsck", image],
    "fsck on one processor": ["taskset", "-c", "0", program, "fsck", image],
    "tree": [program, "tree", image],
    "recover": [program, "recover", image],
    "recover with a save": [program, "recover", image, "--save", new],
    "log": [program, "log", image, "0"],
    "an empty script run on it, with a save": [program, "run", os.devnull, "--order", "0", "--image", image, "--save", new],
}


def run(words):
    begun = time.perf_counter()
    child = subprocess.Popen(words, stdout=subprocess.PIPE)
    said = child.stdout.read().splitlines()
    _, status, used = os.wait4(child.pid, 0)
    assert status == 0, (words, status)
    return time.perf_counter() - begun, used.ru_maxrss * 1024, used.ru_utime, used.ru_stime, said[-1:]


runs = {name: [] for name in commands}
for _ in range(5):
    for name, words in commands.items():
        runs[name].append(run(words))
least = min(runs["read and copied once"])[0]
for name in commands:
    seconds, _, user, system, said = min(runs[name])
    memory = max(one[1] for one in runs[name])
    times = " ".join(f"{one[0]:.2f}" for one in runs[name])
    print(f"{name}: {seconds:.2f} s, {seconds / least:.2f} times (user {user:.2f}, system {system:.2f}); {memory / 1e6:.0f} MB, {memory / size:.2f} times; all: {times}")
    for line in said:
        print("   ", line.decode()[:160])
END
cc -O2 -o "$work/copy_once" "$work/copy_once.c"
"$top/frang" build
python3 -I "$work/full_image.py" "$work/full.image"
python3 -I "$work/turn_about.py" "$top/crates/frang_cli/out/frang_cli" "$work/copy_once" "$work/full.image" "$work/new.image"
