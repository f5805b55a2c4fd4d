#!/usr/bin/env bash
# Runs the four commands on images with deep, wide and damaged directories, and a script of a deep tree, by the built program and by another one, under a stack of 1 MB, and
# compares what they say and their status. It notes the seconds and the greatest memory of each. Its own status is 1 where they differ, or where a command on an image takes
# more than three times the image and 16 MB. Use: bench/deep.sh OTHER [PROGRAM]   (PROGRAM: the built one). OTHER is to know the commands `tree`, `recover`, `fsck` and `log` of
# an image and `run` of a script, with the lines and the status of docs/FORMATS.md, but for status 3 at want of memory. The images are made by formula: a chain of 4,096
# directories, one of 3,000 with a file of 1,114,112 bytes at its bottom, a cycle of 4,096, a fan of 3,900 files of which each has its links in 195 directories of 896 names,
# and 256 directories that share their blocks; so is the script, which makes a chain of 4,051 directories. Not part of the gate.
set -eu
other=${1:?the path of another program is missing}
top=$(cd "$(dirname "$0")/.." && pwd)
program=${2:-$top/crates/frang_cli/out/frang_cli}
[ $# -ge 2 ] || "$top/frang" build
work=$(mktemp -d)
trap 'rm -rf "$work"' EXIT
cat >"$work/deep.py" <<'END_OF_PROGRAM'
import hashlib
import os
import resource
import struct
import subprocess
import sys
import time

SEGMENTS = 64
INODES = 64 * SEGMENTS
BITMAPS, ROWS, SMALL, LARGE = 1 << 32, 5 << 31, 6 << 31, 134 << 31
FILE, DIRECTORY = 1, 2
STACK = 1 << 20


def whole(start):
    return start.ljust(512, b"\0")


def inode(kind, links, size, blocks, large=0):
    head = struct.pack("<QBxHHxxQQ", 1, kind, links, len(blocks), size, 0)
    return whole(head + struct.pack("<17I", *blocks, *(0 for _ in range(16 - len(blocks))), large))


def entry(i, kind, name):
    return struct.pack("<IBB64s2x", i, len(name), kind, name)


# An image by its inodes, the names in its directories' blocks and the bytes of other sectors. Directories are marked as such, files' blocks as theirs.
class Image:
    def __init__(self):
        self.inodes, self.entries, self.bytes, self.states, self.larges = {}, {}, {}, {}, set()

    # A directory of these entries, in these blocks.
    def directory(self, i, entries, first):
        blocks = range(first, first + (len(entries) + 55) // 56)
        self.inodes[i] = inode(DIRECTORY, 1, len(entries), blocks)
        for at, block in enumerate(blocks):
            self.entries[block] = entries[56 * at : 56 * at + 56]
            self.states[block] = 3

    def file(self, i, links, blocks=(), large=None):
        size = 0 if large is None else 1114112
        self.inodes[i] = inode(FILE, links, size, blocks, 0 if large is None else large + 1)
        for block in blocks:
            self.states[block] = 1
            for part in range(8):
                self.bytes[SMALL + 8 * block + part] = whole(b"b" * 512)
        if large is not None:
            self.larges.add(large)
            for part in range(2048):
                self.bytes[LARGE + (large << 31) + part] = whole(b"l" * 512)

    def segment(self, k):
        bits = sum(1 << j for j in range(64) if 64 * k + j in self.inodes)
        states = bytes(sum(self.states.get(1024 * k + 4 * at + j, 0) << 2 * j for j in range(4)) for at in range(256))
        return whole(struct.pack("<QQ", 1, bits) + states + (b"\1" if k in self.larges else b"\0"))

    def write(self, path):
        sectors = {0: whole(b"FRANGPAR" + struct.pack("<III", 2, SEGMENTS, 1))}
        for k in range(SEGMENTS):
            sectors[BITMAPS + k] = self.segment(k)
        for i, block in self.inodes.items():
            sectors[ROWS + i] = block
        for block, entries in self.entries.items():
            for part in range(8):
                sectors[SMALL + 8 * block + part] = whole(struct.pack("<Q", 1) + b"".join(entries[7 * part : 7 * part + 7]))
        sectors.update(self.bytes)
        with open(path, "wb") as out:
            out.write(b"FRANGIM1" + struct.pack("<Q", len(sectors)))
            for number in sorted(sectors):
                out.write(struct.pack("<Q", number) + sectors[number])


LONG = b"d" * 64


def chain(count, last):
    image = Image()
    for i in range(count - 1):
        kind = last if i + 2 == count else DIRECTORY
        image.directory(i, [entry(i + 1, kind, LONG)], i)
    return image


def chain_alone():
    image = chain(INODES, DIRECTORY)
    image.directory(INODES - 1, [], 0)
    return image


def bottom():
    image = chain(3001, FILE)
    image.file(3000, 1, range(4000, 4016), 5)
    return image


def cycle():
    image = Image()
    for i in range(INODES):
        image.directory(i, [entry((i + 1) % INODES, DIRECTORY, LONG)], i)
    return image


def fan():
    image = Image()
    files, directories, names = 3900, 195, 896
    image.directory(0, [entry(1 + d, DIRECTORY, b"d%d" % d) for d in range(directories)], 16 * directories)
    links = [0] * files
    for d in range(directories):
        row = [(names * d + n) % files for n in range(names)]
        for f in row:
            links[f] += 1
        image.directory(1 + d, [entry(1 + directories + f, FILE, b"n%d" % n) for n, f in enumerate(row)], 16 * d)
    for f in range(files):
        image.file(1 + directories + f, links[f])
    return image


def shared():
    image = Image()
    below = [entry(257 + n, FILE, b"n%d" % n) for n in range(896)]
    image.directory(0, [entry(1 + d, DIRECTORY, b"d%d" % d) for d in range(255)], 16)
    for d in range(255):
        image.directory(1 + d, below, 0)
    for n in range(896):
        image.file(257 + n, 1)
    return image


def small_stack():
    resource.setrlimit(resource.RLIMIT_STACK, (STACK, resource.getrlimit(resource.RLIMIT_STACK)[1]))


# What a command said, as a sum and a count of lines, its status, its seconds and its memory.
def run(words):
    begun = time.perf_counter()
    child = subprocess.Popen(words, stdout=subprocess.PIPE, stderr=subprocess.DEVNULL, pipesize=1 << 20, preexec_fn=small_stack)
    said, lines = hashlib.sha256(), 0
    while piece := child.stdout.read(1 << 20):
        said.update(piece)
        lines += piece.count(b"\n")
    _, status, used = os.wait4(child.pid, 0)
    return (said.hexdigest(), lines, os.waitstatus_to_exitcode(status)), time.perf_counter() - begun, used.ru_maxrss / 1024


# Chains of 30 directories, each with the former ones moved into its lowest.
def deep_script():
    lines = ["0 mount", "0 mkdir /r0"]
    for r in range(1, 136):
        lines += [f"0 mkdir /r{r}{'/d' * n}" for n in range(30)]
        lines.append(f"0 rename /r{r - 1} /r{r}{'/d' * 29}/e")
    return "\n".join(lines) + "\n"


# Runs both programs so often with these words, and notes their best times and what differs; whether nothing does, and the memory is at most so many MB.
def compare(other, program, words, times, most):
    mine, seconds, memory = min((run([program, *words]) for _ in range(times)), key=lambda r: r[1])
    theirs, other_seconds, other_memory = min((run([other, *words]) for _ in range(times)), key=lambda r: r[1])
    print(
        f"  {words[0]}: status {mine[2]}, {mine[1]} lines, {seconds:.3f} s, {memory:.0f} MB{'' if memory <= most else ' (too much)'};"
        f" the other {other_seconds:.3f} s, {other_memory:.0f} MB; {seconds / other_seconds:.2f} times"
        f"{'' if mine == theirs else f'; UNLIKE: status {theirs[2]}, {theirs[1]} lines'}",
        flush=True,
    )
    return mine == theirs and memory <= most


def main(folder, other, program):
    good = True
    for name, make in (("chain", chain_alone), ("bottom", bottom), ("cycle", cycle), ("fan", fan), ("shared", shared)):
        path = f"{folder}/{name}"
        make().write(path)
        size = os.path.getsize(path)
        print(f"{name}: {size} bytes")
        for command in ("fsck", "tree", "recover", "log"):
            words = [command, path] + (["0"] if command == "log" else [])
            good &= compare(other, program, words, 3, (3 * size + (16 << 20)) / (1 << 20))
        os.remove(path)
    path = f"{folder}/script"
    with open(path, "w") as out:
        out.write(deep_script())
    print("script: 4187 lines")
    good &= compare(other, program, ["run", path, "--segments", "64"], 1, float("inf"))
    return 0 if good else 1


sys.exit(main(*sys.argv[1:]))
END_OF_PROGRAM
python3 "$work/deep.py" "$work" "$other" "$program"
