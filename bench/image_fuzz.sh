#!/usr/bin/env bash
# Changes sound images 10,000 times, by a seed, and does each command on each by the built program: it sees only the specified statuses, with nothing
# said before a refusal, no more than 32 MB of memory taken, a check that finds no fault exactly where there is a tree, and the lines of that tree at the end of those of a recovery. It
# prints how often each status came, and each kind of a damaged image; its own status is 1 where one is odd. Words: the seed (1), the number of images
# (10000), and perhaps another build of the program, which is to say the same. Not part of the gate.
set -eu
top=$(cd "$(dirname "$0")/.." && pwd)
work=$(mktemp -d)
trap 'rm -rf "$work"' EXIT
cat >"$work/image_fuzz.py" <<'END_OF_PROGRAM'
import collections
import os
import random
import resource
import struct
import subprocess
import sys
import tempfile
import time

HEADER, ENTRY = 16, 520
KINDS = range(1, 8)
# The images have some ten thousand bytes: a program that takes more than this believed a damaged number.
MOST_BYTES = 32 << 20


class Parts:
    def __init__(self, image):
        body = image[HEADER:]
        self.entries = [bytearray(body[at : at + ENTRY]) for at in range(0, len(body), ENTRY)]
        self.count = len(self.entries)
        self.tail = b""

    def image(self):
        return bytearray(b"FRANGIM1" + (self.count % 2**64).to_bytes(8, "little") + b"".join(self.entries) + self.tail)


def flip(dice, bytes_, at):
    if at < len(bytes_):
        bytes_[at] ^= dice.randrange(256)


# A byte of an entry, in its number, in the first bytes of its block, or anywhere.
def change_entry(dice, parts):
    if parts.entries:
        flip(dice, dice.choice(parts.entries), dice.randrange(dice.choice((8, 160, ENTRY))))


# Eight bytes of an entry become those at the same place of another.
def exchange_field(dice, parts):
    if parts.entries:
        source, target = dice.choice(parts.entries), dice.choice(parts.entries)
        at = 8 * dice.randrange(ENTRY // 8)
        target[at : at + 8] = source[at : at + 8]


def exchange(dice, parts):
    if parts.entries:
        a, b = (dice.randrange(len(parts.entries)) for _ in range(2))
        parts.entries[a], parts.entries[b] = parts.entries[b], parts.entries[a]


def repeat(dice, parts):
    if parts.entries:
        parts.entries.insert(dice.randrange(len(parts.entries)), bytearray(dice.choice(parts.entries)))
        parts.count += 1


def leave_out(dice, parts):
    if parts.entries:
        del parts.entries[dice.randrange(len(parts.entries))]
        parts.count -= 1


def clear(dice, parts):
    if parts.entries:
        dice.choice(parts.entries)[8:] = bytes(ENTRY - 8)


def change_count(dice, parts):
    parts.count += dice.choice((-1, 1))


def lengthen(dice, parts):
    parts.tail += bytes([dice.randrange(256)])


# A byte near the start of a block becomes a small number, which the grammar of more fields allows.
def nudge(dice, parts):
    if parts.entries:
        dice.choice(parts.entries)[8 + dice.randrange(160)] = dice.choice((0, 1, 2, 3, 4, 16))


CHANGES = [nudge, nudge, nudge, exchange, repeat, exchange_field, clear, leave_out, change_count, lengthen] + 5 * [change_entry]


# One to four changes, and sometimes a flip in the header, or a cut.
def changed(dice, image):
    parts = Parts(image)
    for _ in range(dice.randrange(1, 5)):
        dice.choice(CHANGES)(dice, parts)
    new = parts.image()
    also = dice.randrange(16)
    if also == 0:
        flip(dice, new, dice.randrange(HEADER))
    elif also == 1:
        del new[dice.randrange(len(new)) :]
    return new


def whole(start):
    return start.ljust(512, b"\0")


def named(inode, kind, name):
    return struct.pack("<IBB64s2x", inode, len(name), kind, name)


def inode(kind, links, size, blocks, large=0, target=b""):
    head = struct.pack("<QBxHHxxQQ", 1, kind, links, len(blocks), size, 0)
    return whole(head + struct.pack("<16II", *blocks, *(0 for _ in range(16 - len(blocks))), large) + bytes(28) + target)


# A sound image of two segments: two directories, files with small blocks and a large one, one of two names, a link, and a block that was a directory's.
def small_image():
    inodes = {
        0: inode(2, 1, 6, (0, 1)),
        1: inode(2, 1, 2, (7,)),
        2: inode(1, 2, 9000, (2, 3, 4)),
        3: inode(1, 1, 70000, tuple(range(16, 32)), large=2),
        4: inode(3, 1, 4, (), target=b"/d/a"),
        64: inode(1, 1, 0, ()),
    }
    root = [named(1, 2, b"d"), named(2, 1, b"f"), named(3, 1, b"g"), named(4, 3, b"l"), named(64, 1, b"e")]
    below = [named(2, 1, b"a")]
    directories = {0: root, 8: [named(5, 1, b"z")], 56: below, 57: [named(6, 1, b"y")]}
    inodes[5], inodes[6] = inode(1, 1, 1, (40,)), inode(1, 1, 0, ())
    states = [0] * 1024
    for block in (0, 1, 7):
        states[block] = 3
    for block in (2, 3, 4, 40, *range(16, 32)):
        states[block] = 1
    states[9] = 2
    packed = bytes(sum(states[4 * at + part] << 2 * part for part in range(4)) for at in range(256))
    bits = sum(1 << number for number in inodes if number < 64)
    sectors = {0: whole(b"FRANGPAR" + struct.pack("<III", 2, 2, 3))}
    sectors[1 << 32] = whole(struct.pack("<QQ", 1, bits) + packed)
    sectors[(1 << 32) + 1] = whole(struct.pack("<QQ", 1, 1) + bytes(256) + b"\1")
    for number, block in inodes.items():
        sectors[(5 << 31) + number] = block
    for place, entries in directories.items():
        sectors[(6 << 31) + place] = whole(struct.pack("<Q", 1) + b"".join(entries))
    for place in (2 * 8, 3 * 8 + 1, 40 * 8):
        sectors[(6 << 31) + place] = whole(b"bytes of a file")
    sectors[(134 << 31) + (1 << 31)] = whole(b"bytes of a large block")
    body = b"".join(struct.pack("<Q", number) + sectors[number] for number in sorted(sectors))
    return b"FRANGIM1" + struct.pack("<Q", len(sectors)) + body


def do(program, words):
    done = subprocess.run([program, *words], stdout=subprocess.PIPE, stderr=subprocess.PIPE, stdin=subprocess.DEVNULL, timeout=60)
    return done.returncode, done.stdout, done.stderr


# The most memory that any run took so far. (A run counts with at least what this program had when it began it.)
def most_memory():
    return resource.getrusage(resource.RUSAGE_CHILDREN).ru_maxrss * 1024


# The status is one that the command may end with, and what it said is all or nothing.
def is_specified(command, status, said, numbers, length):
    if status == 0:
        ends = (b'"stands":true}\n', b'"stands":false}\n') if command == "fsck" else (b"! end\n",)
        return said.endswith(ends)
    if status != 6 or said:
        return False
    kind, at = numbers
    return (kind in KINDS and at <= length) or (kind == 8 and at == 0 and command in ("tree", "recover"))


# `frang: status 6 line KIND at PLACE`
def numbers_of(told):
    words = told.split(b"\n")[0].split()
    return (int(words[4]), int(words[6])) if len(words) > 6 else (0, 0)


def main(program, sound, seed, count, other=None):
    dice = random.Random(seed)
    codes, kinds, odd, unlike = collections.Counter(), collections.Counter(), 0, 0
    begun = time.perf_counter()
    with tempfile.TemporaryDirectory(dir="/dev/shm" if os.path.isdir("/dev/shm") else None) as folder:
        image, new = f"{folder}/image", f"{folder}/new"
        bases = [open(sound, "rb").read()]
        assert do(program, ["recover", sound, "--save", new])[0] == 0
        bases += [open(new, "rb").read(), small_image(), small_image(), small_image()]
        for base in bases:
            with open(image, "wb") as file:
                file.write(base)
            assert do(program, ["fsck", image])[1].endswith(b'"stands":true}\n'), do(program, ["fsck", image])
        for number in range(count):
            bytes_ = changed(dice, dice.choice(bases))
            with open(image, "wb") as file:
                file.write(bytes_)
            ended = {}
            for words in (["recover", image, "--save", new], ["log", image, "0"], ["tree", image], ["fsck", image]):
                status, said, told = do(program, words)
                numbers = numbers_of(told) if status else (0, 0)
                codes[status] += 1
                if status == 6:
                    kinds[numbers[0]] += 1
                ended[words[0]] = status, said
                if not is_specified(words[0], status, said, numbers, len(bytes_)):
                    odd += 1
                    print("odd:", number, words[0], status, told[:120], said[-80:])
                if other:
                    saved = open(new, "rb").read() if words[0] == "recover" and status == 0 else b""
                    theirs = do(other, words)
                    if theirs != (status, said, told) or (saved and open(new, "rb").read() != saved):
                        unlike += 1
                        print("unlike:", number, words[0], status, theirs[0])
            # there is a tree exactly where the check finds no fault
            status, said = ended["fsck"]
            if status == 0 and said.endswith(b'"stands":true}\n') != (ended["tree"][0] == 0):
                odd += 1
                print("odd:", number, "stands", ended["tree"][0])
            # the lines of a recovery end by those of the tree
            if ended["tree"][0] == 0 and not ended["recover"][1].endswith(ended["tree"][1]):
                odd += 1
                print("odd:", number, "lines")
    if most_memory() > MOST_BYTES:
        odd += 1
        print("odd: memory", most_memory())
    print(f"{count} images, seed {seed}, {time.perf_counter() - begun:.0f} s; at most {most_memory() / 1e6:.0f} MB; odd: {odd}" + (f"; unlike: {unlike}" if other else ""))
    print("statuses:", " ".join(f"{code}: {codes[code]}" for code in sorted(codes)))
    print("status 6 by kind:", " ".join(f"{kind}: {kinds[kind]}" for kind in sorted(kinds)))
    return 1 if odd or unlike else 0


if __name__ == "__main__":
    program, sound, seed, count, *rest = sys.argv[1:]
    sys.exit(main(program, sound, int(seed), int(count), *rest))
END_OF_PROGRAM
"$top/frang" build
python3 -I "$work/image_fuzz.py" "$top/crates/frang_cli/out/frang_cli" "$top/crates/example_runs/data/logs.image" "${1:-1}" "${2:-10000}" ${3:+"$3"}
