#!/usr/bin/env bash
# Times plans of lines beside another program that runs the same lines, in processor time, and prints what a plan takes as a share of what the other takes for the
# whole line: a file is created (and unlinked again), renamed, written and read in a directory of five names, over 1,000 and 100,000 cached sectors. A core plans a
# line once or twice. Both programs run by turns, and the least time of each counts. Use: bench/plans.sh OTHER [TURNS] (7 turns by default). OTHER is to know
# `run SCRIPT` for scripts of one server, as docs/FORMATS.md has them, on a disk of sixteen segments. It proves and builds a program of its own over a copy of the
# crates, which takes some minutes. Not part of the gate.
set -eu
other=$(realpath "${1:?the path of another program is missing}")
turns=${2:-7}
top=$(cd "$(dirname "$0")/.." && pwd)
work=$(mktemp -d)
trap 'rm -rf "$work"' EXIT
libraries="frang_base frang_layout meta_version clerk_cache lock_sets usable_sectors disk_definitions inode_block dir_block dir_lookup line_plan"
mkdir "$work/crates"
# These crates and all below them.
copy() {
  for crate in "$@"; do
    if [ -d "$top/crates/$crate" ] && [ ! -d "$work/crates/$crate" ]; then
      cp -a "$top/crates/$crate" "$work/crates/"
      line=$(grep -E "^$crate( [^:]*)?:" "$top/crates.txt")
      echo "$line" >>"$work/crates.txt"
      copy ${line#*:}
    fi
  done
}
copy $libraries
cp "$top/HANDLES" "$work/"
mkdir -p "$work/crates/plans_bench/src" "$work/crates/plans_bench/specs"
touch "$work/crates/plans_bench/specs/Lib.antt"
echo "plans_bench: $libraries" >>"$work/crates.txt"
cat >"$work/crates/plans_bench/src/main.rt" <<'END'
//! Plans the same lines again and again over few and over many cached sectors, and prints how many nanoseconds of processor time a plan took.
#![tactic(auto)]

ghost use Rattle.std.specs.Prelude.{◌≡◌, true, IfOk};
ghost use Rattle.line_plan.specs.Lines.{TargetFits};

use clerk_cache::Cache;
use dir_lookup::{Hand, Looked};
use disk_definitions::{DirEntry, DirSector, Inode};
use frang_base::limits::{
    KIND_DIRECTORY, KIND_FILE, KIND_FREE, KIND_LINK, SEGMENTS_MAX, TARGET_BYTES_MAX,
};
use frang_base::{Bitmap, Held, LockId, Mode, NoMemory, Op, Path, Text, parse_path};
use frang_layout::{Region, sector_of};
use line_plan::{LineEnd, plan_line};
use lock_sets::LockSet;
use meta_version::Sectors;
use std::alloc::Global;
use std::io;
use std::time::CpuClock;
use usable_sectors::Usable;

// How often a line is planned.
const TIMES: u32 = 5_000;

const BIRTH: u64 = 3 * 4_294_967_296 + 7;

const WHEN: u64 = 3 * 4_294_967_296 + 9;

// The small blocks of the root, of the directory in it, and of the file with bytes.
const ROOT_BLOCK: u32 = 4;
const DIRECTORY_BLOCK: u32 = 5;
const FILE_BLOCK: u32 = 8;

// The lock under which all sectors are cached.
const COVER: LockId = LockId::Node(0);

fn inode(kind: u8, blocks: u16, size: u64, block: u32) -> Inode {
    let mut small = [0; 16];
    small[0] = block;
    Inode {
        version: 1,
        kind,
        links: 1,
        blocks,
        size,
        birth: 0,
        small,
        large: 0,
        when: 0,
        target: [0; TARGET_BYTES_MAX],
    }
}

fn entry(inode: u32, kind: u8, letter: u8) -> DirEntry {
    let mut name = [0; 64];
    name[0] = letter;
    DirEntry {
        inode,
        len: 1,
        kind,
        name,
    }
}

const FREE: DirEntry = DirEntry {
    inode: 0,
    len: 0,
    kind: KIND_FREE,
    name: [0; 64],
};

fn set_inode(sectors: &mut Sectors, number: u32, inode: &Inode) -> Result<(), NoMemory> {
    let mut block = [0; 512];
    inode_block::encode(inode, &mut block);
    sectors.set(sector_of(&Region::Inode(number)), block)
}

// A directory's block whose first sector has these entries.
fn set_directory(
    sectors: &mut Sectors,
    block: u32,
    entries: [DirEntry; 7],
) -> Result<(), NoMemory> {
    for part in 1..8 {
        sectors.set(sector_of(&Region::Small { block, part }), [0; 512])?;
    }
    let mut bytes = [0; 512];
    let sector = DirSector {
        version: 1,
        entries,
    };
    dir_block::encode(&sector, &mut bytes);
    sectors.set(sector_of(&Region::Small { block, part: 0 }), bytes)
}

// The root with five names: the file `f` of five bytes, the directory `d` with a file, the link `l`, and the empty files `e` and `o`.
fn set_nodes(sectors: &mut Sectors) -> Result<(), NoMemory> {
    set_inode(sectors, 0, &inode(KIND_DIRECTORY, 1, 5, ROOT_BLOCK))?;
    set_inode(sectors, 1, &inode(KIND_FILE, 1, 5, FILE_BLOCK))?;
    set_inode(sectors, 2, &inode(KIND_DIRECTORY, 1, 1, DIRECTORY_BLOCK))?;
    for number in [4, 6, 7] {
        set_inode(sectors, number, &inode(KIND_FILE, 0, 0, 0))?;
    }
    let mut link = inode(KIND_LINK, 0, 1, 0);
    link.target[0] = b't';
    set_inode(sectors, 3, &link)?;
    sectors.set(sector_of(&Region::Inode(5)), [0; 512])?;
    set_directory(
        sectors,
        ROOT_BLOCK,
        [
            entry(1, KIND_FILE, b'f'),
            entry(2, KIND_DIRECTORY, b'd'),
            entry(3, KIND_LINK, b'l'),
            entry(6, KIND_FILE, b'e'),
            entry(7, KIND_FILE, b'o'),
            FREE,
            FREE,
        ],
    )?;
    let only = [entry(4, KIND_FILE, b'g'), FREE, FREE, FREE, FREE, FREE, FREE];
    set_directory(sectors, DIRECTORY_BLOCK, only)?;
    let file = Region::Small {
        block: FILE_BLOCK,
        part: 0,
    };
    sectors.set(sector_of(&file), [b'b'; 512])
}

// A cache of the disk's sectors.
fn cached(alloc: Global, count: usize) -> Result<Cache, NoMemory> {
    let sectors = disk_sectors(alloc, count)?;
    cache_of(alloc, &sectors)
}

// The sectors of the disk, and sectors of file bytes beside them, until there are so many.
fn disk_sectors(alloc: Global, count: usize) -> Result<Sectors, NoMemory> {
    let mut sectors = Sectors::new(alloc);
    set_nodes(&mut sectors)?;
    for i in 0..SEGMENTS_MAX * 2048 {
        if sectors.count() >= count {
            return Ok(sectors);
        }
        let region = Region::Large {
            block: i / 2048,
            part: (i % 2048) as u16,
        };
        sectors.set(sector_of(&region), [7; 512])?;
    }
    Ok(sectors)
}

// A cache that has these sectors, clean.
fn cache_of(alloc: Global, sectors: &Sectors) -> Result<Cache, NoMemory> {
    let mut cache = Cache::new(alloc);
    for place in 0..sectors.count() {
        if let Some((sector, block)) = sectors.at(place) {
            cache.reserve(1)?;
            cache.set_clean(sector, *block, COVER);
        }
    }
    Ok(cache)
}

// The set of a line that may use all of them.
fn set_of(alloc: Global) -> Result<LockSet, NoMemory> {
    let mut set = LockSet::first(alloc)?;
    set.join(COVER, Mode::Sole)?;
    Ok(set)
}

// The bitmap of the first segment, of which inode 5 is free.
fn held(alloc: Global) -> Result<Held, NoMemory> {
    let mut states = [0; 256];
    states[1] = 0b1111;
    states[2] = 0b01;
    let mut held = Held::new(alloc);
    held.set(
        0,
        Bitmap {
            version: 1,
            inodes: 0b1101_1111,
            states,
            large: false,
        },
    )?;
    Ok(held)
}

fn path_of(alloc: Global, text: &[u8]) -> Result<Path, NoMemory> {
    match parse_path(alloc, text) {
        Ok(path) => Ok(path),
        Err(_) => Err(NoMemory),
    }
}

#[derive(Clone, Copy)]
enum Verb {
    Create,
    Unlink,
    Rename,
    Write,
    Read,
}

fn name_of(verb: Verb) -> &'static str {
    match verb {
        Verb::Create => "create",
        Verb::Unlink => "unlink",
        Verb::Rename => "rename",
        Verb::Write => "write",
        Verb::Read => "read",
    }
}

fn op_of(alloc: Global, verb: Verb) -> Result<Op, NoMemory> {
    let file = path_of(alloc, b"/f")?;
    let new = path_of(alloc, b"/n")?;
    match verb {
        Verb::Create => Ok(Op::Create { path: new }),
        Verb::Unlink => Ok(Op::Unlink {
            path: path_of(alloc, b"/e")?,
        }),
        Verb::Rename => Ok(Op::Rename {
            path: file,
            to: new,
        }),
        Verb::Write => Ok(Op::Write {
            path: file,
            off: 0,
            bytes: Text::of(alloc, b"bytes")?,
        }),
        Verb::Read => Ok(Op::Read {
            path: file,
            off: 0,
            len: 5,
        }),
    }
}

fn fits(op: &Op) -> bool
    ensures { result ≡ true → TargetFits op.now }
{
    match op {
        Op::Symlink { target, .. } => target.len() <= TARGET_BYTES_MAX,
        _ => true,
    }
}

// A line is planned; at so many sectors it looked.
fn plan(alloc: Global, hand: &Hand, op: &Op) -> Result<usize, NoMemory>
    requires { TargetFits op.now }
{
    let mut looked = Looked::new(alloc);
    let end = plan_line(alloc, hand, BIRTH, WHEN, op, &mut looked)?;
    match end {
        LineEnd::Done(_) => Ok(looked.sectors()?.len()),
        _ => Err(NoMemory),
    }
}

fn plan_all(alloc: Global, hand: &Hand, op: &Op) -> Result<usize, NoMemory>
    requires { TargetFits op.now }
{
    let mut sum = 0usize;
    for _ in 0..TIMES {
        sum = sum.saturating_add(plan(alloc, hand, op)?);
    }
    Ok(sum / TIMES as usize)
}

fn plan_over(alloc: Global, cache: &Cache, verb: Verb) -> Result<usize, NoMemory> {
    let held = held(alloc)?;
    let set = set_of(alloc)?;
    let usable = Usable::new(cache, &set);
    let hand = Hand {
        sectors: &usable,
        held: &held,
        all: false,
    };
    let op = op_of(alloc, verb)?;
    if fits(&op) {
        plan_all(alloc, &hand, &op)
    } else {
        Err(NoMemory)
    }
}

// What a plan of the line over the cached sectors took, in nanoseconds, and at how many it looked.
fn time(
    rt: &(impl Print + CpuClock),
    alloc: Global,
    cache: &Cache,
    verb: Verb,
) -> io::Result<()> {
    let start = rt.process_cpu_time()?;
    let planned = plan_over(alloc, cache, verb);
    let took = rt.process_cpu_time()?.saturating_sub(start);
    let count = cache.sectors().count();
    let nanos = took.as_nanos() / u128::from(TIMES);
    let name = name_of(verb);
    match planned {
        Ok(looks) => println!(rt; "{count} {name} {nanos} {looks}"),
        Err(_) => println!(rt; "{count} {name} unplanned"),
    }
}

fn main(rt: HostRuntime) -> io::Result<()> {
    let alloc = rt.alloc();
    for count in [1_000, 100_000] {
        if let Ok(cache) = cached(alloc, count) {
            for verb in [
                Verb::Create,
                Verb::Unlink,
                Verb::Rename,
                Verb::Write,
                Verb::Read,
            ] {
                time(&rt, alloc, &cache, verb)?;
            }
        }
    }
    Ok(())
}
END
cat >"$work/scripts.py" <<'END'
import sys

SECTORS, LINES = 2176, 20000
folder = sys.argv[1]
turns = {
    "create": ["create /n", "unlink /n"],
    "rename": ["rename /f /n", "rename /n /f"],
    "write": ["write /f 0 bytes"] * 2,
    "read": ["read /f 0 5"] * 2,
}
for cached in (1000, 100000):
    setup = ["mount", "create /f", "write /f 0 bytes", "mkdir /d", "symlink /l t", "create /e", "create /o"]
    for n, left in enumerate(range(cached, 0, -SECTORS)):
        setup += [f"create /d/{n}", f"fill /d/{n} 0 {512 * min(left, SECTORS)} 33"]
    setup.append("sync")
    for name, pair in [("none", [])] + list(turns.items()):
        with open(f"{folder}/{name}.{cached}", "w") as out:
            out.writelines(f"0 {line}\n" for line in setup + pair * (LINES // 2))
END
mkdir "$work/scripts"
python3 "$work/scripts.py" "$work/scripts"
cd "$work/crates/plans_bench"
rt run >"$work/log" 2>&1 || { tail -n 20 "$work/log"; exit 1; }
TIMEFORMAT='%U %S'
for _ in $(seq "$turns"); do
  ./out/plans_bench >>"$work/ours"
  for script in "$work"/scripts/*; do
    { time "$other" run "$script" >/dev/null 2>&1; } 2>"$work/took"
    echo "$(basename "$script") $(cat "$work/took")" >>"$work/others"
  done
done
python3 - "$work/ours" "$work/others" <<'END'
import sys

ours, looks, others = {}, {}, {}
for row in open(sys.argv[1]):
    count, verb, nanos, looked = row.split()
    key = (verb, int(count))
    ours[key] = min(ours.get(key, float("inf")), int(nanos) / 1000)
    looks[key] = int(looked)
for row in open(sys.argv[2]):
    script, user, system = row.split()
    name, count = script.split(".")
    key = (name, int(count))
    others[key] = min(others.get(key, float("inf")), float(user) + float(system))
print("line      cached   looks  plan, us  the other's line, us  share")
for count in (1000, 100000):
    for name in ("create", "rename", "write", "read"):
        verbs = ["create", "unlink"] if name == "create" else [name]
        took = sum(ours[verb, count] for verb in verbs) / len(verbs)
        looked = sum(looks[verb, count] for verb in verbs) / len(verbs)
        line = (others[name, count] - others["none", count]) / 20000 * 1e6
        print(f"{name:8} {count:7} {looked:7.1f} {took:9.2f} {line:21.2f} {took / line:6.2f}")
END
