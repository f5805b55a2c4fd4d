#!/usr/bin/env bash
# Runs random scripts over an outside in memory of which some calls fail, beside another program with the same failures, by the same order of events, and counts the runs whose lines, status or
# place of a fault differ. Use: bench/faults.sh OTHER [COUNT [SEED]] (500 runs from seed 1 by default). OTHER is to know `gen SEED --servers N --len M`, which prints a random script, and
# `run SCRIPT --order N --fail-gets L --fail-puts L --fail-says L`, each L a list of numbers from 1 parted by commas, of calls of the outside that fail: gets, puts that leave the old sector,
# and says. It proves and builds a program of its own over a copy of the crates, which takes some minutes. Status 1 where a run differs. Not part of the gate.
set -eu
other=$(realpath "${1:?the path of another program is missing}")
count=${2:-500}
seed=${3:-1}
top=$(cd "$(dirname "$0")/.." && pwd)
work=$(mktemp -d)
trap 'rm -rf "$work"' EXIT
libraries="frang_outside frang_top anyhow"
mkdir "$work/crates"
# These crates and all below them.
copy() {
  for crate in "$@"; do
    if [ -d "$top/crates/$crate" ] && [ ! -d "$work/crates/$crate" ]; then
      cp -a "$top/crates/$crate" "$work/crates/"
      line=$(grep -E "^$crate( [^:]*)?:" "$top/crates.txt")
      echo "$line" >>"$work/crates.txt"
      copy ${line#*:}
    fi
  done
}
copy $libraries
cp "$top/HANDLES" "$work/"
mkdir -p "$work/crates/faulty_run/src" "$work/crates/faulty_run/specs"
touch "$work/crates/faulty_run/specs/Lib.antt"
echo "faulty_run: $libraries" >>"$work/crates.txt"
cat >"$work/crates/faulty_run/src/main.rt" <<'END'
//! The program's call over an outside in memory of which some calls fail: `faulty_run GETS PUTS SAYS WORDS..`, each of the first three a list of numbers parted by commas, or `-`.
#![tactic(auto)]

use frang_outside::{Act, DirFiles, FaultyOutside, NoGate, Outside};
use frang_top::{Status, frang};
use std::alloc::Global;
use std::env;
use std::process::ExitCode;
use std::rt::{HostRuntime, Runtime};
use std::sync::Wait;
use std::thread::Threads;

// The numbers of a list.
fn numbers(alloc: Global, list: Option<&String>) -> anyhow::Result<Vec<u64>> {
    let mut numbers = Vec::new(alloc);
    let Some(list) = list else {
        return Ok(numbers);
    };
    for word in list.as_str().split(',') {
        if let Ok(number) = word.parse::<u64>() {
            numbers.push(number)?;
        }
    }
    Ok(numbers)
}

fn given_words<R: Runtime>(alloc: Global, rt: &R) -> anyhow::Result<Vec<String>> {
    let mut words = Vec::new(alloc);
    for word in env::args(rt)?.skip(1) {
        words.push(String::from_str(alloc, word.as_str())?)?;
    }
    Ok(words)
}

fn show<R: Runtime>(rt: &R, acts: &[Act]) -> anyhow::Result<()> {
    for act in acts {
        if let Act::Said(text) = act {
            let line = std::str::from_utf8(text.as_slice())?;
            print!(rt; "{line}")?;
        }
    }
    Ok(())
}

fn run<R: Runtime + Threads + Wait + Send + Sync>(
    alloc: Global,
    rt: &R,
    words: &[String],
) -> anyhow::Result<Status> {
    let mut files = DirFiles::new(rt.clone()?);
    let gets = numbers(alloc, words.first())?;
    let puts = numbers(alloc, words.get(1))?;
    let says = numbers(alloc, words.get(2))?;
    let out = FaultyOutside::new(alloc, gets, puts, says);
    let rest = words.get(3..).unwrap_or(&[]);
    let (status, out) = frang(rt, alloc, rest, &mut files, out, &NoGate);
    show(rt, out.acts())?;
    Ok(status)
}

fn main(rt: HostRuntime) -> anyhow::Result<ExitCode> {
    let alloc = rt.alloc();
    let words = given_words(alloc, &rt)?;
    let status = run(alloc, &rt, &words)?;
    let (code, line, at) = (status.code, status.line, status.at);
    if code != 0 {
        eprintln!(rt; "frang: status {code} line {line} at {at}")?;
    }
    Ok(ExitCode::from(code))
}
END
cd "$work/crates/faulty_run"
rt run -- - - - run /dev/null >"$work/log" 2>&1 || { tail -n 20 "$work/log" && exit 2; }
ours=$PWD/out/faulty_run
cat >"$work/compare.py" <<'END'
import random, subprocess, sys

ours, other, count, seed, work = sys.argv[1], sys.argv[2], int(sys.argv[3]), int(sys.argv[4]), sys.argv[5]
script = f"{work}/script"
differ = faulty = 0


def told(words):
    ran = subprocess.run(words, capture_output=True)
    first = ran.stderr.split(b"\n")[0] if ran.returncode else b""
    return ran.returncode, ran.stdout, first


for number in range(seed, seed + count):
    draw = random.Random(number)
    made = subprocess.run([other, "gen", str(number), "--servers", str(draw.randint(1, 4)), "--len", str(draw.randint(5, 60))], capture_output=True).stdout
    with open(script, "wb") as out:
        out.write(made)
    lists = []
    for most in (60, 200, 60):
        fails = sorted(draw.sample(range(1, most), draw.choice((0, 1, 1, 2))))
        lists.append(",".join(map(str, fails)))
    if draw.randint(0, 3):
        lists[2] = ""
    order = str(draw.randint(0, 9))
    mine = told([ours, *[it or "-" for it in lists], "run", script, "--order", order])
    words = [other, "run", script, "--order", order]
    for flag, it in zip(("--fail-gets", "--fail-puts", "--fail-says"), lists):
        words += [flag, it] if it else []
    theirs = told(words)
    faulty += mine[0] != 0 or b" io\n" in mine[1]
    if mine != theirs:
        differ += 1
        print(f"seed {number}, order {order}, fails {lists}: status {mine[0]} and {theirs[0]}, {mine[2]!r} and {theirs[2]!r}")
print(f"{count} runs, {faulty} of them with a fault that is said or a status, {differ} differ")
sys.exit(differ > 0)
END
python3 "$work/compare.py" "$ours" "$other" "$count" "$seed" "$work"
