#!/usr/bin/env bash
# Times the ring of a log on 10,000 and on 20,000 small records, and counts the sectors that are written: the records are appended, after each and then after
# every eighth one all sectors are issued and acknowledged, and the oldest records are given up when the ring is full. It proves and builds a program of
# its own over a copy of the crates, which takes some minutes. Not part of the gate.
set -eu
top=$(cd "$(dirname "$0")/.." && pwd)
work=$(mktemp -d)
trap 'rm -rf "$work"' EXIT
mkdir "$work/crates"
for crate in frang_base tree_definitions tree_laws sorted_entries ordered_map sector_bytes disk_definitions meta_version ring_definitions log_record \
  log_reading wal_ring; do
  cp -a "$top/crates/$crate" "$work/crates/"
  grep "^$crate:" "$top/crates.txt" >>"$work/crates.txt"
done
cp "$top/HANDLES" "$work/"
mkdir -p "$work/crates/ring_bench/src" "$work/crates/ring_bench/specs"
touch "$work/crates/ring_bench/specs/Lib.antt"
cat >"$work/crates/ring_bench/src/main.rt" <<'END'
//! Logs small records in a ring and prints how long it took.
#![tactic(auto)]

ghost use Rattle.std.specs.Prelude.{◌≡◌, ◌<◌, ◌≤◌, ◌^◌, length, true, IfOk, IsTrue};
ghost use Rattle.sector_bytes.specs.Changes.{is_change};
ghost use Rattle.disk_definitions.specs.Records.{change_bytes};
ghost use Rattle.ring_definitions.specs.Rings as rings;
ghost use Rattle.ring_definitions.specs.Rings.{is_record};

use frang_base::{Change, Changes, NoMemory, OpNo, Patch, Patches, Redo, Sector, Text};
use std::alloc::Global;
use std::time::Instant;
use wal_ring::{Ring, RingFault};

// A ring, with the last number that it gave.
#[derive(Drop)]
struct Run {
    ring: Ring,
    last: u64,
    written: u64,
    ghost numbers: { last ≡ rings.last ring.ring },
}

impl Run {
    fn append(&mut self, redo: &Redo) -> Result<(), RingFault>
        requires { IsTrue (is_record redo.now) }
    {
        if self.last >= 1 << 62 {
            return Err(RingFault::NoMemory);
        }
        self.last = self.ring.append(redo)?;
        Ok(())
    }

    // Gives up the oldest records, whose changes are taken to stand on the disk.
    fn give_up(&mut self) -> bool {
        match self.ring.oldest() {
            Ok(disk) => self.ring.reclaim(&disk).is_ok(),
            Err(_) => false,
        }
    }

    // Writes all sectors that wait.
    fn write(&mut self) {
        for _ in 0..200 {
            let Some((seq, _)) = self.ring.next_sector() else {
                return;
            };
            self.ring.issued(seq);
            self.ring.acked(seq);
            self.written = self.written.saturating_add(1);
        }
    }

    fn log(&mut self, redo: &Redo) -> bool
        requires { IsTrue (is_record redo.now) }
    {
        match self.append(redo) {
            Ok(()) => {}
            Err(RingFault::Full { need: _, free: _ }) => {
                self.write();
                if !self.give_up() || self.append(redo).is_err() {
                    return false;
                }
            }
            Err(RingFault::NoMemory) => return false,
        }
        true
    }
}

fn change_of(alloc: Global, sector: u64, version: u64) -> Result<Change, NoMemory>
    requires { sector < 2 ^ 55 }
    ensures formed { IfOk result (λ c. is_change c ≡ true) }
    ensures sector { IfOk result (λ c. c.sector.0 ≡ sector) }
    ensures short { IfOk result (λ c. length (change_bytes c) ≤ 422) }
{
    let mut patches = Patches::new(alloc);
    let bytes = Text::of(alloc, &[7; 40])?;
    patches.push(Patch { at: 8, bytes })?;
    Ok(Change {
        sector: Sector(sector),
        version,
        patches,
    })
}

fn record_of(alloc: Global, n: u64) -> Result<Redo, NoMemory>
    ensures { IfOk result (λ redo. IsTrue (is_record redo)) }
{
    let sector = n % 1000;
    let first = change_of(alloc, sector, n)?;
    let second = change_of(alloc, sector + 1, n)?;
    let changes = Changes::from_vec(vec![in alloc; first, second]?);
    let op = OpNo(n.max(1));
    Ok(Redo { op, changes })
}

// How many of the records were logged, and how many sectors were written, where all are written after so many records.
fn logged(alloc: Global, count: u64, every: u64) -> Result<(u64, u64), NoMemory> {
    let mut run = Run {
        ring: Ring::at(alloc, 255)?,
        last: 255,
        written: 0,
    };
    for n in 0..count {
        let redo = record_of(alloc, n)?;
        if !run.log(&redo) {
            return Ok((n, run.written));
        }
        if n % every.max(1) == 0 {
            run.write();
        }
    }
    Ok((count, run.written))
}

fn main(rt: HostRuntime) -> anyhow::Result<()> {
    for (count, every) in [(10_000, 1), (20_000, 1), (10_000, 8), (20_000, 8)] {
        let start = Instant::now(&rt)?;
        let (done, written) = logged(rt.alloc(), count, every).unwrap_or((0, 0));
        let millis = start.elapsed(&rt)?.as_millis();
        println!(rt; "{done} records of {count} in {millis} ms, written after each {every}: {written} sectors")?;
    }
    Ok(())
}
END
echo 'ring_bench: frang_base sector_bytes disk_definitions ring_definitions wal_ring anyhow' >>"$work/crates.txt"
cd "$work/crates/ring_bench"
rt run >"$work/log" 2>&1 || { tail -n 20 "$work/log"; exit 1; }
/usr/bin/env time -f '%e s, %M KB' ./out/ring_bench
