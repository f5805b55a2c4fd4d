#!/usr/bin/env bash
# Times what the servers keep in memory beside ordered maps of Rust's standard library that keep the same, in one run: 10,000 and 100,000 sectors are cached in
# random order, changed, found by their marks and marked clean, and dropped lock by lock; 16 servers want 1,000 locks each, are asked for them, give them and
# want again; 10,000 writes are issued and arrive in random order. Both programs run in turn, and the least time of each step counts. It proves and builds a
# program of its own over a copy of the crates, which takes some minutes, and one of Rust. Not part of the gate.
set -eu
turns=${1:-7}
top=$(cd "$(dirname "$0")/.." && pwd)
work=$(mktemp -d)
trap 'rm -rf "$work"' EXIT
mkdir "$work/crates"
for crate in frang_base tree_definitions sorted_entries ordered_map sector_bytes frang_outside meta_version flush_order cache_definitions clerk_cache lock_definitions lock_table petal_disk; do
  cp -a "$top/crates/$crate" "$work/crates/"
  grep "^$crate:" "$top/crates.txt" >>"$work/crates.txt"
done
cp "$top/HANDLES" "$work/"
mkdir -p "$work/crates/structures_bench/src" "$work/crates/structures_bench/specs"
touch "$work/crates/structures_bench/specs/Lib.antt"
cat >"$work/crates/structures_bench/src/main.rt" <<'END'
//! Fills what the servers keep in memory in random order, and prints how many microseconds each step took.
#![tactic(auto)]

ghost use Rattle.std.specs.Prelude.{◌<◌};

use clerk_cache::Cache;
use frang_base::{LockId, Mode, NoMemory, Sector, ServerId};
use frang_outside::{MemOutside, Put};
use lock_table::{AskedFor, LockTable};
use petal_disk::{Flight, Ticket};
use std::alloc::Global;
use std::io;
use std::rt::Clock;
use std::time::Instant;

// A number that looks random.
fn mixed(i: u64) -> u64 {
    i.wrapping_mul(0x9E37_79B9_7F4A_7C15) >> 20
}

fn cover(sector: u64) -> LockId {
    LockId::Node((sector % 1000) as u32)
}

fn fill(cache: &mut Cache, count: u64) -> Result<(), NoMemory> {
    for i in 0..count {
        let sector = mixed(i);
        cache.reserve(1)?;
        cache.set_clean(Sector(sector), [7; 512], cover(sector));
    }
    Ok(())
}

fn dirty(cache: &mut Cache, count: u64) -> Result<(), NoMemory> {
    for i in 0..count {
        let sector = mixed(i);
        cache.reserve(1)?;
        cache.set_bytes(Sector(sector), [8; 512], i, cover(sector));
    }
    Ok(())
}

// Each sector in order of the marks is marked clean; so many were.
fn clean(cache: &mut Cache, count: u64) -> u64 {
    let mut done = 0u64;
    for _ in 0..count {
        match cache.next_dirty(u64::MAX) {
            Some(sector) => cache.clean(sector, &[8; 512]),
            None => return done,
        }
        done = done.saturating_add(1);
    }
    done
}

// Each cover is looked at and dropped; so many were.
fn drop_all(cache: &mut Cache) -> u64 {
    let mut done = 0u64;
    for lock in 0..1000 {
        let lock = LockId::Node(lock);
        if cache.is_clean(lock) && cache.drop_cover(lock).is_ok() {
            done = done.saturating_add(1);
        }
    }
    done
}

// The i-th want: a server, and one of the locks that it has for itself, in random order.
fn own(i: u32) -> (u8, LockId) {
    let i = i.wrapping_mul(7919) % 16_000;
    ((i % 16) as u8, LockId::Node(i))
}

// Each server wants its locks; so many were granted.
fn want_own(table: &mut LockTable) -> Result<u64, NoMemory> {
    let mut done = 0u64;
    for i in 0..16_000u32 {
        let (server, lock) = own(i);
        if server < 16 {
            let _ = table.want(ServerId(server), lock, Mode::Sole)?;
            done = done.saturating_add(1);
        }
    }
    Ok(done)
}

// Each server wants the locks of the one before it, shared.
fn want_others(table: &mut LockTable) -> Result<u64, NoMemory> {
    let mut done = 0u64;
    for i in 0..16_000u32 {
        let (server, lock) = own(i);
        let other = (server.wrapping_add(1)) % 16;
        if other < 16 {
            let _ = table.want(ServerId(other), lock, Mode::Shared)?;
            done = done.saturating_add(1);
        }
    }
    Ok(done)
}

// What each server is asked for is listed, 100 times.
fn list(table: &LockTable) -> Result<u64, NoMemory> {
    let mut done = 0u64;
    for i in 0..1600u32 {
        let server = ServerId((i % 16) as u8);
        if table.is_asked(server) {
            done = done.saturating_add(table.revokes(server)?.len() as u64);
        }
    }
    Ok(done)
}

// Each server gives what it is asked for.
fn give(table: &mut LockTable) -> u64 {
    let mut done = 0u64;
    for i in 0..16_000u32 {
        let (server, _) = own(i);
        let server = ServerId(server);
        if let Some((lock, asked)) = table.first_asked(server) {
            match (asked, table.held(server, lock)) {
                (AskedFor::Downgrade, Some(Mode::Sole)) => table.downgrade(server, lock),
                (_, Some(_)) => table.release(server, lock),
                _ => {}
            }
            done = done.saturating_add(1);
        }
    }
    done
}

// Each lock is released by both who hold it.
fn release(table: &mut LockTable) -> u64 {
    let mut done = 0u64;
    for i in 0..16_000u32 {
        let (server, lock) = own(i);
        for holder in [server, (server.wrapping_add(1)) % 16] {
            let holder = ServerId(holder);
            if table.held(holder, lock).is_some() {
                table.release(holder, lock);
                done = done.saturating_add(1);
            }
        }
    }
    done
}

fn put_of(sector: u64) -> Put {
    Put {
        server: ServerId(0),
        behalf: ServerId(0),
        stamp: 20,
        now: 0,
        sector: Sector(sector),
        bytes: [7; 512],
    }
}

fn issue(flight: &mut Flight) -> Result<u64, NoMemory> {
    let mut done = 0u64;
    for i in 0..10_000 {
        flight.reserve()?;
        if flight.issue(put_of(mixed(i))).is_ok() {
            done = done.saturating_add(1);
        }
    }
    Ok(done)
}

fn arrive(flight: &mut Flight, out: &mut MemOutside) -> u64 {
    let mut done = 0u64;
    for i in 0..10_000u64 {
        let ticket = Ticket(i.wrapping_mul(7919) % 10_000);
        if flight.get(ticket).is_some() {
            let _ = flight.arrive(ticket, 10, out);
            done = done.saturating_add(1);
        }
    }
    done
}

fn say(rt: &impl Print, step: &str, count: u64, micros: u128, done: u64) -> io::Result<()> {
    println!(rt; "{step}_{count} {micros} {done}")
}

fn time_filling(rt: &(impl Print + Clock), cache: &mut Cache, count: u64) -> io::Result<()> {
    let start = Instant::now(rt)?;
    let _ = fill(cache, count);
    say(rt, "insert", count, start.elapsed(rt)?.as_micros(), 0)?;
    let start = Instant::now(rt)?;
    let _ = dirty(cache, count);
    say(rt, "change", count, start.elapsed(rt)?.as_micros(), 0)
}

fn time_dropping(rt: &(impl Print + Clock), cache: &mut Cache, count: u64) -> io::Result<()> {
    let start = Instant::now(rt)?;
    let done = clean(cache, count);
    say(rt, "clean", count, start.elapsed(rt)?.as_micros(), done)?;
    let start = Instant::now(rt)?;
    let done = drop_all(cache);
    say(rt, "drop", count, start.elapsed(rt)?.as_micros(), done)
}

fn time_wants(rt: &(impl Print + Clock), table: &mut LockTable) -> io::Result<()> {
    let start = Instant::now(rt)?;
    let done = want_own(table).unwrap_or(0);
    say(rt, "want", 16_000, start.elapsed(rt)?.as_micros(), done)?;
    let start = Instant::now(rt)?;
    let done = want_others(table).unwrap_or(0);
    say(rt, "wish", 16_000, start.elapsed(rt)?.as_micros(), done)
}

fn time_gifts(rt: &(impl Print + Clock), table: &mut LockTable) -> io::Result<()> {
    let start = Instant::now(rt)?;
    let done = list(table).unwrap_or(0);
    say(rt, "revokes", 1600, start.elapsed(rt)?.as_micros(), done)?;
    let start = Instant::now(rt)?;
    let done = give(table);
    say(rt, "give", 16_000, start.elapsed(rt)?.as_micros(), done)
}

fn time_grants(rt: &(impl Print + Clock), table: &mut LockTable) -> io::Result<()> {
    let start = Instant::now(rt)?;
    let done = want_others(table).unwrap_or(0);
    say(rt, "grant", 16_000, start.elapsed(rt)?.as_micros(), done)?;
    let start = Instant::now(rt)?;
    let done = release(table);
    say(rt, "release", 32_000, start.elapsed(rt)?.as_micros(), done)
}

fn time_writes(rt: &(impl Print + Clock), alloc: Global) -> io::Result<()> {
    let mut flight = Flight::new(alloc);
    let mut out = MemOutside::new(alloc);
    let start = Instant::now(rt)?;
    let done = issue(&mut flight).unwrap_or(0);
    say(rt, "issue", 10_000, start.elapsed(rt)?.as_micros(), done)?;
    let start = Instant::now(rt)?;
    let done = arrive(&mut flight, &mut out);
    say(rt, "arrive", 10_000, start.elapsed(rt)?.as_micros(), done)
}

fn main(rt: HostRuntime) -> io::Result<()> {
    for count in [10_000, 100_000] {
        let mut cache = Cache::new(rt.alloc());
        time_filling(&rt, &mut cache, count)?;
        time_dropping(&rt, &mut cache, count)?;
    }
    let mut table = LockTable::new(rt.alloc());
    time_wants(&rt, &mut table)?;
    time_gifts(&rt, &mut table)?;
    time_grants(&rt, &mut table)?;
    time_writes(&rt, rt.alloc())
}
END
echo 'structures_bench: frang_base frang_outside clerk_cache lock_table petal_disk' >>"$work/crates.txt"
cargo new -q "$work/peer" --vcs none
cat >"$work/peer/src/main.rs" <<'END'
use std::collections::{BTreeMap, BTreeSet};
use std::time::Instant;

fn mixed(i: u64) -> u64 {
    i.wrapping_mul(0x9E37_79B9_7F4A_7C15) >> 20
}

// ---- cached sectors

struct Cached {
    block: [u8; 512],
    cover: u32,
    mark: Option<u64>,
}

#[derive(Default)]
struct Cache {
    sectors: BTreeMap<u64, Cached>,
    marks: BTreeSet<(u64, u64)>,
    covers: BTreeSet<(u32, u64)>,
}

impl Cache {
    fn set(&mut self, sector: u64, block: [u8; 512], cover: u32, mark: Option<u64>) {
        if let Some(old) = self.sectors.insert(sector, Cached { block, cover, mark }) {
            if let Some(mark) = old.mark {
                self.marks.remove(&(mark, sector));
            }
            if old.cover != cover {
                self.covers.remove(&(old.cover, sector));
                self.covers.insert((cover, sector));
            }
        } else {
            self.covers.insert((cover, sector));
        }
        if let Some(mark) = mark {
            self.marks.insert((mark, sector));
        }
    }

    fn clean(&mut self, sector: u64, block: &[u8; 512]) {
        let Some(cached) = self.sectors.get_mut(&sector) else { return };
        if cached.block == *block {
            if let Some(mark) = cached.mark.take() {
                self.marks.remove(&(mark, sector));
            }
        }
    }

    fn under(&self, cover: u32) -> Vec<(u32, u64)> {
        self.covers.range((cover, 0)..=(cover, u64::MAX)).copied().collect()
    }

    fn drop_cover(&mut self, cover: u32) -> bool {
        let under = self.under(cover);
        if under.iter().any(|(_, sector)| self.sectors[sector].mark.is_some()) {
            return false;
        }
        for pair in under {
            let cached = self.sectors.remove(&pair.1);
            assert!(cached.map(|cached| cached.cover) == Some(cover));
            self.covers.remove(&pair);
        }
        true
    }
}

// ---- locks

#[derive(Clone, Copy, PartialEq, Eq, PartialOrd, Ord)]
#[allow(dead_code)]
enum Lock {
    Log(u8),
    Segment(u32),
    Node(u32),
}

#[derive(Clone, Copy, PartialEq, Eq)]
enum Mode {
    Shared,
    Sole,
}

#[derive(Clone, Copy, PartialEq, Eq)]
enum AskedFor {
    Release,
    Downgrade,
}

#[derive(Clone, Copy, Default)]
struct Claim {
    held: Option<Mode>,
    wishes_shared: bool,
    wishes_sole: bool,
}

type Claims = [Claim; 16];

fn clashes(mode: Mode, held: Option<Mode>) -> bool {
    held == Some(Mode::Sole) || (held.is_some() && mode == Mode::Sole)
}

fn asked_for(claims: &Claims, server: usize) -> Option<AskedFor> {
    let held = claims[server].held?;
    let others = || claims.iter().enumerate().filter(|(other, _)| *other != server);
    if held == Mode::Sole && others().any(|(_, claim)| claim.wishes_shared) {
        return Some(AskedFor::Downgrade);
    }
    others().any(|(_, claim)| claim.wishes_sole).then_some(AskedFor::Release)
}

#[derive(Default)]
struct Table {
    locks: BTreeMap<Lock, Claims>,
    asked: [BTreeMap<Lock, AskedFor>; 16],
}

fn settle(asked: &mut BTreeMap<Lock, AskedFor>, lock: Lock, before: Option<AskedFor>, now: Option<AskedFor>) {
    if before != now {
        match now {
            Some(now) => drop(asked.insert(lock, now)),
            None => drop(asked.remove(&lock)),
        }
    }
}

impl Table {
    // The lock is waited for.
    fn want(&mut self, server: usize, lock: Lock, mode: Mode) -> u32 {
        let claims = self.locks.entry(lock).or_default();
        let before = *claims;
        let mut holders = 0;
        for other in 0..16 {
            if other != server && clashes(mode, claims[other].held) {
                holders |= 1 << other;
            }
        }
        let claim = &mut claims[server];
        match (holders, mode) {
            (0, Mode::Shared) if claim.held != Some(Mode::Sole) => {
                claim.held = Some(Mode::Shared);
                claim.wishes_shared = false;
            }
            (0, _) => *claim = Claim { held: Some(Mode::Sole), ..Claim::default() },
            (_, Mode::Shared) => claim.wishes_shared = true,
            (_, Mode::Sole) => claim.wishes_sole = true,
        }
        for other in 0..16 {
            settle(&mut self.asked[other], lock, asked_for(&before, other), asked_for(claims, other));
        }
        holders
    }

    fn held(&self, server: usize, lock: Lock) -> Option<Mode> {
        self.locks.get(&lock)?[server].held
    }

    fn change(&mut self, server: usize, lock: Lock, held: Option<Mode>) {
        let Some(claims) = self.locks.get_mut(&lock) else { return };
        let before = asked_for(claims, server);
        claims[server].held = held;
        settle(&mut self.asked[server], lock, before, asked_for(claims, server));
        if claims.iter().all(|claim| claim.held.is_none() && !claim.wishes_shared && !claim.wishes_sole) {
            self.locks.remove(&lock);
        }
    }

    fn revokes(&self, server: usize) -> Vec<(Lock, AskedFor)> {
        self.asked[server].iter().map(|(lock, asked)| (*lock, *asked)).collect()
    }
}

fn own(i: u32) -> (usize, Lock) {
    let i = i.wrapping_mul(7919) % 16_000;
    ((i % 16) as usize, Lock::Node(i))
}

// ---- writes in flight

#[derive(Clone)]
struct Put {
    stamp: u64,
    now: u64,
    sector: u64,
    bytes: [u8; 512],
}

#[derive(Default)]
struct Flight {
    writes: BTreeMap<u64, Put>,
    tickets: BTreeMap<u64, u64>,
    next: u64,
}

impl Flight {
    fn issue(&mut self, put: Put) -> Result<u64, u64> {
        if let Some(ticket) = self.tickets.get(&put.sector) {
            return Err(*ticket);
        }
        self.tickets.insert(put.sector, self.next);
        self.writes.insert(self.next, put);
        self.next += 1;
        Ok(self.next - 1)
    }

    fn arrive(&mut self, ticket: u64, now: u64, out: &mut Vec<Put>) {
        let put = Put { now, ..self.writes[&ticket].clone() };
        if put.now <= put.stamp {
            out.push(put.clone());
        }
        self.tickets.remove(&put.sector);
        self.writes.remove(&ticket);
    }
}

fn main() {
    for count in [10_000u64, 100_000] {
        let mut cache = Cache::default();
        let start = Instant::now();
        for i in 0..count {
            let sector = mixed(i);
            cache.set(sector, [7; 512], (sector % 1000) as u32, None);
        }
        println!("insert_{count} {}", start.elapsed().as_micros());
        let start = Instant::now();
        for i in 0..count {
            let sector = mixed(i);
            cache.set(sector, [8; 512], (sector % 1000) as u32, Some(i));
        }
        println!("change_{count} {}", start.elapsed().as_micros());
        let start = Instant::now();
        let mut cleaned = 0;
        while let Some(&(_, sector)) = cache.marks.first() {
            cache.clean(sector, &[8; 512]);
            cleaned += 1;
        }
        println!("clean_{count} {} {cleaned}", start.elapsed().as_micros());
        let start = Instant::now();
        let mut dropped = 0;
        for lock in 0..1000u32 {
            let is_clean = cache.under(lock).iter().all(|(_, sector)| cache.sectors[sector].mark.is_none());
            if is_clean && cache.drop_cover(lock) {
                dropped += 1;
            }
        }
        println!("drop_{count} {} {dropped}", start.elapsed().as_micros());
    }
    let mut table = Table::default();
    let start = Instant::now();
    for i in 0..16_000 {
        let (server, lock) = own(i);
        table.want(server, lock, Mode::Sole);
    }
    println!("want_16000 {}", start.elapsed().as_micros());
    let wish = |table: &mut Table| {
        for i in 0..16_000 {
            let (server, lock) = own(i);
            table.want((server + 1) % 16, lock, Mode::Shared);
        }
    };
    let start = Instant::now();
    wish(&mut table);
    println!("wish_16000 {}", start.elapsed().as_micros());
    let start = Instant::now();
    let mut listed = 0;
    for i in 0..1600 {
        if !table.asked[i % 16].is_empty() {
            listed += table.revokes(i % 16).len();
        }
    }
    println!("revokes_1600 {} {listed}", start.elapsed().as_micros());
    let start = Instant::now();
    let mut given = 0;
    for i in 0..16_000 {
        let (server, _) = own(i);
        if let Some((&lock, &asked)) = table.asked[server].first_key_value() {
            match (asked, table.held(server, lock)) {
                (AskedFor::Downgrade, Some(Mode::Sole)) => table.change(server, lock, Some(Mode::Shared)),
                (_, Some(_)) => table.change(server, lock, None),
                _ => {}
            }
            given += 1;
        }
    }
    println!("give_16000 {} {given}", start.elapsed().as_micros());
    let start = Instant::now();
    wish(&mut table);
    println!("grant_16000 {}", start.elapsed().as_micros());
    let start = Instant::now();
    let mut released = 0;
    for i in 0..16_000 {
        let (server, lock) = own(i);
        for holder in [server, (server + 1) % 16] {
            if table.held(holder, lock).is_some() {
                table.change(holder, lock, None);
                released += 1;
            }
        }
    }
    println!("release_32000 {} {released}", start.elapsed().as_micros());
    let mut flight = Flight::default();
    let mut out = Vec::new();
    let start = Instant::now();
    let mut issued = 0;
    for i in 0..10_000 {
        let put = Put { stamp: 20, now: 0, sector: mixed(i), bytes: [7; 512] };
        if flight.issue(put).is_ok() {
            issued += 1;
        }
    }
    println!("issue_10000 {} {issued}", start.elapsed().as_micros());
    let start = Instant::now();
    let mut arrived = 0;
    for i in 0..10_000u64 {
        let ticket = i.wrapping_mul(7919) % 10_000;
        if flight.writes.contains_key(&ticket) {
            flight.arrive(ticket, 10, &mut out);
            arrived += 1;
        }
    }
    println!("arrive_10000 {} {arrived} {}", start.elapsed().as_micros(), out.iter().map(|put| put.bytes[0] as u64).sum::<u64>() % 2);
}
END
(cd "$work/peer" && cargo build -q --release --offline)
cd "$work/crates/structures_bench"
rt run >"$work/log" 2>&1 || { tail -n 20 "$work/log"; exit 1; }
for _ in $(seq "$turns"); do
  ./out/structures_bench >>"$work/crates.times"
  "$work/peer/target/release/peer" >>"$work/peer.times"
done
awk '
  !($1 in order) { order[$1] = ++steps; name[steps] = $1 }
  FILENAME ~ /crates/ { if (!($1 in ours) || $2 < ours[$1]) ours[$1] = $2; next }
  { if (!($1 in peers) || $2 < peers[$1]) peers[$1] = $2 }
  END {
    printf "%-14s %12s %12s %7s\n", "step", "crates, us", "peer, us", "ratio"
    for (i = 1; i <= steps; i++)
      printf "%-14s %12d %12d %7.2f\n", name[i], ours[name[i]], peers[name[i]], ours[name[i]] / (peers[name[i]] ? peers[name[i]] : 1)
  }' "$work/crates.times" "$work/peer.times"
