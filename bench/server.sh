#!/usr/bin/env bash
# Times one server on 60,000 lines beside another program that answers the same lines, in processor time: a mount, and then creates, writes, renames, stats and syncs in four directories.
# The server's calls are made one after the other as their guards allow, over sectors in memory, without a world, a hall or a recovery. Both programs run by turns, the least time of each
# counts, and their answers have to be the same. Use: bench/server.sh OTHER [TURNS] (7 turns by default). OTHER is to know `run SCRIPT`, as docs/FORMATS.md has it, on a disk of sixteen
# segments. It proves and builds a program of its own over a copy of the crates, which takes some minutes. Not part of the gate.
set -eu
other=$(realpath "${1:?the path of another program is missing}")
turns=${2:-7}
top=$(cd "$(dirname "$0")/.." && pwd)
work=$(mktemp -d)
trap 'rm -rf "$work"' EXIT
libraries="frang_base frang_layout frang_outside disk_definitions core_definitions kept_plans line_stages lock_table opening petal_disk plan_keeping reply_text script_lang server_core server_issues wal_ring"
mkdir "$work/crates"
# These crates and all below them.
copy() {
  for crate in "$@"; do
    if [ -d "$top/crates/$crate" ] && [ ! -d "$work/crates/$crate" ]; then
      cp -a "$top/crates/$crate" "$work/crates/"
      line=$(grep -E "^$crate( [^:]*)?:" "$top/crates.txt")
      echo "$line" >>"$work/crates.txt"
      copy ${line#*:}
    fi
  done
}
copy $libraries
cp "$top/HANDLES" "$work/"
mkdir -p "$work/crates/server_bench/src" "$work/crates/server_bench/specs"
touch "$work/crates/server_bench/specs/Lib.antt"
echo "server_bench: $libraries" >>"$work/crates.txt"
cat >"$work/crates/server_bench/src/main.rt" <<'END'
//! Answers a script of one server over a disk in memory, without a world and without a hall: each event is made as its guard allows, first one of the line, then the issue of a write, and last the
//! arrival of the oldest write in flight. It says the answers, and on standard error the processor time of the lines in microseconds, with how many events of each kind were made.
#![tactic(auto)]

ghost use Rattle.std.specs.Prelude.{◌≡◌, IsTrue, true};
ghost use Rattle.disk_definitions.specs.FreshDisk.{fresh_param};
ghost use Rattle.disk_definitions.specs.Params.{param_fits};
ghost use Rattle.core_definitions.specs.Servers.{is_in_mount};
ghost use Rattle.line_stages.specs.Agains.{IsFirstWhereAnew};

use frang_base::limits::{LOG_SECTORS, MARGIN_TICKS, RUN_LINES_END, RUN_TICKS_END};
use frang_base::{Line, LockId, Mode, NoMemory, Op, Reply, Said, Script, Sector, ServerId, What};
use frang_layout::{Region, sector_of};
use frang_outside::{DirFiles, Files, Outside, Put, SayFault, StdOutside};
use kept_plans::{KeptEnd, KeptPlan};
use line_stages::{
    Again, Stage, asked_next, cleared_next, first_needed, go_again, lacks_room, may_commit,
    must_again, oldest_sectors, ready_again, room_wanted, stage_of, wants_plan,
};
use lock_table::LockTable;
use opening::open_fresh;
use petal_disk::{Arrived, Flight, Flying, Purpose, Ticket};
use plan_keeping::{LineToPlan, plan_to_keep};
use reply_text::write_line;
use script_lang::read_script;
use server_core::{Outcome, PlainAnswer, Server, Under};
use server_issues::{Issuer, WantedWrite};
use std::alloc::Global;
use std::process::ExitCode;
use std::rt::Runtime;
use std::time::CpuClock;
use std::{env, io};
use wal_ring::Ring;

// The server, the tick at which all happens, the segments of the disk, and the number of the run.
const NUMBER: ServerId = ServerId(0);

const NOW: u64 = 0;

const SEGMENTS: u32 = 16;

const RUN: u64 = 1;

// The most bytes of a script.
const SCRIPT_BYTES: u64 = 1 << 20;

// The most events of one line.
const EVENTS: u32 = 1_000_000;

// How many events of each kind were made.
#[derive(Clone, Copy)]
struct Counts {
    plans: u64,
    asks: u64,
    fetches: u64,
    agains: u64,
    clears: u64,
    commits: u64,
    issues: u64,
    arrivals: u64,
    answers: u64,
}

const NONE_MADE: Counts = Counts {
    plans: 0,
    asks: 0,
    fetches: 0,
    agains: 0,
    clears: 0,
    commits: 0,
    issues: 0,
    arrivals: 0,
    answers: 0,
};

// The writes in flight of these sectors come under their new locks.
fn move_covers(flights: &mut Flight, moves: &[(Sector, LockId)]) {
    for one in moves {
        flights.move_cover(NUMBER, one.0, one.1);
    }
}

fn count(counter: &mut u64) {
    *counter = counter.saturating_add(1);
}

// A server with its locks and its writes in flight, and what is kept of its line and its log.
#[derive(Drop)]
struct Bench {
    server: Server,
    table: LockTable,
    flights: Flight,
    plan: Option<KeptPlan>,
    oldest: Option<Vec<Sector>>,
    counts: Counts,
    alloc: Global,
}

// What a line asks.
fn operation_in(line: &Line) -> Result<&Op, NoMemory> {
    match &line.what {
        What::Server(operation) => Ok(operation),
        What::Host(_) => Err(NoMemory),
    }
}

// What a plan comes to. `None` where its line isn't finished.
fn outcome_in(plan: Option<KeptPlan>) -> Option<Outcome> {
    match plan {
        Some(KeptPlan::Planned(plan)) => outcome_at(plan.end),
        Some(KeptPlan::Moved) => None,
        None => None,
    }
}

fn outcome_at(end: KeptEnd) -> Option<Outcome> {
    match end {
        KeptEnd::Done(done) => Some(done.outcome),
        KeptEnd::Need { .. } => None,
        KeptEnd::Segments => None,
        KeptEnd::Clear { .. } => None,
    }
}

// A finished line is committed.
fn committed(server: &mut Server, outcome: Outcome) -> Result<Reply, NoMemory>
    requires { is_in_mount server.old.server.phase ≡ true }
{
    match server.reserve_commit(&outcome) {
        Ok(()) => Ok(server.commit(outcome)),
        Err(_) => Err(NoMemory),
    }
}

// Each slot of the log is read, for a mount.
fn read_log<O: Outside>(alloc: Global, out: &mut O, under: &mut Under) -> Result<(), NoMemory> {
    for _ in 0..LOG_SECTORS {
        if let Some(slot) = under.first_unread() {
            read_slot(alloc, out, under, slot)?;
        }
    }
    Ok(())
}

fn read_slot<O: Outside>(
    alloc: Global,
    out: &mut O,
    under: &mut Under,
    slot: u8,
) -> Result<(), NoMemory> {
    let region = Region::Log {
        server: NUMBER.0,
        slot,
    };
    let Ok(block) = out.get(NUMBER, sector_of(&region)) else {
        return Err(NoMemory);
    };
    under.reserve_slot(alloc)?;
    under.read_slot(slot, &block);
    Ok(())
}

// ---- a line begins

impl Bench {
    fn new(alloc: Global) -> Bench {
        Bench {
            server: Server::new(alloc, NUMBER),
            table: LockTable::new(alloc),
            flights: Flight::new(alloc),
            plan: None,
            oldest: None,
            counts: NONE_MADE,
            alloc,
        }
    }

    fn under_of(&self, line: &Line) -> Result<Under, NoMemory> {
        let operation = operation_in(line)?;
        let fixed = self.server.answer_at_first(operation);
        Under::of(self.alloc, line.clone()?, operation, fixed)
    }

    fn begin(&mut self, line: &Line) -> Result<(), NoMemory> {
        let under = self.under_of(line)?;
        self.server.begin(under);
        self.plan = None;
        Ok(())
    }

    // A mount reads each slot of its log, and is answered.
    fn mount<O: Outside>(&mut self, out: &mut O, line: &Line) -> Result<Reply, NoMemory> {
        let mut under = self.under_of(line)?;
        let end = self.log_end(out, &mut under);
        self.server.begin(under);
        self.mounted(end?)
    }

    // Where its log ends.
    fn log_end<O: Outside>(&self, out: &mut O, under: &mut Under) -> Result<u64, NoMemory> {
        read_log(self.alloc, out, under)?;
        under.end(self.alloc)
    }

    fn mounted(&mut self, end: u64) -> Result<Reply, NoMemory> {
        let Some(answer) = self.server.due(false, false) else {
            return Err(NoMemory);
        };
        if answer == PlainAnswer::Mounted {
            self.start(end)?;
        }
        self.server.end_line();
        Ok(answer.reply())
    }

    // It is mounted, with a log that ends there.
    fn start(&mut self, end: u64) -> Result<(), NoMemory> {
        if end < LOG_SECTORS - 1 || end >= 1 << 62 {
            return Err(NoMemory);
        }
        let ring = Ring::at(self.alloc, end)?;
        self.server.mount(ring, NOW);
        Ok(())
    }
}

// ---- the plan of its line

impl Bench {
    fn planned(&self) -> Result<KeptPlan, NoMemory> {
        let under = self.server.under().ok_or(NoMemory)?;
        let operation = under.operation().ok_or(NoMemory)?;
        let line = LineToPlan {
            operation,
            number: RUN * RUN_LINES_END + u64::from(under.number()),
            when: RUN * RUN_TICKS_END + NOW,
            segments: SEGMENTS,
        };
        plan_to_keep(self.alloc, self.server.cache(), under, &line)
    }

    // A plan is kept where one is wanted.
    fn refresh(&mut self) -> Result<(), NoMemory> {
        if self.plan.is_none() && wants_plan(&self.table, &self.server) {
            self.plan = Some(self.planned()?);
            count(&mut self.counts.plans);
        }
        Ok(())
    }

    // The sectors that the oldest records of the log name are kept where room lacks.
    fn keep_oldest(&mut self, lacks: bool) -> Result<(), NoMemory> {
        if lacks && self.oldest.is_none() {
            self.oldest = Some(oldest_sectors(self.alloc, &self.server)?);
        }
        Ok(())
    }

    fn known_oldest(&self) -> &[Sector] {
        match &self.oldest {
            Some(oldest) => oldest.as_slice(),
            None => &[],
        }
    }
}

// ---- the events of its line

impl Bench {
    fn ask(&mut self, lock: LockId, mode: Mode) -> Result<(), NoMemory> {
        self.table.reserve(NUMBER, lock)?;
        let _ = self.table.want(NUMBER, lock, mode)?;
        count(&mut self.counts.asks);
        Ok(())
    }

    fn fetch<O: Outside>(
        &mut self,
        out: &mut O,
        sector: Sector,
        cover: LockId,
    ) -> Result<(), NoMemory> {
        let Ok(block) = out.get(NUMBER, sector) else {
            return Err(NoMemory);
        };
        if self.server.is_dirty(sector) {
            return Err(NoMemory);
        }
        self.server.reserve_sectors(1)?;
        self.server.fetched(sector, block, cover);
        self.plan = None;
        count(&mut self.counts.fetches);
        Ok(())
    }

    fn again(&mut self) -> Result<(), NoMemory> {
        match ready_again(self.alloc, &self.table, &self.server, SEGMENTS, &self.plan)? {
            Some(again) => {
                self.goes(again);
                Ok(())
            }
            None => Err(NoMemory),
        }
    }

    fn goes(&mut self, again: Again)
        requires { IsFirstWhereAnew again }
    {
        go_again(&mut self.server, again);
        self.plan = None;
        self.oldest = None;
        count(&mut self.counts.agains);
    }

    fn clear(&mut self, block: u32) -> Result<(), NoMemory> {
        self.server.reserve_block()?;
        self.server.clear(block);
        self.plan = None;
        count(&mut self.counts.clears);
        Ok(())
    }

    fn commit(&mut self) -> Result<Reply, NoMemory> {
        match outcome_in(self.plan.take()) {
            Some(outcome) => self.commits(outcome),
            None => Err(NoMemory),
        }
    }

    fn commits(&mut self, outcome: Outcome) -> Result<Reply, NoMemory> {
        if !self.server.is_in_mount() {
            return Err(NoMemory);
        }
        move_covers(&mut self.flights, &outcome.moves);
        self.oldest = None;
        count(&mut self.counts.commits);
        committed(&mut self.server, outcome)
    }

    // One event of a line over paths at this stage, or of the writes that it waits for. The reply, where it is answered.
    fn path_event<O: Outside>(
        &mut self,
        out: &mut O,
        stage: &Option<Stage>,
    ) -> Result<Option<Reply>, NoMemory> {
        if let Some((lock, mode)) = asked_next(stage, &self.table, &self.server) {
            self.ask(lock, mode)?;
            return Ok(None);
        }
        if let Some((sector, cover)) = first_needed(stage, &self.server) {
            self.fetch(out, sector, cover)?;
            return Ok(None);
        }
        if let Some(block) = cleared_next(stage) {
            self.clear(block)?;
            return Ok(None);
        }
        self.last_event(out, stage)
    }

    // Whether it goes on again.
    fn is_again(&self, stage: &Option<Stage>) -> bool {
        must_again(stage, &self.server, &self.plan, self.known_oldest())
    }

    // The same of one that needs nothing more.
    fn last_event<O: Outside>(
        &mut self,
        out: &mut O,
        stage: &Option<Stage>,
    ) -> Result<Option<Reply>, NoMemory> {
        let lacks = lacks_room(stage, &self.server, &self.plan);
        self.keep_oldest(lacks)?;
        if self.is_again(stage) {
            self.again()?;
            return Ok(None);
        }
        if may_commit(stage, &self.server, &self.plan) {
            let reply = self.commit()?;
            return Ok(Some(reply));
        }
        self.write_event(out, lacks)?;
        Ok(None)
    }

    // The same of a line that isn't over paths.
    fn own_event<O: Outside>(&mut self, out: &mut O) -> Result<Option<Reply>, NoMemory> {
        let flies = self.flights.has_flights(NUMBER);
        if let Some(answer) = self.server.due(flies, false) {
            self.server.end_line();
            return Ok(Some(answer.reply()));
        }
        self.write_event(out, false)?;
        Ok(None)
    }
}

// ---- its writes

impl Bench {
    // What it may issue, where its line waits for room or doesn't.
    fn next_write(&self, waits: bool) -> Option<(Sector, WantedWrite)> {
        if self.server.id().0 >= 16 {
            return None;
        }
        let room = room_wanted(waits, self.known_oldest());
        let issuer = Issuer::new(
            &self.server,
            None,
            &self.table,
            &self.flights,
            NOW,
            waits,
            room,
        );
        let sector = issuer.next_issue()?;
        Some((sector, issuer.write(sector)?))
    }

    // A write is issued of it: of its log the next sector.
    fn issued(&mut self, purpose: Purpose) -> Result<(), NoMemory> {
        match purpose {
            Purpose::OfLog(number) => self.log_issued(number),
            Purpose::InPlace(cover) => {
                self.server.issued(Purpose::InPlace(cover));
                Ok(())
            }
            Purpose::OfRecovery => Err(NoMemory),
        }
    }

    fn log_issued(&mut self, number: u64) -> Result<(), NoMemory> {
        match self.server.next_log_sector() {
            Some((next, _)) if next == number => {
                self.server.issued(Purpose::OfLog(next));
                Ok(())
            }
            _ => Err(NoMemory),
        }
    }

    fn issue(&mut self, sector: Sector, write: &WantedWrite) -> Result<(), NoMemory> {
        self.flights.reserve()?;
        let put = Put {
            server: NUMBER,
            behalf: write.behalf,
            stamp: self.server.expiry().saturating_sub(MARGIN_TICKS),
            now: NOW,
            sector,
            bytes: write.block,
        };
        self.issued(write.purpose)?;
        self.server.set_flies(sector, true);
        if self.flights.issue_as(put, write.purpose).is_err() {
            return Err(NoMemory);
        }
        count(&mut self.counts.issues);
        Ok(())
    }

    // A write in flight arrives.
    fn arrive<O: Outside>(&mut self, out: &mut O, ticket: Ticket) -> Result<(), NoMemory> {
        let Some(flying) = self.flights.flying(ticket) else {
            return Err(NoMemory);
        };
        let Flying { put, purpose, .. } = *flying;
        self.land(out, ticket)?;
        self.server.set_flies(put.sector, false);
        self.server.acknowledged(put.sector, &put.bytes, purpose);
        count(&mut self.counts.arrivals);
        Ok(())
    }

    fn land<O: Outside>(&mut self, out: &mut O, ticket: Ticket) -> Result<(), NoMemory> {
        if self.flights.get(ticket).is_none() {
            return Err(NoMemory);
        }
        match self.flights.arrive(ticket, NOW, out) {
            Arrived::Written => Ok(()),
            _ => Err(NoMemory),
        }
    }

    // A write is issued where one may be, and else the oldest in flight arrives.
    fn write_event<O: Outside>(&mut self, out: &mut O, waits: bool) -> Result<(), NoMemory> {
        if let Some((sector, write)) = self.next_write(waits) {
            return self.issue(sector, &write);
        }
        let Some((ticket, _)) = self.flights.first() else {
            return Err(NoMemory);
        };
        self.arrive(out, ticket)
    }
}

// ---- the script

impl Bench {
    // One event of its line. The reply, where it is answered.
    fn event<O: Outside>(&mut self, out: &mut O) -> Result<Option<Reply>, NoMemory> {
        self.refresh()?;
        let stage = stage_of(&self.table, &self.server, &self.plan);
        if stage.is_some() {
            self.path_event(out, &stage)
        } else {
            self.own_event(out)
        }
    }

    fn answer<O: Outside>(&mut self, out: &mut O, line: &Line) -> Result<Reply, NoMemory> {
        if let Op::Mount = operation_in(line)? {
            return self.mount(out, line);
        }
        self.begin(line)?;
        for _ in 0..EVENTS {
            if let Some(reply) = self.event(out)? {
                return Ok(reply);
            }
        }
        Err(NoMemory)
    }

    // The answers to all lines are said.
    fn run<O: Outside>(
        &mut self,
        out: &mut O,
        script: &Script,
        said: &mut Vec<u8>,
    ) -> Result<Counts, NoMemory> {
        for line in script.as_slice() {
            let reply = self.answer(out, line)?;
            self.say(line, reply, said)?;
        }
        Ok(self.counts)
    }

    fn say(&mut self, line: &Line, reply: Reply, said: &mut Vec<u8>) -> Result<(), NoMemory> {
        let answer = Said::Answer {
            line: line.number,
            server: NUMBER,
            reply,
        };
        count(&mut self.counts.answers);
        write_line(self.alloc, &answer, said)
    }
}

fn opened<O: Outside>(out: &mut O, segments: u32) -> Result<(), NoMemory>
    requires { IsTrue (param_fits (fresh_param segments)) }
{
    match open_fresh(out, segments) {
        Ok(()) => Ok(()),
        Err(_) => Err(NoMemory),
    }
}

// The script of the file that the first argument names, if it is there and is one.
fn script_of<R: Runtime>(rt: &R, alloc: Global) -> io::Result<Option<Script>> {
    let mut files = DirFiles::new(rt.clone()?);
    match env::args(rt)?.skip(1).next() {
        Some(name) => Ok(script_in(alloc, &mut files, &name)),
        None => Ok(None),
    }
}

fn script_in<F: Files>(alloc: Global, files: &mut F, name: &str) -> Option<Script> {
    match files.read(alloc, name, SCRIPT_BYTES) {
        Ok(bytes) => script_read(alloc, &bytes),
        Err(_) => None,
    }
}

fn script_read(alloc: Global, bytes: &[u8]) -> Option<Script> {
    match read_script(alloc, bytes) {
        Ok(script) => Some(script),
        Err(_) => None,
    }
}

// The answers to a script on a fresh disk are said. It answers what was counted.
fn answered<O: Outside>(
    alloc: Global,
    out: &mut O,
    script: &Script,
    said: &mut Vec<u8>,
) -> Result<Counts, NoMemory> {
    opened(out, SEGMENTS)?;
    let mut bench = Bench::new(alloc);
    bench.run(out, script, said)
}

fn print_counts<R: Runtime>(rt: &R, micros: u128, counts: &Counts) -> io::Result<()> {
    let Counts {
        plans,
        asks,
        fetches,
        agains,
        clears,
        commits,
        issues,
        arrivals,
        answers,
    } = *counts;
    eprintln!(rt;
        "{micros} us: {answers} answers, {plans} plans, {asks} asks, {fetches} fetches, {agains} agains, {clears} clears, {commits} commits, {issues} issues, {arrivals} arrivals"
    )
}

// The answers to a script, and how long they took.
fn timed<R: Runtime + CpuClock>(rt: &R, alloc: Global, script: &Script) -> io::Result<ExitCode> {
    let mut out = StdOutside::new(alloc, rt.clone()?);
    let mut said = Vec::new(alloc);
    timed_over(rt, alloc, script, &mut out, &mut said)
}

fn timed_over<R: Runtime + CpuClock, O: Outside>(
    rt: &R,
    alloc: Global,
    script: &Script,
    out: &mut O,
    said: &mut Vec<u8>,
) -> io::Result<ExitCode> {
    let start = rt.process_cpu_time()?;
    let run = answered(alloc, out, script, said);
    let took = rt.process_cpu_time()?.saturating_sub(start);
    match run {
        Ok(counts) => {
            print_counts(rt, took.as_micros(), &counts)?;
            Ok(ended(&out.say(said)))
        }
        Err(_) => {
            eprintln!(rt; "not answered")?;
            Ok(ExitCode::from(3))
        }
    }
}

fn ended(said: &Result<(), SayFault>) -> ExitCode {
    match said {
        Ok(()) => ExitCode::from(0),
        Err(_) => ExitCode::from(1),
    }
}

fn main(rt: HostRuntime) -> io::Result<ExitCode> {
    let alloc = rt.alloc();
    match script_of(&rt, alloc)? {
        Some(script) => timed(&rt, alloc, &script),
        None => {
            eprintln!(rt; "no script")?;
            Ok(ExitCode::from(2))
        }
    }
}
END
# A script of so many lines, the same each time.
cat >"$work/script.py" <<'END'
import random
import sys

random.seed(7)
NAMES = "abcdefghijklmnopqrstuvwxyzABCDEFGHIJKLMNOPQRSTUVWXYZ0123456789"


def path():
    return f"/{random.choice('abcd')}/{random.choice(NAMES)}"


lines = ["mount"] + [f"mkdir /{directory}" for directory in "abcd"]
while len(lines) < int(sys.argv[1]):
    drawn = random.random()
    if drawn < 0.30:
        lines.append(f"create {path()}")
    elif drawn < 0.55:
        lines.append(f"write {path()} 0 xy")
    elif drawn < 0.75:
        lines.append(f"rename {path()} {path()}")
    elif drawn < 0.95:
        lines.append(f"stat {path()}")
    else:
        lines.append("sync")
sys.stdout.writelines(f"0 {line}\n" for line in lines)
END
lines=60001
python3 "$work/script.py" "$lines" >"$work/script"
# The other program stops behind the last answer, and so doesn't say the tree.
{ cat "$work/script"; echo halt; } >"$work/halted"
cd "$work/crates/server_bench"
rt run -- "$work/script" >"$work/log" 2>&1 || { tail -n 20 "$work/log"; exit 1; }
TIMEFORMAT='%U %S'
for _ in $(seq "$turns"); do
  { time ./out/server_bench "$work/script" >"$work/said" 2>"$work/counts"; } 2>>"$work/ours"
  cat "$work/counts" >>"$work/told"
  { time "$other" run "$work/halted" >"$work/others_said" 2>/dev/null; } 2>>"$work/others"
done
head -n "$lines" "$work/others_said" | cmp - "$work/said" || { echo "the answers aren't the same"; exit 1; }
sort -n "$work/told" | head -n 1
python3 - "$work/ours" "$work/others" "$lines" <<'END'
import sys


def least(file):
    return min(sum(map(float, row.split())) for row in open(file))


ours, others, lines = least(sys.argv[1]), least(sys.argv[2]), int(sys.argv[3])
print(f"{lines} equal answers: {ours:.2f} s, {ours / lines * 1e6:.1f} us a line; the other {others:.2f} s, {others / lines * 1e6:.1f} us a line; {ours / others:.2f} times")
END
