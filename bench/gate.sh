#!/usr/bin/env bash
# Runs the gate from nothing on what is committed, in a clone, and prints what it cost: the processor minutes of proofs, tests and edits by crate,
# the longest chain of crates, the sum. Use: bench/gate.sh [ROWS [COMMIT]]   (so many crates are listed, 0 or none: all).
# With COMMIT the gate of that commit runs beside, from nothing too and from the same moment, and its figures come first: so both meet the same machine, whatever
# else it does, and compare by their plain sums as long as both run. The one that lasts longer has the machine for itself at the end, which makes its sum no larger.
# The sum is what the system counts for the whole run. The rows are sampled twice a second, so short steps are missing in them.
# The paths down through crates.txt are counted too: some kits read a crate's files once for each path that leads down to it, one after another.
# A processor that is shared with others counts more time for the same work, and not always as taken by its host. So a fixed loop is timed all along: its
# processor time tells how fast the machine is, and the sum is given a second time, as if the loop had taken 30 ms throughout. Where the loop didn't take as
# long in two runs, their sums compare by that one, and roughly: the checks need memory more than the loop does.
set -u
top=$(git -C "$(dirname "$0")" rev-parse --show-toplevel) || exit 2
room=$(mktemp -d) || exit 2
trap 'rm -rf "$room"' EXIT
git clone -q "$top" "$room/clone" || exit 2
other=${2:-}
if [ -n "$other" ]; then
    git clone -q "$top" "$room/other" && git -C "$room/other" checkout -q "$other" || exit 2
fi
# Some kits keep what passed before and need a flag for a run from nothing; the others have no such flag and refuse it.
flags=()
if rt help 2>&1 | grep -q -- --anew; then flags=(--anew); fi
cat >"$room/cost.py" <<'PY'
import collections, os, re, resource, subprocess, sys, time

clone, log, rows, flags = sys.argv[1], sys.argv[2], int(sys.argv[3]), sys.argv[4:]
tick = os.sysconf("SC_CLK_TCK")
steps = {}  # (process, its start) -> (crate, kind, seconds so far)
LOOP, LOOP_MS = 500_000, 30
loops = []  # milliseconds of processor time that the loop took, every so often
weighed = 0.0  # seconds of all steps, as if it had taken LOOP_MS throughout


def time_loop():
    begun, total = time.process_time(), 0
    for i in range(LOOP):
        total += i
    loops.append(1000 * (time.process_time() - begun))


def host_ticks():
    """The ticks of all processors so far, and those among them that the host took."""
    with open("/proc/stat") as it:
        ticks = [int(word) for word in it.readline().split()[1:]]
    return sum(ticks[:8]), ticks[7]


def look():
    global weighed
    for pid in filter(str.isdigit, os.listdir("/proc")):
        try:
            with open(f"/proc/{pid}/cmdline", "rb") as it:
                words = it.read().decode(errors="replace").split("\0")
            if not words[0].endswith("/rattle") or "--crate-name" not in words:
                continue
            with open(f"/proc/{pid}/stat") as it:
                stat = it.read().rsplit(")", 1)[1].split()
            folder = os.readlink(f"/proc/{pid}/cwd")
        except (OSError, IndexError):
            continue
        crate = words[words.index("--crate-name") + 1]
        if f"rt-edit-{run.pid}-" in folder:
            kind = "edits"
        elif not folder.startswith(f"{clone}/"):
            continue
        else:
            kind = "tests" if "--test" in words else "proofs"
        seconds = sum(map(int, stat[11:15])) / tick
        before = steps.get((pid, stat[19]), (crate, kind, 0))[2]
        weighed += (seconds - before) * LOOP_MS / loops[-1]
        steps[pid, stat[19]] = crate, kind, seconds


def below(path):
    stands = {}
    with open(path) as it:
        for line in it:
            line = line.split("#")[0]
            if ":" in line:
                name, on = line.split(":", 1)
                stands[name.split()[0]] = on.split()
    return stands


begun = time.time()
host = host_ticks()
with open(log, "wb") as out:
    run = subprocess.Popen(["rt", "ci", *flags], cwd=clone, stdout=out, stderr=subprocess.STDOUT, stdin=subprocess.DEVNULL)
    while run.poll() is None:
        if time.time() - begun >= 5 * len(loops):
            time_loop()
        look()
        time.sleep(0.5)
host = [now - then for now, then in zip(host_ticks(), host)]
used = resource.getrusage(resource.RUSAGE_CHILDREN)
sums = collections.defaultdict(lambda: collections.defaultdict(float))
for crate, kind, seconds in steps.values():
    sums[crate][kind] += seconds / 60
stands = below(f"{clone}/crates.txt")
kinds = ("proofs", "tests", "edits")
print(f"{'crate':24}" + "".join(f"{it:>9}" for it in kinds) + "   processor minutes")
order = sorted(stands, key=lambda it: -sum(sums[it].values()))
for crate in order[: rows or None]:
    print(f"{crate:24}" + "".join(f"{sums[crate][it]:9.1f}" for it in kinds))
print(f"{'all, as sampled':24}" + "".join(f"{sum(sums[c][it] for c in stands):9.1f}" for it in kinds))
longest = {}


def chain(crate):
    if crate not in longest:
        under = max((chain(it) for it in stands[crate] if it in stands), default=(0, []))
        longest[crate] = under[0] + sums[crate]["proofs"], under[1] + [crate]
    return longest[crate]


paths = {}


def ways(crate):
    if crate not in paths:
        paths[crate] = 1 + sum(ways(it) for it in stands[crate] if it in stands)
    return paths[crate]


minutes, names = max(chain(it) for it in stands)
print(f"longest chain: {minutes:.1f} processor minutes of proofs, {len(names)} crates: {' '.join(names)}")
print(f"paths down through crates.txt: {sum(ways(it) for it in stands)}")
minutes = (used.ru_utime + used.ru_stime) / 60
print(f"sum: {minutes:.1f} processor minutes, {(time.time() - begun) / 60:.1f} minutes on {os.cpu_count()} processors")
sampled = sum(step[2] for step in steps.values())
loops.sort()
print(f"the loop took {loops[0]:.0f} to {loops[-1]:.0f} ms, in the middle {loops[len(loops) // 2]:.0f}; the host took {100 * host[1] / host[0]:.0f} of 100")
print(f"sum, as if the loop had taken {LOOP_MS} ms throughout: {minutes * weighed / max(sampled, 1):.1f} processor minutes")
with open(log, errors="replace") as it:
    print(it.read().rstrip("\n").split("\n")[-1])
sys.exit(run.returncode)
PY
log=$(git -C "$top" rev-parse --absolute-git-dir)/gate-cost.log
if [ -n "$other" ]; then
    python3 -I "$room/cost.py" "$room/other" "$log.other" "${1:-0}" "${flags[@]}" >"$room/other.said" 2>&1 &
fi
python3 -I "$room/cost.py" "$room/clone" "$log" "${1:-0}" "${flags[@]}" >"$room/said" 2>&1
code=$?
if [ -n "$other" ]; then
    wait
    printf '== %s\n' "$other"
    cat "$room/other.said"
    echo "the run's own lines: $log.other"
    printf '== what is committed\n'
fi
cat "$room/said"
echo "the run's own lines: $log"
exit $code
