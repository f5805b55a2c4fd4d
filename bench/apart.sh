#!/usr/bin/env bash
# Runs random scripts on threads in which each of up to sixteen servers works in a directory of its own, with room to spare and without deaths, stalls and ticks, and compares each line's
# answer, the tree and the status with another program's, which runs them by `--order 0`: whatever the schedule, they have to be the same. Use: bench/apart.sh OTHER [COUNT [SEED]] (1,000
# scripts from seed 1 by default). OTHER is to know `run SCRIPT --order N`, as docs/FORMATS.md has it. It takes the built program, and proves and builds it where it isn't there. Status 1
# where a script differs. Not part of the gate.
set -eu
other=$(realpath "${1:?the path of another program is missing}")
top=$(cd "$(dirname "$0")/.." && pwd)
work=$(mktemp -d)
trap 'rm -rf "$work"' EXIT
frang=$top/crates/frang_cli/out/frang_cli
[ -x "$frang" ] || "$top/frang" build
cat >"$work/apart.py" <<'END'
import random
import subprocess
import sys

frang, other, room, count, seed = sys.argv[1:4] + [int(word) for word in sys.argv[4:]]


def operation(draws, server):
    folder = f"/w{server}"
    name = draws.randrange(12)
    file, new = f"{folder}/f{name}", f"{folder}/g{draws.randrange(6)}"
    forms = [
        lambda: f"create {file}",
        lambda: f"create {file}",
        lambda: f"create {file}",
        lambda: f"unlink {file}",
        lambda: f"rename {file} {new}",
        lambda: f"write {file} {draws.randrange(2000)} {'x' * draws.randrange(1, 60)}",
        lambda: f"fill {file} {draws.randrange(500)} {draws.randrange(1, 9000)} {draws.randrange(256):02x}",
        lambda: f"truncate {file} {draws.randrange(3000)}",
        lambda: f"link {file} {new}",
        lambda: "sync",
        lambda: f"read {file} {draws.randrange(1500)} {draws.randrange(1, 300)}",
        lambda: f"list {folder}",
        lambda: f"mkdir {folder}/d{name}",
        lambda: f"stat {file}",
    ]
    return f"{server} {draws.choice(forms)()}"


def script(number):
    draws = random.Random(number)
    servers = range(draws.choice([1, 2, 4, 4, 8, 16]))
    lines = [f"{s} mount" for s in servers] + [f"{s} mkdir /w{s}" for s in servers] + ["barrier"]
    for _ in range(draws.randrange(20, 400)):
        lines.append(operation(draws, draws.choice(servers)))
        if draws.randrange(60) == 0:
            lines.append("barrier")
    return lines + ["barrier"] + [f"{s} unmount" for s in servers]


# The status, the answers by their lines, and the other lines in their order.
def told(words):
    ran = subprocess.run(words, capture_output=True, text=True)
    lines = ran.stdout.splitlines()
    answers = sorted((line for line in lines if line[:1].isdigit()), key=lambda line: int(line.split()[0]))
    return ran.returncode, answers, [line for line in lines if not line[:1].isdigit()]


differ = 0
for number in range(seed, seed + count):
    name = f"{room}/script"
    with open(name, "w") as out:
        out.write("\n".join(script(number)) + "\n")
    if told([frang, "run", name]) != told([other, "run", name, "--order", "0"]):
        print(f"differs: the script of seed {number}")
        differ += 1
print(f"{count} scripts on threads, {differ} differ")
sys.exit(1 if differ else 0)
END
python3 -I "$work/apart.py" "$frang" "$other" "$work" "${2:-1000}" "${3:-1}"
