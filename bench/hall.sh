#!/usr/bin/env bash
# Times whole runs of the built program beside another program that makes the same events, in seconds of the processor (of the user and of the system), and prints for each script the
# least time of each and their ratio: 15,000, 30,000 and 60,000 renames by one server; 10,000 renames and a crash; four servers, each in a directory of its own, as a soak has them; and
# sixteen servers with 4,000 lines each. Both make the events by `--order 0`, by turns, and have to say the same. Then the same scripts on threads, beside one worker's time.
# Use: bench/hall.sh OTHER [TURNS [NAME..]] (7 turns by default; NAME: of these scripts alone). OTHER is to know `run SCRIPT --order N`, as docs/FORMATS.md has it. Not part of the gate.
set -eu
other=$(realpath "${1:?the path of another program is missing}")
turns=${2:-7}
shift $(($# < 2 ? $# : 2))
top=$(cd "$(dirname "$0")/.." && pwd)
work=$(mktemp -d)
trap 'rm -rf "$work"' EXIT

# So many renames of one file to and fro.
renames() {
  echo "0 mount"
  echo "0 create /a0"
  awk -v count="$1" 'BEGIN { for (n = 0; n < count; n++) print "0 rename /a" n % 2 " /a" 1 - n % 2 }'
}
crash() {
  renames 10000
  echo "0 crash"
}
# Four servers, 4,000 lines drawn by the generator x -> 6364136223846793005 x + 1442695040888963407 mod 2^64, of which a draw is x / 2^33.
soak() {
  local x=7 i r s f of
  for s in 0 1 2 3; do echo "$s mount"; done
  for s in 0 1 2 3; do echo "$s mkdir /w$s"; done
  echo "barrier"
  for ((i = 0; i < 4000; i++)); do
    x=$((x * 6364136223846793005 + 1442695040888963407))
    r=$(((x >> 33) & 0x7fffffff))
    s=$((i % 4)) f=$((r / 8 % 40))
    of="/w$s/f$f"
    case $((r % 8)) in
      0 | 1) echo "$s create $of" ;;
      2) echo "$s unlink $of" ;;
      3) echo "$s rename $of /w$s/g$f" ;;
      4) printf '%d fill %s 0 %d %02x\n' "$s" "$of" $((1 + r / 512 % 9000)) "$f" ;;
      5) echo "$s truncate $of 0" ;;
      6) echo "$s link $of /w$s/h$f" ;;
      7) echo "$s sync" ;;
    esac
  done
  echo "barrier"
  for s in 0 1 2 3; do echo "$s unmount"; done
}
# Sixteen servers, each in a directory of its own, line by line in turn; short names, since a script has at most 1,048,576 bytes.
sixteen() {
  awk 'BEGIN {
    for (s = 0; s < 16; s++) print s " mount"
    for (s = 0; s < 16; s++) print s " mkdir /" substr("abcdefghijklmnop", s + 1, 1)
    for (n = 0; n < 3998; n++) for (s = 0; s < 16; s++) {
      f = "/" substr("abcdefghijklmnop", s + 1, 1) "/" int(n / 4) % 50
      if (n % 4 == 0) print s " create " f
      else if (n % 4 == 1) print s " write " f " 0 x"
      else if (n % 4 == 2) print s " stat " f
      else print s " unlink " f
    }
  }'
}
script() {
  case $1 in
    renames_15000 | renames_30000 | renames_60000) renames "${1#renames_}" ;;
    crash | soak | sixteen) "$1" ;;
    *) echo "bench/hall.sh: there is no script $1" >&2 && exit 2 ;;
  esac
}

# Runs a program on a script, and notes the seconds of the processor if they are the least so far.
timed() {
  local least=$1 said=$2 spent
  shift 2
  TIMEFORMAT='%U %S'
  spent=$({ time "$@" >"$said" 2>/dev/null; } 2>&1) || { echo "bench/hall.sh: $* ended otherwise" >&2 && exit 1; }
  spent=$(awk -v t="$spent" 'BEGIN { split(t, p, " "); print p[1] + p[2] }')
  [ ! -f "$least" ] || spent=$(awk -v a="$spent" -v b="$(cat "$least")" 'BEGIN { print a < b ? a : b }')
  echo "$spent" >"$least"
}
ratio() { awk -v a="$(cat "$1")" -v b="$(cat "$2")" 'BEGIN { printf "%.2f\n", a / (b > 0 ? b : 0.001) }'; }

"$top/frang" build
frang=$top/crates/frang_cli/out/frang_cli
names=("$@")
[ ${#names[@]} -gt 0 ] || names=(renames_15000 renames_30000 renames_60000 crash soak sixteen)
for name in "${names[@]}"; do
  script "$name" >"$work/$name"
  for ((turn = 0; turn < turns; turn++)); do
    timed "$work/$name.ours" "$work/said" "$frang" run "$work/$name" --order 0
    timed "$work/$name.other" "$work/said.other" "$other" run "$work/$name" --order 0
    cmp "$work/said" "$work/said.other"
    timed "$work/$name.threads" "$work/said" "$frang" run "$work/$name"
  done
  echo "$name: by order $(cat "$work/$name.ours") s, the other $(cat "$work/$name.other") s, ratio $(ratio "$work/$name.ours" "$work/$name.other"); on threads $(cat "$work/$name.threads") s, ratio to one worker $(ratio "$work/$name.threads" "$work/$name.ours")"
done
