#!/usr/bin/env bash
# Times a script of 65,536 lines on the built program: seconds, and the greatest memory in kilobytes. Not part of the gate.
set -eu
top=$(cd "$(dirname "$0")/.." && pwd)
work=$(mktemp -d)
trap 'rm -rf "$work"' EXIT
{
  echo "0 mount"
  for n in $(seq 1 65534); do echo "0 create /f$((n % 2000))"; done
  echo "0 sync"
} >"$work/script"
"$top/frang" build
/usr/bin/env time -f '%e s, %M KB' "$top/crates/frang_cli/out/frang_cli" run "$work/script" >"$work/out"
tail -n 1 "$work/out"
wc -l <"$work/out"
