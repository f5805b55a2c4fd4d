#!/usr/bin/env bash
# Times three scripts on the built program, each in seconds, with the greatest memory in kilobytes: 65,536 mixed lines; 60,000 renames in a
# directory of 896 entries; and 200 times 1 MB filled and cut off. Not part of the gate.
set -eu
top=$(cd "$(dirname "$0")/.." && pwd)
work=$(mktemp -d)
trap 'rm -rf "$work"' EXIT
mixed() {
  echo "0 mount"
  local dirs=(a b c d e f g h i j k l m n o p q r s t u v w x y z)
  for d in "${dirs[@]}"; do echo "0 mkdir /$d"; done
  for n in $(seq 1 65508); do
    d=${dirs[$((n % 26))]}
    f="/$d/$((n % 89))"
    case $((n % 15)) in
      0 | 1 | 2) echo "0 create $f" ;;
      3) echo "0 write $f 0 x" ;;
      4) echo "0 fill $f 0 $((n % 9000 + 1)) 41" ;;
      5) echo "0 read $f 0 9" ;;
      6 | 7) echo "0 stat $f" ;;
      8) echo "0 rename $f /${dirs[$((n % 25))]}" ;;
      9) echo "0 rename $f /b/$((n % 97))" ;;
      10) echo "0 link $f /c/$((n % 83))" ;;
      11) echo "0 unlink $f" ;;
      12) echo "0 symlink /$d/x y" ;;
      13 | 14) echo "0 list /$d" ;;
    esac
  done
  echo "0 sync"
}
moves() {
  echo "0 mount"
  for n in $(seq 1 896); do echo "0 create /n$n"; done
  for n in $(seq 1 30000); do
    echo "0 rename /n1 /m1"
    echo "0 rename /m1 /n1"
  done
}
fills() {
  echo "0 mount"
  echo "0 create /f"
  for n in $(seq 1 200); do
    echo "0 fill /f 0 1048576 4$((n % 10))"
    echo "0 truncate /f 0"
  done
}
"$top/frang" build
for name in mixed moves fills; do
  "$name" >"$work/$name"
  /usr/bin/env time -f "$name: %e s, %U s of the processor, %M KB" "$top/crates/frang_cli/out/frang_cli" run "$work/$name" >"$work/out"
  tail -n 1 "$work/out" >/dev/null
done
