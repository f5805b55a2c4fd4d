#!/usr/bin/env bash
# Tries the script ./frang itself on a fresh clone of what is committed: the first call says at once that it builds, and answers; the later ones build nothing; files are named alike
# in each form that the program takes, from any folder; standard input is handed on, and so is the status; a changed source is built anew. It prints the seconds of the first two
# calls. Its status is 1 where something is otherwise. Use: bench/frang_script.sh. Not part of the gate.
set -u
top=$(git -C "$(dirname "$0")" rev-parse --show-toplevel) || exit 2
work=$(mktemp -d)
trap 'rm -rf "$work"' EXIT
git clone -q "$top" "$work/clone" || exit 2
clone=$work/clone
bad=0

# A fact with its test.
holds() {
  local what=$1
  shift
  if "$@"; then
    echo "ok    $what"
  else
    echo "FALSE $what"
    bad=1
  fi
}

# Runs ./frang with these words; then `said`, `told` and `status` are what it wrote to standard output and to standard error, and its status.
call() {
  "$clone/frang" "$@" >"$work/said" 2>"$work/told"
  status=$?
  said=$(cat "$work/said") told=$(cat "$work/told")
}

builds() { grep -q 'it is built without proofs' "$work/told"; }
builds_nothing() { ! builds; }
is_status() { [ "$status" = "$1" ]; }
ends_with() { [ "$(tail -n 1 "$work/said")" = "$1" ]; }
says_first() { [ "$(head -n 1 "$work/told")" = "frang: the program isn't built: it is built without proofs, in one or two minutes; ./frang build proves and builds it" ]; }

cd "$work" || exit 2
links=$clone/examples/links.frang
logs=$clone/examples/logs.image

start=$(date +%s.%N)
call run "$links"
first=$(date +%s.%N)
holds 'the first call says that it builds' says_first
holds 'and answers' ends_with '! end'
first_said=$said
call run "$links"
second=$(date +%s.%N)
holds 'the second call builds nothing' builds_nothing
holds 'and says the same' [ "$said" = "$first_said" ]
holds 'with status 0' is_status 0

cp "$links" here.frang
call run here.frang
holds 'a file of the folder one stands in' [ "$said" = "$first_said" ]
call run --segments=16 here.frang
holds 'an option before it' [ "$said" = "$first_said" ]
call run here.frang --segments 16
holds 'an option behind it' [ "$said" = "$first_said" ]
call run --segments 16 -- here.frang
holds 'a file behind --' [ "$said" = "$first_said" ]
call run /dev/stdin <"$links"
holds 'standard input' [ "$said" = "$first_said" ]

call recover "$logs" --save=a.image
call recover "$logs" --save b.image
call recover --save=c.image "$logs"
call recover --save d.image "$logs"
call recover --save e.image -- "$logs"
for file in b c d e; do
  holds "the saved image $file.image is a.image" cmp -s a.image "$file.image"
done

call run missing.frang
holds 'status 4 where there is no script' is_status 4
call
holds 'status 2 without words' is_status 2
printf '0 mkdir a\n' >bad.frang
call run bad.frang
holds 'status 1 of what is no script' is_status 1

echo >>"$clone/crates/frang_cli/src/main.rt"
call run "$links"
holds 'a changed source is built anew' builds
holds 'and it answers' [ "$said" = "$first_said" ]

awk -v a="$start" -v b="$first" -v c="$second" 'BEGIN { printf "first call %.1f s, second %.1f s\n", b - a, c - b }'
exit "$bad"
