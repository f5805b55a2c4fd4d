#!/usr/bin/env bash
# Times `read_script` on scripts of 65,536 lines and of 1,048,576 bytes: seconds, and the greatest memory in kilobytes. It proves and
# builds a program of its own over a copy of the crates, which takes some minutes. Not part of the gate.
set -eu
top=$(cd "$(dirname "$0")/.." && pwd)
work=$(mktemp -d)
trap 'rm -rf "$work"' EXIT
mkdir "$work/crates"
for crate in frang_base tree_definitions script_definitions sector_bytes frang_outside reply_text script_lang; do
  cp -a "$top/crates/$crate" "$work/crates/"
  grep "^$crate:" "$top/crates.txt" >>"$work/crates.txt"
done
mkdir -p "$work/crates/reading/src"
cat >"$work/crates/reading/src/main.rt" <<'END'
//! Reads a script from a file and prints how many of its lines ask something.
#![tactic(auto)]

use frang_outside::{DirFiles, Files};
use script_lang::read_script;
use std::env;
use std::process::ExitCode;

const SCRIPT_LIMIT: u64 = 1048576;

fn main(rt: HostRuntime) -> anyhow::Result<ExitCode> {
    let alloc = rt.alloc();
    let mut files = DirFiles::new(rt.clone()?);
    for name in env::args(&rt)?.skip(1) {
        let Ok(bytes) = files.read(alloc, &name, SCRIPT_LIMIT) else {
            return Ok(ExitCode::from(4));
        };
        let Ok(script) = read_script(alloc, &bytes) else {
            return Ok(ExitCode::from(1));
        };
        let lines = script.len();
        println!(rt; "{lines}")?;
    }
    Ok(ExitCode::from(0))
}
END
cp "$top/HANDLES" "$work/"
echo "reading: frang_base frang_outside script_definitions script_lang anyhow" >>"$work/crates.txt"
{
  echo "0 mount"
  for n in $(seq 1 65534); do echo "0 create /f$((n % 2000))"; done
  echo "0 sync"
} >"$work/lines"
# 1,024 lines of 1,024 bytes: each renames along a path of 496 bytes to another
name=$(printf '/%063d' 0 | tr 0 a)
path=$(for n in 1 2 3 4 5 6 7; do printf %s "$name"; done)/$(printf '%046d' 0 | tr 0 b)
for n in $(seq 1 1024); do echo "0 rename $path ${path}/1234567890123456789012"; done >"$work/paths"
# one line, of words without an end
{ printf '0 mount'; head -c 1048569 /dev/zero | tr '\0' ' '; } >"$work/blanks"
(cd "$work/crates/reading" && rt run -- "$work/lines") >"$work/log" 2>&1 || { tail -n 20 "$work/log"; exit 1; }
for script in lines paths blanks; do
  wc -c <"$work/$script"
  /usr/bin/env time -f "$script: %e s, %M KB" "$work/crates/reading/out/reading" "$work/$script"
done
