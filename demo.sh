#!/usr/bin/env bash
# Shows the program at work in about a minute: recodes the stored blob of the integers 1, 2, 3, 4 into out/demo. `rt try`
# compiles the program with run-time checks and proves nothing; `make program` proves it.
set -eu
top=$(cd "$(dirname "$0")" && pwd)
work=$top/out/demo
mkdir -p "$work"
cp "$top"/crates/vxcat/data/* "$work"
cd "$top/crates/vxcat"
if ! rt try -- recode "$work/t" "$work/b" 4 "$work/i" "$work/o" "$work/j" >"$work/try.log" 2>&1; then
  cat "$work/try.log" >&2
  exit 1
fi
# What follows the listing is rt's own account of how the run ended.
sed '/^checked: ended/,$d' "$work/try.log"
echo "(run by rt try: compiled with run-time checks, not proved; 'make program' proves it)"
