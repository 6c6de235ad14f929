#!/usr/bin/env bash
# Pools of each width and parity are widened to 16 devices, a copy for each: behind each one every block is read, with all
# images and without as many as the pool may lose.
command -v python3 >/dev/null || { echo 'ok widths are passed over: there is no python3'; exit 0; }
TESTS=$(cd "$(dirname "$0")" && pwd)
[ ! -w /dev/shm ] || export TMPDIR=/dev/shm # many short runs: files in memory will do
. "$TESTS/build.sh"

for parity in 1 2 3; do
  found=$(python3 "$TESTS/widths.py" "$RAIDZX" "$parity") || { echo "$found"; exit 1; }
  printf 'ok pools of parity %s are widened: %s\n' "$parity" "$found"
done
