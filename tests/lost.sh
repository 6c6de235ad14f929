#!/usr/bin/env bash
# Runs of several clients, some of which widen their pool, are killed at drawn moments; then as many images as the pool may
# lose are taken away, and each client's blocks are those after some of its calls.
command -v python3 >/dev/null || { echo 'ok lost images are passed over: there is no python3'; exit 0; }
TESTS=$(cd "$(dirname "$0")" && pwd)
[ ! -w /dev/shm ] || export TMPDIR=/dev/shm # many short runs: files in memory will do
. "$TESTS/build.sh"

found=$(python3 "$TESTS/lost.py" "$RAIDZX" "${ROUNDS:-60}" "${SEED:-1}") || { echo "$found"; exit 1; }
printf 'ok pools of killed runs without some images: %s\n' "$found"
