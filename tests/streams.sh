#!/usr/bin/env bash
# The program started without a standard stream: no image is taken for it.
. "$(dirname "$0")/build.sh"

# ends NAME STATUS COMMAND..: the exit status of a command of the shell.
ends() {
  local name=$1 wanted=$2 status=0
  shift 2
  "$@" || status=$?
  [ "$status" = "$wanted" ] || { printf 'FAILED %s: status %s\n' "$name" "$status"; exit 1; }
  printf 'ok %s\n' "$name"
}

make_pool() { "$RAIDZX" disk0 disk1 disk2 -- create --parity 1 --width 3 --id 9; }
without_output() { make_pool >&-; }
without_errors() { make_pool 2>&- >/dev/null; }
without_input() { make_pool <&- >/dev/null; }
without_any() { make_pool <&- >&- 2>&-; }

images 3 256
make_pool >/dev/null
for number in 0 1 2; do cp disk$number made$number; done

# start NAME STATUS COMMAND: on fresh images, which end as those of a pool that was made with all streams.
start() {
  images 3 256
  ends "$@"
  for number in 0 1 2; do same 'leaves the images as a pool has them' disk$number made$number; done
}

start 'no output' 7 without_output
start 'no errors' 0 without_errors
start 'no input' 0 without_input
start 'no stream at all' 7 without_any
