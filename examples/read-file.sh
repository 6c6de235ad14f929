#!/usr/bin/env bash
# Writes a file that store-file.sh has stored to standard output: read-file.sh FIRST IMAGE..
#
# Nothing is written before all of its bytes are there, and have the SHA-256 of its head. Its name is told on standard
# error.
. "$(dirname "$0")/common.bash"
[ $# -ge 2 ] || stop 'usage: read-file.sh FIRST IMAGE..'
first=$1
images=("${@:2}")

# get_all FIRST LAST: gets these blocks.
get_all() {
  { echo 'clients 1' && calls get "$1" "$2"; } >"$work/script"
  carry_out "${images[@]}" -- run <"$work/script"
}

number FIRST "$first"
look "${images[@]}"
get_all "$first" "$first"
bytes >"$work/head"
if ! read_head "$work/head"; then
  ! grep -q ' absent$' "$work/text" || stop "there is no block $first"
  ! grep -q ' damaged$' "$work/text" || stop "block $first is damaged"
  stop "block $first is not the head of a file"
fi
[ "$kind" = file ] || stop "block $first: $name was not stored to its end, store it again"
: >"$work/copy"
for ((at = 1; at <= pieces; at += lot)); do
  get_all $((first + at)) $((first + (at + lot <= pieces ? at + lot - 1 : pieces)))
  lost=$(sed -n 's/.* get \([0-9]* \)at [0-9]* \(absent\|damaged\)$/\1\2/p' "$work/text")
  [ -z "$lost" ] || stop "$name can not be read, block $(head -n 1 <<<"$lost")"
  bytes >>"$work/copy"
done
[ "$(wc -c <"$work/copy") $(sha256sum <"$work/copy" | cut -c 1-64)" = "$length $digest" ] ||
  stop "$name: its blocks hold other bytes than were stored"
cat "$work/copy"
say "$name, $length bytes"
