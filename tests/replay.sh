#!/usr/bin/env bash
# The calls of several clients turn by turn, in the order that a script lists.
. "$(dirname "$0")/build.sh"

# replays NAME STATUS TEXT LINE..: a script of these lines is replayed on the images.
replays() {
  local name=$1 status=$2 text=$3
  shift 3
  printf '%s\n' "$@" >script
  INPUT=script expect "$name" "$status" "$text" "${IMAGES[@]}" -- replay
}

# whole_and_without NAME TEXT LINE..: the same text on a fresh pool, and without each of its images.
whole_and_without() {
  local name=$1 text=$2 image
  shift 2
  pool 1 3 256
  keep made
  replays "$name" 0 "$text" "$@"
  for image in "${IMAGES[@]}"; do
    back made
    rm "$image"
    replays "$name, without $image" 0 "$text" "$@"
  done
}

# A put of one sector has four turns: its first, two writes, its last.
whole_and_without 'of two puts the later last turn wins' '0 group 3 after 0
1 b.1 put 7 ok
2 a.1 put 7 ok
3 a.2 get 7 at 3 bytes 61' \
  'clients 2' 'a puthex 7 61' 'b puthex 7 62' 'a get 7' 'order abbbbaaa'

# The read begins before the free, and goes on after all else.
whole_and_without 'a read answers its block, which is freed meanwhile' '0 group 3 after 0
1 a.1 put 7 ok
2 a.2 free 7 ok
3 a.3 get 7 at 3 absent
4 b.1 get 7 at 2 bytes 61' \
  'clients 2' 'a puthex 7 61' 'b get 7' 'a free 7' 'a get 7' 'order aaaabaa'

whole_and_without 'a sync waits for another' '0 group 3 after 0
1 a.1 put 7 ok
2 group 4 after 2
3 a.2 sync group 4
4 group 5 after 4
5 b.1 sync group 5' \
  'clients 2' 'a puthex 7 61' 'a sync' 'b sync' 'order aaaaabbb'
runs 'a run reads the last group of a replay' 0 '0 group 7 after 0
1 a.1 get 7 at 1 bytes 61' 'get 7'

# Without an order each call is carried out whole, in the order of the lines: as by a `run` with one client.
pool 1 3 256
keep made
calls 'put 1 5000 1' 'put 1 6000 2' 'sum 1' sync 'free 1' 'get 1' >script
"$RAIDZX" "${IMAGES[@]}" -- run <script >text
keep after_run
back made
INPUT=script expect 'one client without an order' 0 "$(cat text)" "${IMAGES[@]}" -- replay
unchanged 'it leaves what a run leaves' after_run
# So it is where two clients make these calls.
back made
replays 'two clients without an order' 0 "0 group 3 after 0
1 a.1 put 1 ok
2 b.1 put 1 ok
3 a.2 sum 1 at 3 $(summed 6000 2)
4 group 4 after 4
5 b.2 sync group 4
6 a.3 free 1 ok
7 b.3 get 1 at 7 absent" \
  'clients 2' 'a put 1 5000 1' 'b put 1 6000 2' 'a sum 1' 'b sync' 'a free 1' 'b get 1'
unchanged 'they leave what that run leaves' after_run

pool 1 3 256
keep made
replays 'a letter of no client' 2 'script line 3' 'clients 2' 'a sync' 'order abc'
replays 'an order without letters' 2 'script line 2' 'clients 1' 'order '
unchanged 'a bad order changes nothing' made
