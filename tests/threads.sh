#!/usr/bin/env bash
# The clients of a run, each in a thread of its own: whoever's turns come when, each client is answered what a replay of
# the script answers it, where their ids are their own; and the same is read afterwards. Nothing here is timed.
. "$(dirname "$0")/build.sh"

LETTERS=(a b c d e f g h)
lengths=(1 512 700 1536 3000 5000)
# ids CLIENT: the ids of the client of this number, from 0.
ids() { seq $((10 * $1)) $((10 * $1 + 3)); }
# client_calls CLIENT STEP ROUND: some calls of a client on its ids. They follow from the three numbers.
client_calls() {
  local first=$((10 * $1)) id other
  id=$((first + ($2 * 7 + $3) % 4))
  other=$((first + ($2 * 3 + $3 + 1) % 4))
  echo "put $id ${lengths[($2 * 5 + $1 + $3) % 6]} $(($2 * 3 + $1 * 11 + $3 * 17))"
  echo "get $other"
  [ $((($2 + $1) % 3)) != 0 ] || echo "free $other"
  [ $((($2 + $1) % 4)) != 0 ] || echo sync
  echo "sum $id"
  [ $((($2 + $1) % 5)) != 0 ] || printf 'puthex %s %02x%02x\n' $other "$2" "$3"
  echo "sum $other"
}
# clients_calls FIRST LAST STEPS ROUND: so many steps of each of these clients, and a sync of each behind all.
clients_calls() {
  local client step
  for ((step = 1; step <= $3; step++)); do
    for ((client = $1; client <= $2; client++)); do
      client_calls $client $step "$4" | sed "s/^/${LETTERS[client]} /"
    done
  done
  for ((client = $1; client <= $2; client++)); do echo "${LETTERS[client]} sync"; done
}
# reads_of CLIENT..: the script `reads` sums the ids of these clients.
reads_of() {
  local client sums
  mapfile -t sums < <(for client; do ids "$client"; done | sed 's/^/sum /')
  calls "${sums[@]}" >reads
}

# answered FILE LETTER: what a journal answers a client, without the places in the journal and the numbers of groups.
answered() {
  sed -n "s/^[0-9]* \($2\.[0-9]* .*\)/\1/p" "$1" | sed 's/ at [0-9]* / /; s/ group [0-9]*$/ group/'
}
# beside NAME LETTER..: `script` is run on the images, with the OPTIONS that there are, and replayed on a copy of them. The
# run's journal is legal, these clients are answered alike in both, and what `reads` asks for is alike afterwards. The
# images are left as the run and these reads have them, and the blocks stand in `wanted`.
OPTIONS=()
beside() {
  local name=$1 letter
  shift
  keep start
  "$RAIDZX" "${IMAGES[@]}" -- replay <script >replayed 2>told || failed "$name, replayed" "$(tail -n 3 replayed)"
  "$RAIDZX" "${IMAGES[@]}" -- replay <reads | answers >wanted
  [ "$(wc -l <wanted)" = "$(grep -c sum reads)" ] || failed "$name, replayed" "$(cat wanted)"
  back start
  "$RAIDZX" "${IMAGES[@]}" -- run "${OPTIONS[@]}" <script >found 2>told || failed "$name" "$(tail -n 3 found)"
  ! grep -v '^raidzx: no disk was attached' told || failed "$name" "$(cat told)"
  legal found >why || failed "$name" "$(cat why)"
  for letter; do
    answered replayed "$letter" >wanted_of_one
    answered found "$letter" >found_of_one
    [ -s wanted_of_one ] || failed "$name, client $letter" 'no answers'
    cmp -s found_of_one wanted_of_one || failed "$name, client $letter" "$(diff found_of_one wanted_of_one)"
  done
  reads_wanted "$name, read afterwards"
  printf 'ok %s\n' "$name"
}

# Eight clients. There is room for all that they put, also if nothing were given back: of 2,496 sectors 112 blocks take
# 16 at most, and 22 take two.
reads_of 0 1 2 3 4 5 6 7
for round in 1 2 3 4 5; do
  pool 1 3 1024
  { echo 'clients 8' && clients_calls 0 7 14 $round; } >script
  beside "eight clients, round $round" "${LETTERS[@]}"
  grep -q ' length ' wanted || failed "eight clients, round $round" 'no block is left'
done
without_each 'the blocks of eight clients'

# The first of three attaches an image and copies the pool to it, while the others go on.
reads_of 1 2
for round in 1 2 3; do
  pool 1 3 1024
  fresh disk3 1024
  IMAGES+=(disk3)
  { printf '%s\n' 'clients 3' 'a attach' 'a copy' && clients_calls 1 2 30 $round; } >script
  beside "a copy beside two clients, round $round" a b c
  [ "$(answered found a)" = 'a.1 attach width 4 group
a.2 copy done width 4' ] || failed 'a copy beside two clients' "$(answered found a)"
  [ "$("$RAIDZX" "${IMAGES[@]}" -- status | sed -n 2p)" = 'width 4' ] || failed 'a copy beside two clients' 'not wider'
done
without_each 'the blocks of two clients beside a copy'

# widened NAME WIDTH LINE..: the client that widens the pool was answered so, and the pool has this width.
widened() {
  local name=$1 width=$2
  shift 2
  [ "$(answered found x)" = "$(printf '%s\n' "$@")" ] || failed "$name" "$(cat found)"
  [ "$("$RAIDZX" "${IMAGES[@]}" -- status | sed -n 2p)" = "width $width" ] || failed "$name" 'another width'
  printf 'ok %s\n' "$name, and it is so wide"
}

# A run attaches an image and copies the pool to it by itself, while three clients go on.
reads_of 0 1 2
OPTIONS=(--attach)
for round in 1 2 3; do
  pool 1 3 1024
  fresh disk3 1024
  IMAGES+=(disk3)
  { echo 'clients 3' && clients_calls 0 2 30 $round; } >script
  beside "a run that widens its pool, round $round" a b c
  widened "a run that widens its pool, round $round" 4 'x.1 attach width 4 group' 'x.2 copy done width 4'
done
without_each 'the blocks of a run that widens its pool'

# It does so beside an only client, and where no client calls.
pool 2 4 1024
fresh disk4 1024
IMAGES+=(disk4)
reads_of 0
{ echo 'clients 1' && clients_calls 0 0 12 1; } >script
beside 'an only client beside the one that widens the pool' a
widened 'an only client beside the one that widens the pool' 5 'x.1 attach width 5 group' 'x.2 copy done width 5'
fresh disk5 1024
IMAGES+=(disk5)
echo 'clients 1' >script
beside 'a run without calls'
widened 'a run without calls' 6 'x.1 attach width 6 group' 'x.2 copy done width 6'

# What keeps it from that is told as of any attach, and the others go on.
{ echo 'clients 1' && clients_calls 0 0 4 2; } >script
beside 'no image is left to attach' a
widened 'no image is left to attach' 6 'x.1 attach no device 6' 'x.2 copy done width 6'
OPTIONS=()

# An expansion that stands as the pool is opened goes on by itself; where another device is asked for it has to end first.
reads_of 0 1
for option in '' --attach; do
  pool 1 3 1024
  fresh disk3 1024
  IMAGES+=(disk3)
  { echo 'clients 1' && clients_calls 0 0 6 1 && echo 'a attach'; } >script
  "$RAIDZX" "${IMAGES[@]}" -- replay <script >/dev/null
  { echo 'clients 2' && clients_calls 0 1 20 2; } >script
  OPTIONS=($option)
  beside "an expansion goes on in a run $option" a b
  lines=('x.1 copy done width 4')
  [ -z "$option" ] || lines=('x.1 attach expanding to 4' 'x.2 copy done width 4')
  widened "an expansion goes on in a run $option" 4 "${lines[@]}"
done
without_each 'the blocks of a run that goes on with an expansion'

# The program is killed while the pool is widened. Each block that was synced before is there, also without one image, and
# the next run goes on with what stands.
pool 1 3 1024
fresh disk3 1024
IMAGES+=(disk3)
calls 'put 1 1536 1' 'put 2 5000 2' 'put 3 20000 3' sync >script
"$RAIDZX" "${IMAGES[@]}" -- run <script >/dev/null
keep filled
calls 'sum 1' 'sum 2' 'sum 3' >reads
"$RAIDZX" "${IMAGES[@]}" -- run <reads | answers >wanted
{ echo 'clients 3' && clients_calls 1 2 6 3 && printf '%s\n' 'a sum 1' 'a sum 2' 'a sum 3'; } >script
for when in 3 4 5 6 7 8 9 10 11 12; do
  back filled
  { INPUT=script disturbed disk3 "fdatasync:signal=KILL:when=$when" "${IMAGES[@]}" -- run --attach; } 2>/dev/null
  [ $STATUS != 0 ] || failed "killed at sync $when" "$(cat found)"
  without_each "the blocks behind a kill at sync $when"
  "$RAIDZX" "${IMAGES[@]}" -- run <reads >found 2>told || failed "a run behind a kill at sync $when" "$(cat found)"
  answered found a | sed 's/^a[.][0-9]* //' >again
  cmp -s again <(sed 's/ at [0-9]*//' wanted) || failed "a run behind a kill at sync $when" "$(cat found)"
done
echo 'ok a pool that is widened as the program is killed'
