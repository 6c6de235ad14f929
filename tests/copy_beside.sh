#!/usr/bin/env bash
# A client copies while another one puts, reads, frees and syncs: what they are answered, and what is there afterwards.
[ ! -w /dev/shm ] || export TMPDIR=/dev/shm # many short runs: files in memory will do
. "$(dirname "$0")/build.sh"

# Other clients meanwhile. The one copies, the other puts, reads, frees and syncs; what it has to be answered follows
# from its calls alone.
lengths=(1 512 700 1536 3000 5000)
declare -A SUM HELD
for length in "${lengths[@]}"; do
  for seed in 0 1 2; do SUM[$length $seed]=$(summed "$length" $seed); done
done
# other_calls ROUNDS: such calls of client b into `lines`, its answers into `told_b`, and what it has synced at last
# into `wanted`. A sync's group and a read's place in the journal are left out.
other_calls() {
  local round id length seed other number=0
  tells_b() {
    number=$((number + 1))
    echo "b $1" >>lines
    echo "b.$number $2" >>told_b
  }
  : >lines
  : >told_b
  for id in 0 1 2 3 4; do HELD[$id]=absent; done
  for ((round = 1; round <= $1; round++)); do
    id=$((round % 5)) length=${lengths[round * 5 % 6]} seed=$((round % 3)) other=$((round * 3 % 5))
    tells_b "put $id $length $seed" "put $id ok"
    HELD[$id]=${SUM[$length $seed]}
    tells_b "sum $other" "sum $other ${HELD[$other]}"
    if [ $((round % 3)) = 0 ]; then
      tells_b "free $other" "free $other $([ "${HELD[$other]}" = absent ] && echo absent || echo ok)"
      HELD[$other]=absent
    fi
    [ $((round % 4)) != 1 ] || tells_b sync 'sync group'
    tells_b "sum $id" "sum $id ${HELD[$id]}"
  done
  tells_b sync 'sync group'
  for id in 0 1 2 3 4; do echo "sum $id ${HELD[$id]}"; done >wanted
}
calls 'sum 0' 'sum 1' 'sum 2' 'sum 3' 'sum 4' >reads
# answered_b: the last run has answered b as it has to be.
answered_b() {
  sed -n 's/^[0-9]* \(b\..*\)/\1/p' found | sed 's/\( sync group\) .*/\1/; s/\( sum [0-9]*\) at [0-9]*/\1/' >found_b
  cmp -s found_b told_b || failed "another client's answers" "$(diff found_b told_b)"
}
# beside NAME ORDER LINE..: a script of these lines, of b's, and of this order is replayed. Its journal is legal, b is
# answered as it has to be, and the others as `told_others` tells.
beside() {
  local name=$1 order=$2
  shift 2
  { echo 'clients 3'; printf '%s\n' "$@"; cat lines; [ -z "$order" ] || echo "order $order"; } >script
  "$RAIDZX" "${IMAGES[@]}" -- replay <script >found 2>told || failed "$name" "$(tail -n 3 found)"
  legal found >why || failed "$name" "$(cat why)"
  answered_b
  sed -n 's/^[0-9]* \([ac]\..*\)/\1/p' found | sort | cmp -s - told_others || failed "$name" "$(grep ' [ac]\.' found)"
}
# is_wide WIDTH: a status tells this width, and no expansion.
is_wide() {
  local found
  found=$("$RAIDZX" "${IMAGES[@]}" -- status | sed -n 2p)
  [ "$found" = "width $1" ] || failed 'a width' "$found"
}
# orders: how the clients take turns. A copy from three images to four has some 720 turns.
orders=('' "$(turns ab 900)" "$(turns aab 500)" "$(turns abbbb 300)" "$(turns aaaaaaaaab 120)" "$(turns b 300)"
  "b$(turns a 100)bbb$(turns a 100)bbbbb$(turns a 200)$(turns bbba 100)" "$(turns abcb 500)" "$(turns acccb 300)")
other_calls 60
pool_and 1
calls 'put 90 3000 1' 'put 91 30000 2' sync attach >script
"$RAIDZX" "${IMAGES[@]}" -- run <script >/dev/null
keep attached
printf '%s\n' 'a.1 copy done width 4' >told_others
for number in "${!orders[@]}"; do
  back attached
  beside "a copy beside order $number" "${orders[number]}" 'a copy'
  is_wide 4
  without_each "the blocks of a client beside a copy, in order $number"
done
printf '%s\n' 'a.1 copy done width 4' 'c.1 copy done width 4' >told_others
for number in 0 1 7 8; do
  back attached
  beside "two copies beside order $number" "${orders[number]}" 'a copy' 'c copy'
  is_wide 4
  without_each "the blocks of a client beside two copies, in order $number"
done

# replays NAME TEXT LINE..: a script of these lines is replayed on the images as they were kept in FROM. Standard error
# has the lines TOLD.
replays() {
  local name=$1 text=$2
  shift 2
  back $FROM
  printf '%s\n' "$@" >script
  INPUT=script expect "$name" 0 "$text" "${IMAGES[@]}" -- replay
  tells "what is told: $name" "${TOLD[@]}"
}
# While the fill has sectors 0 to 127, a block is put behind them, and synced. It lies there when all is copied.
FROM=attached
TOLD=('raidzx: no disk was attached, as the copy onto 4 disks is not done: copy, then attach')
replays 'a put and a sync beside the fill' "0 group 7 after 0
1 b.1 put 1 ok
2 group 8 after 2
3 b.2 sync group 8
4 b.3 get 1 at 4 bytes 61
5 b.4 attach expanding to 4
$(groups 9 12 6)
10 a.1 copy done width 4" 'clients 2' 'a copy' 'b puthex 1 61' 'b sync' 'b get 1' 'b attach' "order a$(turns b 40)"
TOLD=()
bytes 61 | filled 512 >letter
WIDTH=4
lies 128 letter letter
replays 'a read waits for the fill' "0 group 7 after 0
$(groups 8 11 1)
5 a.1 copy done width 4
6 b.1 sum 90 at 6 $(summed 3000 1)" 'clients 2' 'a copy' 'b sum 90' "order a$(turns b 40)"
replays 'the fill waits for a read' "0 group 7 after 0
1 b.1 sum 90 at 1 $(summed 3000 1)
$(groups 8 11 2)
6 a.1 copy done width 4" 'clients 2' 'a copy' 'b sum 90' "order b$(turns a 40)"

# Blocks at 0 to 1, 2 to 125, 126 to 129 and 130 to 131. A job has a first turn and a last one and two for each sector,
# the fill and the drain 258 and the first chunk of 39 sectors 80; a commit of four images and a page of one sector 18.
pool_and 1
calls 'puthex 1 61' 'put 2 41984 1' 'put 3 1024 2' 'puthex 4 64' sync attach >script
"$RAIDZX" "${IMAGES[@]}" -- run <script >/dev/null
keep held
FROM=held
third=$(summed 1024 2)
# A read that begins just before a commit keeps it from moving the mark across its block: a group more is made.
replays 'a read holds what the fill has copied' "0 group 7 after 0
1 b.1 get 1 at 1 bytes 61
2 group 8 after 1
$(groups 9 12 3)
7 a.1 copy done width 4" 'clients 2' 'a copy' 'b get 1' "order $(turns a 258)b"
replays 'a read holds what the drain has copied' "0 group 7 after 0
1 group 8 after 1
2 b.1 get 1 at 2 bytes 61
3 group 9 after 2
$(groups 10 12 4)
7 a.1 copy done width 4" 'clients 2' 'a copy' 'b get 1' "order $(turns a $((258 + 18 + 258)))b"
chunk=$((258 + 18 + 258 + 18 + 80))
replays 'a read holds a block across the mark' "0 group 7 after 0
$(groups 8 9 1)
3 b.1 sum 3 at 3 $third
4 group 10 after 3
$(groups 11 12 5)
7 a.1 copy done width 4" 'clients 2' 'a copy' 'b sum 3' "order $(turns a $chunk)b"
replays 'a read holds a block behind the mark' "0 group 7 after 0
$(groups 8 9 1)
3 b.1 get 4 at 3 bytes 64
4 group 10 after 3
$(groups 11 12 5)
7 a.1 copy done width 4" 'clients 2' 'a copy' 'b get 4' "order $(turns a $chunk)b"
# The commit of another's sync takes the place of the copy's.
replays 'a sync behind the fill' "0 group 7 after 0
1 group 8 after 1
2 b.1 sync group 8
$(groups 9 11 3)
6 a.1 copy done width 4" 'clients 2' 'a copy' 'b sync' "order $(turns a 258)$(turns b 20)"
replays "a sync behind the last chunk ends the expansion" "0 group 7 after 0
$(groups 8 10 1)
4 group 11 after 4
5 b.1 sync group 11
6 a.1 copy done width 4" 'clients 2' 'a copy' 'b sync' "order $(turns a $((chunk + 18 + 52)))$(turns b 20)"
shows 4 '0:3 13:4' none 4

command -v strace >/dev/null || { echo 'skipped failing calls: there is no strace'; exit 0; }
strace -o /dev/null true 2>/dev/null || { echo 'skipped failing calls: strace may not trace here'; exit 0; }

# An image fails while another client goes on: its answers are as they were. For each order of turns the number of the
# call that fails, as what a commit hands over differs. Of reads those of several sectors fail too, and each of a single
# one counts.
other_calls 40
calls 'sum 0' 'sum 1' 'sum 2' 'sum 3' 'sum 4' >reads
orders=("$(turns ab 900)" "$(turns aaab 400)" "$(turns abbbb 300)")
for row in '0 pwrite64 36 31 24' '1 pwrite64 86 83 56' '2 fdatasync 9 9 9' '3 pwrite64 34 23 21' '3 pread64 120 120 120' \
  '0 pread64 200 200 200'; do
  set -- $row
  for number in 0 1 2; do
    whens=($3 $4 $5) when=${whens[number]}
    { echo 'clients 3'; echo 'a copy'; cat lines; echo "order ${orders[number]}"; } >script
    disturbed=disturbed
    if [ "$2" = pread64 ]; then
      disturbed=disturbed_singly
      back attached
      INPUT=script singly disk$1 "${IMAGES[@]}" -- replay
    fi
    back attached
    INPUT=script $disturbed disk$1 "$2:error=EIO:when=$when" "${IMAGES[@]}" -- replay
    [ "$STATUS" != none ] && grep -q INJECTED trace || failed "disk$1, call $when of $2" 'no call was made to fail'
    legal found >why || failed "disk$1, call $when of $2" "$(cat why)"
    answered_b
    grep -Eq " a\.1 copy (paused $1|done width 4)$" found || failed "$row" "$(grep ' a\.' found)"
    reads_wanted "disk$1, call $when of $2, and later"
    rm disk$1
    reads_wanted "disk$1, call $when of $2, and without it"
  done
done
echo 'ok another client goes on where an image fails in a copy'
