#!/usr/bin/env bash
# An image is attached to a pool of three: what is answered and what stands then, which images a later run may lack, and
# what each refusal leaves alone. `stops.sh` stops such a run at each of its calls.
[ ! -w /dev/shm ] || export TMPDIR=/dev/shm # many short runs: files in memory will do
. "$(dirname "$0")/build.sh"
COMMAND=replay

missing='No such file or directory (os error 2)'
first=$(summed 1536 0) second=$(summed 5000 2)
all=(disk0 disk1 disk2 disk3)
old=(disk0 disk1 disk2)

# old_and_one: a fresh pool of three images, and a fourth image that shows none.
old_and_one() {
  pool 1 3 256
  fresh disk3 256
  IMAGES=("${all[@]}")
}

# stands WIDTH OUT BLOCKS: what a status tells of the images that runs name, behind its first line.
stands() {
  local found
  found=$("$RAIDZX" "${IMAGES[@]}" -- status 2>told | tail -n +2) || failed 'a status' "$found"
  [ "$found" = "$(printf 'width %s\nbirths 0:3\nout %s\nblocks %s' "$@")" ] || failed 'a status' "$found"
}
widened='3 to 4 mark 0 state none'

# not_attached PLACE POOL: what is told of an image that was taken.
not_attached() {
  echo "raidzx: disk3: not attached, as it shows image $1 of pool $2; nothing was written to it"
}

# What is told of an attach that brought no image.
expanding='raidzx: no disk was attached, as the copy onto 4 disks is not done: copy, then attach'
new_failed="raidzx: disk3: not attached: a call on it failed, or it is shorter than the pool's; no image of the pool is out for it"
is_out() { echo "raidzx: no disk was attached, as disk $1 is out: a pool grows while all its disks are in use"; }
behind() {
  echo "raidzx: disk$1: its last group is $2, the pool's is $3: it missed what was synced since, and is out for good"
}

# An attach that goes well.
old_and_one
runs 'an image is attached' 0 '0 group 3 after 0
1 a.1 put 1 ok
2 group 4 after 2
3 a.2 sync group 4
4 group 5 after 4
5 a.3 attach width 4 group 5' 'put 1 1536 0' sync attach
tells 'nothing is told'
expect 'a status tells that the pool is widened' 0 "pool 9 parity 1 rows 64 group 5
width $widened
births 0:3
out none
blocks 1" "${all[@]}" -- status

# What stands on the images: the attach's group in slot 5 and index area 1 of each. The new one holds nothing else.
pattern 1536 0 >block
bytes "0000000000000001 0000000000000000 00000600 0000000000000004 $(digest block) 00000000" | filled 512 >page
for device in 0 1 2 3; do
  bytes "525a585055423031 00000001 0000000$device 0000000000000009 0000000000000005
    00000001 00000003 00000004 00000001 0000000000000040 0000000000000000 0000000000000000
    00000001 00000001 $(digest page) 0000000000000000 00000003" | filled 480 >head
  { cat head; bytes "$(digest head)"; } >uberblock
  sectors disk$device 5 1 | cmp -s - uberblock || failed "the uberblock of the attach's group" disk$device
  sectors disk$device 128 1 | cmp -s - page || failed "the index page of the attach's group" disk$device
done
echo "ok the attach's group stands on all four images"
unused disk3 0 5
unused disk3 6 122
unused disk3 129 127
echo 'ok the new image holds nothing else'
keep attached

# The next run has all four. A later one may lack any one of them.
runs 'the next run puts and syncs' 0 "0 group 7 after 0
1 a.1 sum 1 at 1 $first
2 a.2 put 2 ok
3 group 8 after 3
4 a.3 sync group 8
5 a.4 sum 2 at 5 $second
6 a.5 attach expanding to 4" 'sum 1' 'put 2 5000 2' sync 'sum 2' attach
tells 'why no other is attached' "$expanding"
keep later
both="0 group 10 after 0
1 a.1 sum 1 at 1 $first
2 a.2 sum 2 at 2 $second"
for number in 0 1 2 3; do
  back later
  rm disk$number
  runs "both blocks without disk$number" 0 "$both" 'sum 1' 'sum 2'
done

# An image is lost right behind the attach. It is not taken back, and a further one is one too many.
for number in 0 1 2 3; do
  back attached
  rm disk$number
  runs "behind the attach without disk$number" 0 "0 group 7 after 0
1 a.1 sum 1 at 1 $first
2 a.2 put 2 ok
3 group 8 after 3
4 a.3 sync group 8
5 a.4 sum 2 at 5 $second
6 a.5 attach expanding to 4" 'sum 1' 'put 2 5000 2' sync 'sum 2' attach
  tells 'it is told' "raidzx: disk$number: cannot be opened: $missing; its disk counts as failed" "$expanding" \
    "raidzx: disk$number: out of the pool for good"
  stands "$widened" $number 2
  keep without
  for other in 0 1 2 3; do
    back without
    if [ $other = $number ]; then
      cp attached/disk$number .
      runs "disk$number is there again" 0 "$both" 'sum 1' 'sum 2'
      tells 'it stays out' "$(behind $number 5 8)" "raidzx: disk$number: out of the pool for good"
      same 'and is not written' disk$number attached/disk$number
    else
      rm disk$other
      lost=$((number < other ? number : other))
      runs "without disk$number and disk$other" 4 "too many failed $lost $((number + other - lost))" 'sum 1'
    fi
  done
done

# Where no block stands on the new image yet, a fresh one in its place is taken, and another pool's is out.
back attached
fresh disk3 256
runs 'a fresh image in the place of the new one' 0 "0 group 7 after 0
1 a.1 sum 1 at 1 $first" 'sum 1'
tells 'nothing is told'
stands "$widened" none 1
images 4 256
"$RAIDZX" "${IMAGES[@]}" -- create --parity 1 --width 4 --id 5 >/dev/null
mv disk3 other
back attached
cp other disk3
runs "another pool's image in the place of the new one" 0 "0 group 7 after 0
1 a.1 sum 1 at 1 $first" 'sum 1'
tells 'it is out' 'raidzx: disk3: shows image 3 of pool 5, and is named as image 3 of pool 9' \
  'raidzx: disk3: out of the pool for good'
same 'and is left alone' disk3 other
stands "$widened" 3 1

# The new image shows the attach's group alone, as a stop may leave it. A run without it widens no pool, and later it is
# told to be taken, until its ring is cleared.
back attached
for number in 0 1 2; do fresh zeros 1 && dd if=zeros of=disk$number bs=512 seek=5 conv=notrunc status=none; done
IMAGES=("${old[@]}")
runs 'a run over the old images alone' 0 "0 group 6 after 0
1 a.1 sum 1 at 1 $first" 'sum 1'
tells 'nothing is told'
IMAGES=("${all[@]}")
runs 'the new one is taken' 0 '0 group 8 after 0
1 a.1 attach taken 5' attach
tells 'what it shows is told' "$(not_attached 3 9)"
same 'it is left alone' disk3 attached/disk3
stands 3 none 1
dd if=/dev/zero of=disk3 bs=512 count=32 conv=notrunc status=none
runs 'once its ring is cleared it is attached' 0 "0 group 10 after 0
1 group 11 after 1
2 a.1 attach width 4 group 11
3 a.2 sum 1 at 3 $first" attach 'sum 1'
stands "$widened" none 1

# Refusals.
works='1 a.1 put 1 ok
2 a.2 attach REFUSED
3 a.3 put 2 ok
4 group 4 after 4
5 a.4 sync group 4
6 a.5 get 2 at 6 bytes 62'
# refused ANSWER [LINE..]: `attach` has this answer, and these lines are told. None of the old images goes out: they go
# on, and a later run may lack any one of them. What stands in place of the new one is not changed.
refused() {
  local answer=$1 number
  shift
  rm -f new
  [ ! -f disk3 ] || cp disk3 new
  runs "attach $answer" 0 "0 group 3 after 0
${works/REFUSED/$answer}" 'puthex 1 61' attach 'puthex 2 62' sync 'get 2'
  tells 'it is told' "$@"
  [ ! -f new ] || same 'the image is left alone' disk3 new
  IMAGES=("${old[@]}")
  stands 3 none 2
  keep refused
  for number in 0 1 2; do
    back refused
    rm disk$number
    runs "a later run without disk$number" 0 '0 group 6 after 0
1 a.1 get 1 at 1 bytes 61
2 a.2 get 2 at 2 bytes 62' 'get 1' 'get 2'
  done
  printf 'ok it goes on with three images\n'
}

old_and_one
IMAGES=("${old[@]}")
refused 'no device 3' 'raidzx: no disk was attached: 3 images are named and the pool has 3 disks; name one more behind them, up to 16'

old_and_one
rm disk1
runs 'attach device out 1' 0 "0 group 3 after 0
${works/REFUSED/device out 1}" 'puthex 1 61' attach 'puthex 2 62' sync 'get 2'
tells 'it is told' "raidzx: disk1: cannot be opened: $missing; its disk counts as failed" "$(is_out 1)" \
  'raidzx: disk1: out of the pool for good'
unused disk3 0 256
stands 3 1 2
runs 'also in the next run' 0 '0 group 6 after 0
1 a.1 attach device out 1
2 a.2 get 1 at 2 bytes 61' attach 'get 1'
unused disk3 0 256

# shown IMAGE: the lowest slot of its ring that shows an uberblock.
shown() {
  local slot
  for slot in $(seq 0 31); do
    if [ "$(sectors "$1" "$slot" 1 | head -c 8 | tr -d '\0')" = RZXPUB01 ]; then
      echo "$slot"
      return
    fi
  done
}
# The image of another pool: of a new one, of one that has gone once round its rings, of one whose first slots are
# spoiled, and the one of the same place in a wider pool. That pool is whole afterwards.
images 3 256
"$RAIDZX" "${IMAGES[@]}" -- create --parity 1 --width 3 --id 5 >/dev/null
keep other1
calls 'puthex 7 ff' $(yes sync | head -n 40) >script
"$RAIDZX" "${IMAGES[@]}" -- replay <script >/dev/null
keep other2
fresh zeros 7
dd if=zeros of=disk0 bs=512 conv=notrunc status=none
keep other3
images 4 256
"$RAIDZX" "${IMAGES[@]}" -- create --parity 1 --width 4 --id 5 >/dev/null
"$RAIDZX" "${IMAGES[@]}" -- replay <script >/dev/null
keep other4
for other in other1/disk0 other2/disk0 other3/disk0 other4/disk3; do
  old_and_one
  cp $other disk3
  refused "taken $(shown disk3)" "$(not_attached "${other: -1}" 5)"
  mv disk3 taken
done
[ "$(shown other1/disk0) $(shown other2/disk0) $(shown other3/disk0)" = '1 0 7' ] || failed 'slots' 'other ones'
back other4
mv taken disk3
IMAGES=("${all[@]}")
runs 'the other pool is whole' 0 '0 group 45 after 0
1 a.1 get 7 at 1 bytes ff' 'get 7'
tells 'nothing is told'

# An image of this pool, as it was, stands in another place than it shows: the run is refused.
for number in 0 1 2; do
  old_and_one
  cp disk$number disk3
  keep copied
  runs "a copy of disk$number behind the pool" 4 'too many failed 3' attach
  tells 'it is told' "raidzx: disk3: is named as image 3, and shows image $number of pool 9" \
    'raidzx: nothing was done, as these words would cost disks that may be whole'
  unchanged 'nothing is written' copied
done

# An image that is too short, missing, or no file.
old_and_one
truncate -s $((255 * 512)) disk3
refused 'new device failed 3' 'raidzx: disk3: 1 call failed in this run' "$new_failed"
old_and_one
truncate -s $((31 * 512)) disk3
refused 'new device failed 3' 'raidzx: disk3: 3 calls failed in this run' "$new_failed"
old_and_one
rm disk3
refused 'new device failed 3' "raidzx: disk3: cannot be opened: $missing; its disk counts as failed" "$new_failed"
old_and_one
rm disk3
mkdir disk3
refused 'new device failed 3' \
  'raidzx: disk3: cannot be opened: Is a directory (os error 21); its disk counts as failed' "$new_failed"

# An image that is longer than the pool's: what is behind their end is not used, and they stay in the pool.
old_and_one
fresh disk3 300
runs 'a longer image is attached' 0 '0 group 3 after 0
1 a.1 put 1 ok
2 group 4 after 2
3 a.2 sync group 4
4 group 5 after 4
5 a.3 attach width 4 group 5' 'put 1 1536 0' sync attach
tells 'nothing is told'
expect 'it is one of the pool' 0 "pool 9 parity 1 rows 64 group 5
width $widened
births 0:3
out none
blocks 1" "${all[@]}" -- status
unused disk3 256 44

# Two clients: the one attaches, the other puts, reads and frees meanwhile.
# replays NAME TEXT LINE..: a script of these lines is replayed on a fresh pool and an image more. TOLD is what is told.
TOLD=()
replays() {
  local name=$1 text=$2
  shift 2
  old_and_one
  printf '%s\n' "$@" >script
  INPUT=script expect "$name" 0 "$text" "${IMAGES[@]}" -- replay
  tells 'what is told' "${TOLD[@]}"
}
replays 'puts, gets and frees beside an attach' '0 group 3 after 0
1 b.1 put 7 ok
2 b.2 get 7 at 2 bytes 61
3 b.3 put 8 ok
4 b.4 free 7 ok
5 b.5 get 7 at 5 absent
6 b.6 put 9 ok
7 b.7 get 9 at 7 bytes 63
8 b.8 get 8 at 8 bytes 62
9 b.9 put 7 ok
10 b.10 put 8 ok
11 b.11 put 10 ok
12 b.12 put 11 ok
13 b.13 get 7 at 13 bytes 64
14 group 4 after 11
15 a.1 attach width 4 group 4' \
  'clients 2' 'a attach' 'b puthex 7 61' 'b get 7' 'b puthex 8 62' 'b free 7' 'b get 7' 'b puthex 9 63' 'b get 9' \
  'b get 8' 'b puthex 7 64' 'b puthex 8 65' 'b puthex 10 66' 'b puthex 11 67' 'b get 7' "order $(turns ab 50)"
stands "$widened" none 3

# Blocks 10 and 11 were put when the attach's group had begun, and are not synced.
keep replayed
for number in 0 1 2 3; do
  back replayed
  rm disk$number
  runs "a run without disk$number reads the attach's group" 0 '0 group 6 after 0
1 a.1 get 7 at 1 bytes 64
2 a.2 get 8 at 2 bytes 65
3 a.3 get 9 at 3 bytes 63
4 a.4 get 10 at 4 absent
5 a.5 get 11 at 5 absent' 'get 7' 'get 8' 'get 9' 'get 10' 'get 11'
done

# A put and a get that begin before the attach and end behind it, and syncs of its group and beside it.
replays 'a put and a get are under way all along' '0 group 3 after 0
1 b.1 put 7 ok
2 group 4 after 2
3 a.1 attach width 4 group 4
4 b.2 get 7 at 2 bytes 61
5 c.1 put 8 ok
6 group 5 after 6
7 c.2 sync group 5' \
  'clients 3' 'a attach' 'b puthex 7 61' 'b get 7' 'c puthex 8 62' 'c sync' "order bbbbbc$(turns a 60)bbbccc"
keep replayed
for number in 0 1 2 3; do
  back replayed
  rm disk$number
  runs "a run without disk$number reads both" 0 '0 group 7 after 0
1 a.1 get 7 at 1 bytes 61
2 a.2 get 8 at 2 bytes 62' 'get 7' 'get 8'
done
replays 'a sync beside an attach' '0 group 3 after 0
1 b.1 put 7 ok
2 group 4 after 2
3 b.2 sync group 4
4 b.3 get 7 at 4 bytes 61
5 group 5 after 5
6 a.1 attach width 4 group 5' \
  'clients 2' 'a attach' 'b puthex 7 61' 'b sync' 'b get 7' "order $(turns ab 60)"
TOLD=("$expanding")
replays 'two attaches beside one another' '0 group 3 after 0
1 group 4 after 1
2 a.1 attach width 4 group 4
3 b.1 attach expanding to 4' \
  'clients 2' 'a attach' 'b attach' "order $(turns ab 60)"

# Calls on the new image that are made to fail.
command -v strace >/dev/null || { echo 'skipped failing calls: there is no strace'; exit 0; }
strace -o /dev/null true 2>/dev/null || { echo 'skipped failing calls: strace may not trace here'; exit 0; }
once='raidzx: disk3: 1 call failed in this run'
read_back="1 a.1 get 1 at 1 bytes 61
2 a.2 get 2 at 2 bytes 62"

# at_fault FAULT: such a run on the pool and one. Of reads, those of a single sector are counted, and those of several
# fail too: a sector that is read ahead is asked for again alone, and only that counts.
at_fault() {
  local fault=$1
  if [[ $fault = pread64:* ]]; then
    old_and_one
    INPUT=script singly disk3 "${IMAGES[@]}" -- replay
    old_and_one
    INPUT=script disturbed_singly disk3 "$fault" "${IMAGES[@]}" -- replay
  else
    old_and_one
    INPUT=script disturbed disk3 "$fault" "${IMAGES[@]}" -- replay
  fi
}

# fails FAULT TEXT LINE [LINE]: this call on the new image fails. The run answers this and tells these lines, the second
# that it is out; and so do later runs the two blocks, with all images and without each one but for those that are out.
fails() {
  local fault=$1 text=$2 number
  shift 2
  calls 'puthex 1 61' sync attach 'puthex 2 62' sync 'get 2' attach >script
  at_fault "$fault"
  grep -q INJECTED trace || failed "$fault" 'no call was made to fail'
  was "$fault" 0 "0 group 3 after 0
1 a.1 put 1 ok
2 group 4 after 2
3 a.2 sync group 4
$text" "$once" "$@"
  keep disturbed
  for number in 0 1 2 3 none; do
    back disturbed
    [ $number = none ] || rm disk$number
    if [ $# = 2 ] && [ $number != 3 ] && [ $number != none ]; then
      runs "then without disk$number" 4 "too many failed $number 3" 'get 1'
    else
      "$RAIDZX" "${IMAGES[@]}" -- replay <reads 2>told | tail -n +2 | cmp -s - wanted ||
        failed "$fault, then without disk$number" 'other blocks'
    fi
  done
  printf 'ok the new image with %s\n' "$fault"
}
calls 'get 1' 'get 2' >reads
echo "$read_back" >wanted

# At the start, in the opening and in its ring while the attach reads it, and the last sector that it tries: it is no device yet.
attached='4 group 5 after 4
5 a.3 attach width 4 group 5
6 a.4 put 2 ok
7 group 6 after 7
8 a.5 sync group 6
9 a.6 get 2 at 9 bytes 62
10 a.7 attach expanding to 4'
not_read='4 a.3 attach new device failed 3
5 a.4 put 2 ok
6 group 5 after 6
7 a.5 sync group 5
8 a.6 get 2 at 8 bytes 62
9 group 6 after 9
10 a.7 attach width 4 group 6'
not_written='4 group 5 after 4
5 a.3 attach new device failed 3
6 a.4 put 2 ok
7 group 6 after 7
8 a.5 sync group 6
9 a.6 get 2 at 9 bytes 62
10 group 7 after 10
11 a.7 attach width 4 group 7'
kept_page='4 group 5 after 4
5 a.3 attach new device failed 3
6 a.4 put 2 ok
7 group 6 after 7
8 a.5 sync group 6
9 a.6 get 2 at 9 bytes 62
10 group 7 after 10
11 a.7 attach new device failed 3'
for when in 1 32 33 64; do fails pread64:error=EIO:when=$when "$attached" "$expanding"; done
for when in 65 80 96 97; do fails pread64:error=EIO:when=$when "$not_read" "$new_failed"; done
# Reads of several sectors that fail are nobody's fault: the ring at the start, and in the opening.
for when in 1 2; do
  calls 'puthex 1 61' sync attach 'puthex 2 62' sync 'get 2' attach >script
  old_and_one
  INPUT=script disturbed disk3 pread64:error=EIO:when=$when "${IMAGES[@]}" -- replay
  grep INJECTED trace | grep -qv ', 512, ' || failed "a read ahead of the new image" "$(cat trace)"
  was 'a read ahead of the new image fails' 0 "0 group 3 after 0
1 a.1 put 1 ok
2 group 4 after 2
3 a.2 sync group 4
$attached" "$expanding"
done
echo 'ok the new image with reads ahead that fail'
# Its page, and the sync of it. Then it is a device of the pool, and goes out.
for error in EIO ENOSPC; do
  fails fdatasync:error=$error:when=1 "$not_written" "$new_failed"
  # A page that was not written stays with that device, so in this run a second attach fails too. The next one attaches.
  once='raidzx: disk3: 2 calls failed in this run' fails pwrite64:error=$error:when=1 "$kept_page" "$new_failed
$new_failed"
  back disturbed
  runs 'the next run attaches it' 0 '0 group 9 after 0
1 group 10 after 1
2 a.1 attach width 4 group 10' attach
done
for call in pwrite64 fdatasync; do
  for when in 2 3; do
    fails $call:error=EIO:when=$when "$attached" "$expanding" 'raidzx: disk3: out of the pool for good'
  done
done

# It fails for good from each of these calls on.
fails_on() { # FAULT ANSWER
  calls 'puthex 1 61' attach 'puthex 2 62' sync >script
  at_fault "$1"
  [ $STATUS = 0 ] && grep -q "^[0-9]* a.2 attach $2$" found || failed "$1" "$(cat found told)"
  "$RAIDZX" "${IMAGES[@]}" -- replay <reads 2>told | tail -n +2 | cmp -s - wanted || failed "$1" 'other blocks'
  printf 'ok the new image with %s\n' "$1"
}
for when in 1 33 65 97; do fails_on pread64:error=EIO:when=$when+ 'new device failed 3'; done
for call in pwrite64 fdatasync; do
  fails_on $call:error=EIO:when=1+ 'new device failed 3'
  fails_on $call:error=EIO:when=2+ 'width 4 group 4'
done

# An image of the pool fails in the attach's commit: before the first uberblock is written no image joins, and from then
# on the new one is a device like the others.
old_fails() { # NUMBER FAULT ANSWER [LINE]
  old_and_one
  calls 'puthex 1 61' attach 'puthex 2 62' sync >script
  INPUT=script disturbed "disk$1" "$2" "${IMAGES[@]}" -- replay
  was "$2 on disk$1" 0 "0 group 3 after 0
1 a.1 put 1 ok
2 group 4 after 2
3 a.2 attach $3
4 a.3 put 2 ok
5 group 5 after 5
6 a.4 sync group 5" "raidzx: disk$1: 1 call failed in this run" ${4:+"$4"} "raidzx: disk$1: out of the pool for good"
  rm "disk$1"
  "$RAIDZX" "${IMAGES[@]}" -- replay <reads 2>told | tail -n +2 | cmp -s - wanted || failed "$2" 'other blocks'
  printf 'ok disk%s with %s\n' "$1" "$2"
}
# The second write hands over the column of the block, which the attach's page does not lie behind.
for number in 0 1; do
  old_fails $number pwrite64:error=EIO:when=2 "device out $number" "$(is_out $number)"
  old_fails $number pwrite64:error=EIO:when=3 "device out $number" "$(is_out $number)"
  old_fails $number fdatasync:error=EIO:when=3 "device out $number" "$(is_out $number)"
  old_fails $number pwrite64:error=EIO:when=4 'width 4 group 4'
  old_fails $number fdatasync:error=EIO:when=4 'width 4 group 4'
done
