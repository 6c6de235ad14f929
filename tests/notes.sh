#!/usr/bin/env bash
# What is told on standard error of single images. A run in which all is well tells nothing.
. "$(dirname "$0")/build.sh"

missing='No such file or directory (os error 2)'
pool 1 3 256
runs 'all is well' 0 '0 group 3 after 0
1 a.1 put 7 ok
2 group 4 after 2
3 a.2 sync group 4' 'puthex 7 61' sync
tells 'nothing is told'
read='0 group 6 after 0
1 a.1 get 7 at 1 bytes 61'
keep made

rm disk1
runs 'an image is missing' 0 "$read" 'get 7'
tells 'it is told, and that it is out' "raidzx: disk1: cannot be opened: $missing; its disk counts as failed" \
  'raidzx: disk1: out of the pool for good'
keep without
cp made/disk1 .
runs 'it is back' 0 '0 group 8 after 0
1 a.1 get 7 at 1 bytes 61' 'get 7'
tells 'it stays out, as each run tells' 'raidzx: disk1: out of the pool for good'

back made
mv disk1 disk8
mkdir disk1
runs 'a folder' 0 "$read" 'get 7'
tells 'is told as one' 'raidzx: disk1: cannot be opened: Is a directory (os error 21); its disk counts as failed' \
  'raidzx: disk1: out of the pool for good'

back made
calls 'get 7' >script
INPUT=script expect 'a misspelt name' 0 "$read" disk0 disk1 dsk2 -- run
tells 'is told' "raidzx: dsk2: cannot be opened: $missing; its disk counts as failed" \
  'raidzx: dsk2: out of the pool for good'

# (An image in another place, and one that is not named: tests/places.sh.)

# An image that is refused to this program may be whole.
back made
if runuser -u nobody -- test -x "$RAIDZX" 2>/dev/null; then
  chmod 755 .
  chmod 666 disk0 disk2
  chmod 600 disk1
  found_status=0
  runuser -u nobody -- "$RAIDZX" disk0 disk1 disk2 -- run <script >found 2>told || found_status=$?
  [ "$found_status $(cat found)" = '4 too many failed 1' ] || failed 'an image without permission' "$(cat found)"
  echo 'ok an image without permission'
  tells 'is told' \
    'raidzx: disk1: cannot be opened: Permission denied (os error 13); nothing was done, as the disk may be whole; to'\
' go on without it for good, name in its place a word at which nothing stands'
  unchanged 'and nothing is written' made
else
  echo 'skipped an image without permission: no other user can be tried here'
fi
(
  flock -x 9
  INPUT=script expect 'another program has an image' 4 'too many failed 2' "${IMAGES[@]}" -- run
) 9<>disk2
tells 'it is told' 'raidzx: disk2: another program has it, or it is named twice; nothing was done'

# More images than a set of devices has numbers.
many=()
for number in $(seq 0 69); do
  truncate -s 131072 "more$number"
  many+=("more$number")
done
(
  flock -x 9
  expect 'another program has an image of a high number' 4 'too many failed 66' \
    "${many[@]}" -- create --parity 1 --width 3 --id 5
) 9<>more66

# Images of different length.
images 3 256
truncate -s 110000 disk1
create=(create --parity 1 --width 3 --id 9)
expect 'a pool with a shorter image' 0 'pool 9 parity 1 width 3 rows 64 group 1' "${IMAGES[@]}" -- "${create[@]}"
short='raidzx: disk1: has 214 sectors and the longest image 256; it goes out if the pool goes on past its end'
tells 'it is told' "$short"
short='raidzx: disk1: has 214 sectors and the pool 256; it goes out if a block lies past its end'
runs 'a block that lies before its end' 0 '0 group 3 after 0
1 a.1 put 1 ok
2 group 4 after 2
3 a.2 sync group 4' 'put 1 10000 1' sync
tells 'is no failure' "$short"
runs 'a block that lies beyond its end' 0 '0 group 6 after 0
1 a.1 put 2 ok
2 group 7 after 2
3 a.2 sync group 7' 'put 2 20000 1' sync
tells 'is one' "$short" 'raidzx: disk1: 1 call failed in this run' 'raidzx: disk1: out of the pool for good'

# An image that is longer than the pool's is none of it yet, and no pool's image is told to be short.
pool 1 3 256
fresh disk3 300
IMAGES+=(disk3)
runs 'a longer image is named behind the pool' 0 '0 group 3 after 0'
tells 'nothing is told'
rm disk3

# More images than the width.
images 4 256
expect 'a pool on the first images' 0 'pool 9 parity 1 width 3 rows 64 group 1' "${IMAGES[@]}" -- "${create[@]}"
tells 'the others are told' 'raidzx: disk3: not of the new pool, which has the first 3 images'
pool 1 4 256
expect 'a narrower pool over a wider one' 0 'pool 9 parity 1 width 3 rows 64 group 1' "${IMAGES[@]}" -- "${create[@]}"
tells 'what may come back is told' 'raidzx: disk3: not of the new pool, which has the first 3 images;'\
' it shows pool 9, which a run over all of them may open in its place'

# Standard error takes no line.
calls 'get 7' >script
IMAGES=(disk0 disk1 disk2)
for to in /dev/full closed; do
  back made
  rm disk1
  found_status=0
  if [ $to = closed ]; then
    "$RAIDZX" "${IMAGES[@]}" -- run <script >found 2>&- || found_status=$?
  else
    "$RAIDZX" "${IMAGES[@]}" -- run <script >found 2>$to || found_status=$?
  fi
  [ "$found_status" = 0 ] && [ "$(cat found)" = "$read" ] || failed "standard error: $to" "$(cat found)"
done
echo 'ok notes that cannot be written change nothing'

# What is wrong with a line of a script.
# wrong LINE TEXT HINT: the line of this number of this script is refused with this hint.
wrong() {
  printf "$2" >script
  INPUT=script expect "script line $1: ${3:0:40}" 2 "script line $1" mem:256 mem:256 -- run
  tells 'is told' "raidzx: script line $1: $3"
}
first='the first line is `clients K`, K from 1 to 8'
number='a number is decimal and below 2^64, without sign or leading zeros'
wrong 1 '' "$first"
wrong 3 '# none\n\n' "$first"
wrong 2 '# none\na sync\n' "$first"
wrong 1 'clients 1\r\na sync\r\n' 'it ends with CR and LF, and lines end with LF alone'
wrong 1 'clients 0\n' '`clients K`, K from 1 to 8, without leading zeros'
wrong 3 'clients 2\na sync\nclients 2\n' 'one line alone says how many clients there are'
wrong 2 'clients 1\na put  7 1 1\n' 'one space stands between two words, and none at an end'
wrong 2 'clients 1\na sync \n' 'one space stands between two words, and none at an end'
wrong 2 'clients 2\nc sync\n' 'there is no such client: the first is a'
wrong 2 'clients 1\nb sync\n' 'there is one client, a'
wrong 2 'clients 1\nsync\n' "a call is a client's letter, a space, and its words"
wrong 2 'clients 1\na read 7\n' 'the calls are put, puthex, get, sum, free, sync, attach and copy'
wrong 2 'clients 1\na put 7 0 1\n' 'a block has one byte at least'
wrong 2 'clients 1\na put 7 65537 1\n' 'a block has at most 65,536 bytes'
wrong 2 'clients 1\na put 07 1 1\n' "$number"
wrong 2 'clients 1\na get 18446744073709551616\n' "$number"
wrong 2 'clients 1\na put 7 1\n' '`put ID LEN SEED` or `puthex ID DIGITS`'
wrong 2 'clients 1\na puthex 7 6G\n' 'two digits stand for each byte, 0 to 9 and a to f'
wrong 2 'clients 1\na puthex 7 6A\n' 'two digits stand for each byte, 0 to 9 and a to f'
wrong 2 'clients 1\na get 7 8\n' 'get, sum and free have an id, and nothing behind it'
wrong 2 'clients 1\na sync 7\n' 'sync, attach and copy have nothing behind them'
wrong 2 'clients 1\na attach 7\n' 'sync, attach and copy have nothing behind them'
wrong 2 'clients 1\na copy 7\n' 'sync, attach and copy have nothing behind them'
wrong 2 'clients 1\norder ab\n' '`order LETTERS`: letters of the clients side by side, one at least'

# What was not carried out is told at the end, with what to do.
pool 1 3 256
for ((number = 0; number < 66; number++)); do echo "a put $number 512 1"; done >puts
{ calls; cat puts; echo 'a put 7 65536 1'; echo 'a attach'; } >script
"$RAIDZX" "${IMAGES[@]}" -- run <script >found 2>told || failed 'calls that are refused' "$(cat found)"
tells 'calls that are refused' 'raidzx: no disk was attached: 3 images are named and the pool has 3 disks; name one more behind them, up to 16' \
  'raidzx: puts without room: 1; the largest wanted 192 free sectors side by side: free blocks and sync, then put them again'
{ calls; cat puts; echo 'a sync'; echo 'a put 7 65536 1'; } >script
"$RAIDZX" "${IMAGES[@]}" -- run <script >found 2>told || failed 'a put without room' "$(cat found)"
tells 'a put without room' 'raidzx: puts without room: 1; the largest wanted 192 free sectors side by side, and the pool has '\
'60 now: free blocks and sync, then put them again'
{ calls; for ((number = 0; number < 513; number++)); do echo "a puthex $number 61"; done; } >script
images 3 1000
"$RAIDZX" "${IMAGES[@]}" -- "${create[@]}" >/dev/null
"$RAIDZX" "${IMAGES[@]}" -- run <script >found 2>told || failed 'a pool of 512 blocks' "$(tail -n 3 found)"
tells 'a pool of 512 blocks' 'raidzx: puts refused, as the pool has 512 blocks: 1; free others and put them again'
images 3 200
expect 'images that are too small' 5 'too small' "${IMAGES[@]}" -- "${create[@]}"
tells 'how large they have to be' \
  'raidzx: the longest image has 200 sectors of 512 bytes, and a pool takes 256: make each 131072 bytes at least'
expect 'too few images' 5 'too small' disk0 disk1 -- "${create[@]}"
tells 'how many there have to be' 'raidzx: 2 images are named, and the width is 3'

# What the words of a command are.
expect 'an option that is not there' 1 usage disk0 disk1 -- create --width 3 --parity 1
grep -q '^raidzx: usage: raidzx IMAGE.. -- create --parity P --width W --id N$' told || failed usage "$(cat told)"
expect 'a word too many' 1 usage disk0 disk1 -- run now
grep -q '^raidzx: usage: raidzx IMAGE.. -- run \[--attach\] <SCRIPT$' told || failed usage "$(cat told)"
! grep -q create told || failed usage "$(cat told)"
expect 'a word too many' 1 usage disk0 disk1 -- status now
grep -q '^raidzx: usage: raidzx IMAGE.. -- status$' told || failed usage "$(cat told)"
expect 'a command that there is not' 1 usage disk0 disk1 -- sweep
[ "$(grep -c '^raidzx: usage: ' told)" = 4 ] || failed usage "$(cat told)"
echo 'ok the form of the command that was meant is told'
for word in --help -h help --version; do
  expect "who asks by $word" 1 usage $word
  "$ROOT/raidzx" $word 2>page >/dev/null || true
  cmp -s told page || failed "who asks by $word" "$(cat told)"
done
