#!/usr/bin/env bash
# Slips in the words cost no disk: a command that changes a pool is refused where an image stands in another place than
# it shows, where one is not named, or where it is not sure which pool is meant. Nothing is written, a status still
# looks, and the right words then work.
. "$(dirname "$0")/build.sh"

nothing='raidzx: nothing was done, as these words would cost disks that may be whole'
# elsewhere NAME PLACE NUMBER: what is told of an image that stands in another place.
elsewhere() { echo "raidzx: $1: is named as image $2, and shows image $3 of pool 9"; }
lacks() {
  echo "raidzx: image $1 of pool 9 is not named: name it in its place, or there a word at which nothing stands, and the" \
    'pool goes on without it for good'
}
order() { echo "raidzx: the words in their right order: $*"; }
behind() {
  echo "raidzx: $1: its last group is $2, the pool's is $3: it missed what was synced since, and is out for good"
}
missing='cannot be opened: No such file or directory (os error 2); its disk counts as failed'

# refused NAME TEXT WORD..: a run and a replay over these images are refused with this text, and no image changes.
refused() {
  local name=$1 text=$2 command
  shift 2
  keep before
  for command in replay run; do
    INPUT=script expect "$name: a $command" 4 "$text" "$@" -- $command
    unchanged 'nothing is written' before disk*
  done
}

# looks NAME TEXT WORD..: a status tells this of the pool behind its first line, and no image changes.
looks() {
  local name=$1 text=$2
  shift 2
  keep before
  found=$("$RAIDZX" "$@" -- status 2>told | tail -n +2) || failed "$name" "$found"
  [ "$found" = "$text" ] || failed "$name" "$found"
  printf 'ok %s\n' "$name"
  unchanged 'nothing is written' before disk*
}

# reads GROUP WORD..: a run over these images opens this group, and reads the block.
reads() {
  local group=$1
  shift
  INPUT=script expect "a run over $*" 0 "0 group $group after 0
1 a.1 get 7 at 1 bytes 61" "$@" -- run
}

# Two images of a pool that may lose two are named in each other's place. Both are whole.
pool 2 4 256
runs 'a block is put' 0 '0 group 3 after 0
1 a.1 put 7 ok
2 group 4 after 2
3 a.2 sync group 4' 'puthex 7 61' sync
tells 'nothing is told'
keep made
calls 'get 7' >script
refused 'two images in the wrong order' 'too many failed 1 2' disk0 disk2 disk1 disk3
tells 'the order is told' "$(elsewhere disk2 1 2)" "$(elsewhere disk1 2 1)" "$nothing" "$(order disk0 disk1 disk2 disk3 -- run)"
looks 'a status looks' 'width 4
births 0:4
out 1 2
blocks 1' disk0 disk2 disk1 disk3
tells 'and tells it too' "$(elsewhere disk2 1 2)" "$(elsewhere disk1 2 1)" "$(order disk0 disk1 disk2 disk3 -- status)" \
  'raidzx: disk0: in use' 'raidzx: disk3: in use' 'raidzx: all blocks can be read, and no more disk may be lost' \
  'raidzx: 3 of 256 sectors are used, by 1 of at most 512 blocks; the largest that fits has 64512 bytes' 'raidzx: blocks 7'
reads 6 disk0 disk1 disk2 disk3
tells 'nothing is told of the right order'

# With an option, and with words that a shell would take apart.
back made
cp disk2 "it's 2"
keep before
INPUT=script expect 'words with spaces' 4 'too many failed 1 2' disk0 "it's 2" disk1 disk3 -- run --attach
tells 'are shown as a shell takes them' "$(elsewhere "it's 2" 1 2)" "$(elsewhere disk1 2 1)" "$nothing" \
  "$(order disk0 disk1 "'it'\\''s 2'" disk3 -- run --attach)"
unchanged 'nothing is written' before
eval "\"$RAIDZX\" $(sed -n 's/^.*right order: \(.*\) -- run --attach$/\1/p' told) -- status" >found 2>told ||
  failed 'the words, as they are shown' "$(cat found)"
grep -qx 'out none' found || failed 'the words, as they are shown' "$(cat found)"
echo 'ok the words can be typed as they are shown'

# All stand wrong: no pool is found.
back made
INPUT=script expect 'all are in the wrong order' 3 'not a pool' disk3 disk0 disk1 disk2 -- run
tells 'the order is told' "$(elsewhere disk3 0 3)" "$(elsewhere disk0 1 0)" "$(elsewhere disk1 2 1)" "$(elsewhere disk2 3 2)" \
  "$(order disk0 disk1 disk2 disk3 -- run)"
unchanged 'nothing is written' made

# A copy of an image stands in the place of another, and one behind the pool.
cp disk2 again
refused 'an image and its copy' 'too many failed 1' disk0 again disk2 disk3
tells 'is told' "$(elsewhere again 1 2)" "$nothing" "$(lacks 1)"
refused 'a copy behind the pool' 'too many failed 4' disk0 disk1 disk2 disk3 again
tells 'is told' "$(elsewhere again 4 2)" "$nothing"
unchanged 'nothing is written' made

# A word is left out: the last one, or another one. A lost disk is named by a word at which nothing stands.
refused 'the last word is left out' 'too many failed 3' disk0 disk1 disk2
tells 'it is told' "$nothing" "$(lacks 3)"
refused 'another word is left out' 'too many failed 1 2 3' disk0 disk2 disk3
tells 'it is told' "$(elsewhere disk2 1 2)" "$(elsewhere disk3 2 3)" "$(lacks 1)"
refused 'two words are left out' 'too many failed 2 3' disk0 disk1
tells 'both are told' "$nothing" "$(lacks 2)" "$(lacks 3)"
looks 'a status looks' 'width 4
births 0:4
out 3
blocks 1' disk0 disk1 disk2
refused 'a lost disk in the wrong place' 'too many failed 1' none disk0 disk2 disk3
tells 'the order is told' "raidzx: none: $missing" "$(elsewhere disk0 1 0)" "$nothing" "$(order disk0 none disk2 disk3 -- run)"
reads 6 disk0 none disk2 disk3
tells 'a lost disk in its place' "raidzx: none: $missing" 'raidzx: none: out of the pool for good'
reads 8 disk0 disk1 disk2 none
tells 'the last one is lost too' "raidzx: none: $missing" 'raidzx: disk1: out of the pool for good' \
  'raidzx: none: out of the pool for good'
reads 10 disk0 disk1 disk2
tells 'one that is out for good need not be named' "$(behind disk1 4 8)" 'raidzx: disk1: out of the pool for good' \
  'raidzx: disk 3, for which no image is named: out of the pool for good'

# A disk is lost and out for good, and its word is left out: the others stand in wrong places. A word stands for it in
# the right order, but where it is the last.
for parity in 1 2 3; do
  pool $parity 4 256
  runs 'a block is put' 0 '0 group 3 after 0
1 a.1 put 7 ok
2 group 4 after 2
3 a.2 sync group 4' 'puthex 7 61' sync
  rm disk1
  calls 'get 7' >script
  reads 6 disk0 none disk2 disk3
  refused "a disk that is out is not named, parity $parity" 'too many failed 1 2 3' disk0 disk2 disk3
  [ $parity = 3 ] && many=("$nothing") || many=()
  tells 'the order is told with a word for it' "$(elsewhere disk2 1 2)" "$(elsewhere disk3 2 3)" "${many[@]}" \
    "$(order disk0 none disk2 disk3 -- run)"
  eval "\"$RAIDZX\" $(sed -n 's/^.*right order: //p' told)" <script >found 2>told || failed 'the words' "$(cat found)"
  grep -qx '1 a.1 get 7 at 1 bytes 61' found || failed 'the words' "$(cat found)"
  echo 'ok the words can be typed as they are shown'
  refused 'another disk is not named either' 'too many failed 1 2 3' disk0 disk2
  tells 'it is told' "$(elsewhere disk2 1 2)" "${many[@]}" "$(lacks 3)"
  refused 'two others are in the wrong order' 'too many failed 1 3' disk0 disk3 disk2
  [ $parity = 1 ] && many=() || many=("$nothing")
  tells 'the order is told' "$(elsewhere disk3 1 3)" "${many[@]}" "$(order disk0 none disk2 disk3 -- run)"
done

# An image that was attached is left out, as no block lies on it yet.
pool_and 1
runs 'an image is attached' 0 '0 group 3 after 0
1 a.1 put 7 ok
2 group 4 after 2
3 a.2 attach width 4 group 4' 'puthex 7 61' attach
refused 'an image is left out that was attached' 'too many failed 3' disk0 disk1 disk2
tells 'it is told' "$nothing" "$(lacks 3)"
looks 'a status looks' 'width 3 to 4 mark 0 state none
births 0:3
out 3
blocks 1' disk0 disk1 disk2
tells 'and tells how far the copy has come' 'raidzx: disk0: in use' 'raidzx: disk1: in use' 'raidzx: disk2: in use' \
  'raidzx: all blocks can be read, and no more disk may be lost' \
  'raidzx: a copy moves the blocks onto 4 disks: 0 of 192 sectors are moved, 0 percent' \
  'raidzx: 2 of 192 sectors are used, by 1 of at most 512 blocks; the largest that fits has 64512 bytes' 'raidzx: blocks 7'
COMMAND=replay runs 'it is named' 0 '0 group 6 after 0
1 a.1 get 7 at 1 bytes 61' 'get 7'

# Two pools of two disks, one disk of each: it is not sure which pool is meant.
second_of() { echo "raidzx: disk1: shows image 1 of pool $1, and is named as image 1 of pool $2"; }
pool 1 2 256
mkdir two
mv disk0 disk1 two
images 2 256
"$RAIDZX" disk0 disk1 -- create --parity 1 --width 2 --id 5 >/dev/null
cp two/disk1 disk1
calls >script
refused 'one disk of each of two pools' 'too many failed 1' disk0 disk1
tells 'is told' "$(second_of 9 5)" "$nothing" "$(lacks 1 | sed 's/pool 9/pool 5/')"
cp two/disk0 disk0
INPUT=script expect 'the two of one pool' 0 '0 group 3 after 0' disk0 disk1 -- run

# An id was used again: what the images show can't be of one pool.
# again NAME PARITY WIDTH SECTORS PLACES TOLD: on the first images of a pool of three another one of its id was made.
for words in '1 2 256' '2 3 256' '1 3 300'; do
  set -- $words
  pool 1 3 256
  keep older
  images 3 "$3"
  "$RAIDZX" "${IMAGES[@]}" -- create --parity "$1" --width "$2" --id 9 >/dev/null
  cp older/disk2 disk2
  keep mixed
  INPUT=script expect "an id that was used again: $words" 4 'too many failed 2' "${IMAGES[@]}" -- run
  unchanged 'nothing is written' mixed
done

# An image of another pool, or a blank one, in a place of the pool: the run goes on without that disk, and it is told.
pool 1 3 256
keep made
images 3 256
"$RAIDZX" "${IMAGES[@]}" -- create --parity 1 --width 3 --id 5 >/dev/null
mv disk1 other
back made
cp other disk1
INPUT=script expect 'an image of another pool' 0 '0 group 3 after 0' "${IMAGES[@]}" -- run
tells 'is told first' "$(second_of 5 9)" 'raidzx: disk1: out of the pool for good'
same 'and is not written' disk1 other
back made
fresh disk1 256
cp disk1 blank
INPUT=script expect 'a blank image' 0 '0 group 3 after 0' "${IMAGES[@]}" -- run
tells 'is told first' 'raidzx: disk1: shows no pool, and is named as image 1 of pool 9' 'raidzx: disk1: out of the pool for good'
same 'and is not written' disk1 blank

# A file system that may be read alone says nothing of a disk: the run is refused.
back made
mkdir -p locked
if mount -t tmpfs none locked 2>/dev/null; then
  cp disk1 locked
  if mount -o remount,ro locked 2>/dev/null; then
    INPUT=script expect 'a file system that may be read alone' 4 'too many failed 1' disk0 locked/disk1 disk2 -- run
    tells 'is told' 'raidzx: locked/disk1: cannot be opened: Read-only file system (os error 30); nothing was done, as the'\
' disk may be whole; to go on without it for good, name in its place a word at which nothing stands'
    unchanged 'nothing is written' made disk0 disk2
    looks 'a status looks' 'width 3
births 0:3
out none
blocks 0' disk0 locked/disk1 disk2
  fi
  umount locked
else
  echo 'skipped a file system that may be read alone: none can be mounted here'
fi
