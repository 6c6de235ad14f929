#!/usr/bin/env bash
# A run that copies is killed on its way, or has an image that fails a call: what stands on the images then, what is
# answered, and how a later run goes on.
command -v strace >/dev/null || { echo 'skipped failing calls: there is no strace'; exit 0; }
strace -o /dev/null true 2>/dev/null || { echo 'skipped failing calls: strace may not trace here'; exit 0; }
[ ! -w /dev/shm ] || export TMPDIR=/dev/shm # many short runs: files in memory will do
. "$(dirname "$0")/build.sh"
COMMAND=replay

first=$(summed 1536 0)

# A full pool, whose copy is killed.
full_pool
spread 3 192 192 >narrow

# killed WHEN: a copy of the full pool is killed at this sync of the last image.
killed() {
  back full
  calls copy >script
  { INPUT=script disturbed disk3 "fdatasync:signal=KILL:when=$1" "${IMAGES[@]}" -- replay; } 2>/dev/null
  [ $STATUS != 0 ] && [ ! -s found ] || failed "killed at sync $1" "status $STATUS, $(cat found)"
}
# The opening has two syncs of an image, and so has each commit: the copy is stopped behind its first, second and third
# group, before an uberblock of the next one is written.
number=1
for way in '3 to 4 mark 128 state valid' '3 to 4 mark 128 state moved' '3 to 4 mark 167 state moved'; do
  killed $((3 + 2 * number))
  shows "$way" 0:3 none 96
  if [ $number = 1 ]; then
    spread 4 32 128 >scratch
    head -c 65536 narrow | cmp -s - scratch || failed 'the scratch area' 'other sectors'
  fi
  without_each "a pool with $way"
  for image in 0 1 2 3; do
    back each
    rm disk$image
    runs "a copy of it without disk$image" 0 "0 group $((9 + number)) after 0
1 a.1 copy paused $image" copy
    reads_wanted 'then'
    shows "$way" 0:3 $image 96
    cp each/disk$image .
    runs 'and with it again' 0 "0 group $((13 + number)) after 0
1 a.1 copy paused $image" copy
  done
  back each
  runs 'the next run goes on' 0 "0 group $((9 + number)) after 0
$(groups $((10 + number)) 13 1)
$((5 - number)) a.1 copy done width 4" copy
  spread 4 192 192 >wide
  same 'each sector lies in rows of four' narrow wide
  shows 4 '0:3 15:4' none 96
  without_each "a pool that was copied on from $way"
  number=$((number + 1))
done

# An image fails a call of a run that copies, reads and syncs.
pool_and 1
second=$(summed 5000 2) third=$(summed 20000 1)
calls 'put 1 1536 0' 'put 2 5000 2' 'put 3 20000 1' sync attach >script
"$RAIDZX" "${IMAGES[@]}" -- replay <script >/dev/null
keep few
calls 'sum 1' 'sum 2' 'sum 3' >reads
printf '%s\n' "sum 1 $first" "sum 2 $second" "sum 3 $third" >wanted
# lines_of GROUP COUNT ANSWER: of a run whose opening has this group, with so many groups of its copy.
lines_of() {
  echo "0 group $1 after 0"
  groups $(($1 + 1)) $(($1 + $2)) 1
  echo "$((1 + $2)) a.1 copy $3"
}
# is_paused NUMBER: what is told of a copy that is paused.
is_paused() { echo "raidzx: the copy is paused, as disk $1 is out; all blocks are read as before"; }
# reads_singly NUMBER CALL..: finds, for `disturbs`, each read of a single sector that these calls make on this image.
reads_singly() {
  local number=$1
  shift
  back few
  calls "$@" >script
  INPUT=script singly "disk$number" "${IMAGES[@]}" -- replay
}
# disturbs NUMBER FAULT: the script with this fault of this image.
disturbs() {
  local how=disturbed
  [ "${2%%:*}" != pread64 ] || how=disturbed_singly
  INPUT=script $how "disk$1" "$2" "${IMAGES[@]}" -- replay
  [ "$STATUS" != none ] && grep -q INJECTED trace || failed "$2" 'no call was made to fail'
}
# fails NUMBER FAULT COUNT: this image fails this call. The copy makes so many groups then and is paused, or all four and
# is done. All blocks are there in that run, and in the next one, which has the same answer.
fails() {
  local number=$1 fault=$2 count=$3 answer="paused $1" paused=("$(is_paused "$1")")
  [ "$count" != 4 ] || answer='done width 4' paused=()
  back few
  calls copy 'sum 1' 'sum 2' 'sum 3' sync >script
  disturbs "$number" "$fault"
  was "disk$number with $fault" 0 "$(lines_of 7 "$count" "$answer")
$((2 + count)) a.2 sum 1 at $((2 + count)) $first
$((3 + count)) a.3 sum 2 at $((3 + count)) $second
$((4 + count)) a.4 sum 3 at $((4 + count)) $third
$((5 + count)) group $((8 + count)) after $((5 + count))
$((6 + count)) a.5 sync group $((8 + count))" "raidzx: disk$number: 1 call failed in this run" "${paused[@]}" \
    "raidzx: disk$number: out of the pool for good"
  "$RAIDZX" "${IMAGES[@]}" -- replay <on >found 2>told || failed "a copy past disk$number with $fault" "status $?"
  [ "$(cat found)" = "$(lines_of $((10 + count)) 0 "$answer")
2 a.2 sum 1 at 2 $first
3 a.3 sum 2 at 3 $second
4 a.4 sum 3 at 4 $third" ] || failed "a copy past disk$number with $fault" "$(cat found)"
  rm disk$number
  reads_wanted "disk$number with $fault, and without it"
}
calls copy 'sum 1' 'sum 2' 'sum 3' >on
# Each call of each image, but for the last two, which make the sync's group: which of them are made before the copy's
# first, second, third and fourth group is, and in all. The rings are read at the start (where a read that fails does not
# matter, see below). An opening reads a ring of 32 slots and a page, writes an uberblock and syncs twice, and so does each
# commit, which writes a page too. Of reads each one of a single sector fails, and those of several too. The fill reads 43
# or 42 of each old image, and none of the new one; the drain reads 32 of each; the last two jobs read 13 and 8, or 9, of
# each old one. The sums follow. The fill's 32 sectors are one write, with the page behind them, and so are the drain's,
# and those of the last two jobs; the commit behind them hands them over.
for row in '0 pread64 108 140 153 161 182' '1 pread64 108 140 153 161 180' '2 pread64 107 139 152 161 181' \
  '3 pread64 65 97 97 97 117' '0 pwrite64 1 3 6 9 13' '1 pwrite64 1 3 6 9 13' '2 pwrite64 1 3 6 9 13' \
  '3 pwrite64 1 3 6 9 13' '0 fdatasync 2 4 6 8 11' '1 fdatasync 2 4 6 8 11' '2 fdatasync 2 4 6 8 11' \
  '3 fdatasync 2 4 6 8 11'; do
  set -- $row
  first_call=1
  if [ "$2" = pread64 ]; then
    first_call=33
    reads_singly "$1" copy 'sum 1' 'sum 2' 'sum 3' sync
  fi
  for when in $(seq "$first_call" "$7"); do
    count=$(((when > $3) + (when > $4) + (when > $5) + (when > $6)))
    fails "$1" "$2:error=EIO:when=$when" $count
    [ "$2" = fdatasync ] || [ "$2" = pread64 ] && ((when % 10)) || fails "$1" "$2:error=ENOSPC:when=$when" $count
  done
  printf 'ok each of the calls %s to %s %s of disk%s fails\n' "$first_call" "$7" "$2" "$1"
done

# A read that fails at the start changes nothing.
reads_singly 1 copy 'sum 1'
for when in 1 32; do
  back few
  calls copy 'sum 1' >script
  disturbs 1 "pread64:error=EIO:when=$when"
  was "disk1 with call $when of pread64" 0 "$(lines_of 7 4 'done width 4')
6 a.2 sum 1 at 6 $first" 'raidzx: disk1: 1 call failed in this run'
done
echo 'ok a read that fails at the start changes nothing'

# fails_last NUMBER FAULT COUNT [LINE]: this image fails this call of a run without a sync at its end.
fails_last() {
  local answer="paused $1" paused=("$(is_paused "$1")")
  [ "$3" != 4 ] || answer='done width 4' paused=()
  back few
  calls copy 'sum 1' 'sum 2' 'sum 3' >script
  disturbs "$1" "$2"
  was "disk$1 with $2" 0 "$(lines_of 7 "$3" "$answer")
$((2 + $3)) a.2 sum 1 at $((2 + $3)) $first
$((3 + $3)) a.3 sum 2 at $((3 + $3)) $second
$((4 + $3)) a.4 sum 3 at $((4 + $3)) $third" "raidzx: disk$1: 1 call failed in this run" "${paused[@]}" ${4:+"$4"}
}

# Without a sync behind it nothing has recorded that the image is out, where a read, or the last write or sync of a commit
# has failed: the next run copies with it from where the last group stands, and then any one image may go.
reads_singly 0 copy 'sum 1' 'sum 2' 'sum 3'
for row in '0 pread64 92 0' '1 pwrite64 1 0' '3 pwrite64 1 0' '1 pwrite64 3 1' '3 pwrite64 3 1' '2 pwrite64 6 2' \
  '3 pwrite64 6 2' '0 pwrite64 9 3' '3 pwrite64 9 3' '2 fdatasync 4 1' '0 fdatasync 8 3'; do
  set -- $row
  fails_last "$1" "$2:error=EIO:when=$3" "$4"
  runs "disk$1 with call $3 of $2, and the next run goes on with it" 0 \
    "$(lines_of $((9 + $4)) $((4 - $4)) 'done width 4')" copy
  without_each 'what it has copied'
done

# What the fill, the drain and the last two jobs have written is handed over by the commit behind them. Where that fails,
# that commit's group has recorded that the image is out: the next run goes on without it, and reads all.
for row in '1 2 1' '3 2 1' '1 4 2' '3 4 2' '2 7 3' '3 7 3' '0 10 4' '3 10 4'; do
  set -- $row
  for error in EIO ENOSPC; do
    fails_last "$1" "pwrite64:error=$error:when=$2" "$3" "raidzx: disk$1: out of the pool for good"
    answer="paused $1"
    [ "$3" != 4 ] || answer='done width 4'
    runs "disk$1 with call $2 of pwrite64, and the next run goes on without it" 0 "$(lines_of $((9 + $3)) 0 "$answer")" copy
    reads_wanted "disk$1 with call $2 of pwrite64"
    rm "disk$1"
    reads_wanted "disk$1 with call $2 of pwrite64, and without it"
  done
done

# Two images fail in a commit of the copy: it is refused, and so is each later call. Once they are back all is there.
back few
calls copy 'get 1' sync >script
STATUS=0
strace -f -s 0 -o trace -P "$PWD/disk0" -P "$PWD/disk1" -e trace=fdatasync -e inject=fdatasync:error=EIO:when=5+ \
  "$RAIDZX" "${IMAGES[@]}" -- replay <script >found 2>told || STATUS=$?
was 'two images fail in a commit of a copy' 4 '0 group 7 after 0
1 a.1 copy too many failed 0 1
2 a.2 get 1 too many failed 0 1
3 a.3 sync too many failed 0 1
too many failed 0 1' 'raidzx: disk0: 1 call failed in this run' 'raidzx: disk1: 1 call failed in this run' \
  'raidzx: calls not carried out, as too many disks are out: 3; run them again once these are back'
runs 'the next run copies' 0 "$(lines_of 9 4 'done width 4')" copy
without_each 'two images that are back'
