#!/usr/bin/env bash
# System calls that are made to fail, by their number: each answer has its cause, and single failures are borne.
command -v strace >/dev/null || { echo 'skipped failing calls: there is no strace'; exit 0; }
strace -o /dev/null true 2>/dev/null || { echo 'skipped failing calls: strace may not trace here'; exit 0; }
[ ! -w /dev/shm ] || export TMPDIR=/dev/shm # many short runs: files in memory will do
. "$(dirname "$0")/build.sh"

INPUT=script
pool 1 3 256
keep made
calls 'puthex 7 616263' sync 'get 7' >script
"$RAIDZX" "${IMAGES[@]}" -- run <script >whole
whole=$(cat whole)
later='0 group 6 after 0
1 a.1 get 7 at 1 bytes 616263'
calls 'get 7' >again

# borne CALL ERROR LAST: each image fails this call at each number up to the last one, or moves nothing (0). The run
# answers as if nothing were, and tells it; the next one reads what was synced. Of reads, each one of a single sector
# fails, and those of several too: a sector that is read ahead is asked for again alone, and only that counts.
borne() {
  local call=$1 error=$2 last=$3 number when out=0 times=0 told how=error=$2 disturbed=disturbed
  [ "$error" != 0 ] || how=retval=0
  [ "$call" != pread64 ] || disturbed=disturbed_singly
  for ((number = 0; number < 3; number++)); do
    back made
    [ "$call" != pread64 ] || singly "disk$number" "${IMAGES[@]}" -- run
    for ((when = 1; when <= last; when++)); do
      back made
      $disturbed "disk$number" "$call:$how:when=$when" "${IMAGES[@]}" -- run
      [ "$STATUS" != none ] && grep -q INJECTED trace || break
      times=$((times + 1))
      told="raidzx: disk$number: 1 call failed in this run"
      if [ "$(wc -l <told)" = 2 ]; then
        was "$call $when of disk$number" 0 "$whole" "$told" "raidzx: disk$number: out of the pool for good"
        out=$((out + 1))
      else
        was "$call $when of disk$number" 0 "$whole" "$told"
      fi
      found=$("$RAIDZX" "${IMAGES[@]}" -- run <again 2>told) && [ "$found" = "$later" ] ||
        failed "after $call $when of disk$number" "$found"
    done
  done
  [ $times -gt 0 ] || failed "$call fails with $error" 'no call was made to fail'
  printf 'ok %s fails with %s, %s times on one image: the run and the next one answer all, %s times it is out\n' \
    "$call" "$error" $times $out
}
borne fdatasync EIO 4
borne fdatasync ENOSPC 4
borne pwrite64 EIO 4
borne pwrite64 ENOSPC 4
borne pread64 EIO 64 # the ring, as it is read at the start and by the opening
for number in 0 1; do
  back made
  singly "disk$number" "${IMAGES[@]}" -- run
  back made
  disturbed_singly "disk$number" pread64:error=EIO:when=65 "${IMAGES[@]}" -- run
  was "the block's sector on disk$number is not read" 0 "$whole" "raidzx: disk$number: 1 call failed in this run"
done
echo 'ok a block whose sector is not read is answered'

# A call that moves nothing has failed.
borne pwrite64 0 4
borne pread64 0 64

# A read of several sectors that fails, moves a part or nothing, or is interrupted, is nobody's fault: the sectors that are
# asked for are read alone, and nothing is told. The first and the second call on each image are such ones, of the ring.
for number in 0 1 2; do
  for when in 1 2; do
    for how in error=EIO error=ENOSPC error=EINTR retval=0 retval=100 retval=1024; do
      back made
      disturbed "disk$number" "pread64:$how:when=$when" "${IMAGES[@]}" -- run
      grep INJECTED trace | grep -qv ', 512, ' || failed "a read ahead with $how" "$(cat trace)"
      was "a read ahead of disk$number with $how" 0 "$whole"
    done
  done
done
echo 'ok a read ahead that fails is made again sector by sector, and is not told'

# Calls that fail from one on, on two images: too many, and what was synced before is there once they are back.
strace_two() { # CALL FIRST
  STATUS=0
  strace -f -s 0 -o trace -P "$PWD/disk0" -P "$PWD/disk1" -e "trace=$1" -e "inject=$1:error=EIO:when=$2+" \
    "$RAIDZX" "${IMAGES[@]}" -- run <script >found 2>told || STATUS=$?
}
back made
runs 'a block that is synced' 0 "$whole" 'puthex 7 616263' sync 'get 7'
keep synced
calls 'get 7' 'puthex 8 64' sync 'get 7' >script
strace_two pwrite64 5 # behind the opening and the put
was 'two images fail at a sync' 4 "$(printf '%s\n' '0 group 6 after 0' '1 a.1 get 7 at 1 bytes 616263' \
  '2 a.2 put 8 ok' '3 a.3 sync too many failed 0 1' '4 a.4 get 7 too many failed 0 1' 'too many failed 0 1')" \
  'raidzx: disk0: 1 call failed in this run' 'raidzx: disk1: 1 call failed in this run' \
  'raidzx: calls not carried out, as too many disks are out: 2; run them again once these are back'
found=$("$RAIDZX" "${IMAGES[@]}" -- run <again 2>told) || failed 'after too many failures' "$found"
[ "$(answers <<<"$found")" = 'get 7 bytes 616263' ] || failed 'after too many failures' "$found"
echo 'ok two images fail at a sync: it is refused, and the next run reads what was synced before'

# A create is refused with the first image that fails a call: the ring is one write, and the pool's uberblock the next.
for number in 0 1 2; do
  for fault in pwrite64:error=EIO:when=1 pwrite64:error=ENOSPC:when=1 fdatasync:error=EIO:when=1 \
    pwrite64:error=EIO:when=2 pwrite64:error=ENOSPC:when=2 fdatasync:error=EIO:when=2; do
    back made
    disturbed "disk$number" $fault "${IMAGES[@]}" -- create --parity 1 --width 3 --id 9
    was "a create with $fault on disk$number" 4 "too many failed $number" \
      "raidzx: disk$number: 1 call failed in this run"
  done
done
echo 'ok a create is refused with the image that fails'

# Interrupted calls are made again: on images, at the opening, on standard input and output.
INPUT=script
calls 'puthex 7 616263' sync 'get 7' >script
for fault in pread64 pwrite64 fdatasync flock openat; do
  back made
  disturbed disk1 "$fault:error=EINTR:when=1..3" "${IMAGES[@]}" -- run
  grep -q INJECTED trace || failed "$fault is interrupted" 'it is not'
  was "$fault is interrupted" 0 "$whole"
done
back made
disturbed script read:error=EINTR:when=1..3 "${IMAGES[@]}" -- run
grep -q INJECTED trace || failed 'standard input is interrupted' 'it is not'
was 'standard input is interrupted' 0 "$whole"
back made
disturbed found write:error=EINTR:when=1..3 "${IMAGES[@]}" -- run
grep -q INJECTED trace || failed 'standard output is interrupted' 'it is not'
was 'standard output is interrupted' 0 "$whole"
echo 'ok interrupted calls are made again'

# A call that moves a part is gone on with: the rest is asked for, at its place. The images hold zeros, and so do the
# bytes that such a call has not moved.
rest() { # NAME OFFSET: the call behind the injected one
  grep -A 1 INJECTED trace | tail -n 1 | grep -q ", 412, $2) *= 412" || failed "$1" "$(grep -A 1 INJECTED trace)"
}
truncate -s 0 "${IMAGES[@]}"
truncate -s 131072 "${IMAGES[@]}"
"$RAIDZX" "${IMAGES[@]}" -- create --parity 1 --width 3 --id 9 >text
keep zeros
singly disk1 "${IMAGES[@]}" -- run
back zeros
disturbed_singly disk1 pread64:retval=100:when=5 "${IMAGES[@]}" -- run # of a sector that is read alone
was 'a read of a part' 0 "$whole"
rest 'a read of a part' $((4 * 512 + 100))
calls "puthex 8 $(printf '%02048d' 0)" >script # on each image one sector of zeros
disturbed disk1 pwrite64:retval=100:when=2 "${IMAGES[@]}" -- run
was 'a write of a part' 0 "$(printf '%s\n' '0 group 6 after 0' '1 a.1 put 8 ok')"
offset=$(sed -n 's/.*512, \([0-9]*\)) *= 100 (INJECTED)$/\1/p' trace)
rest 'a write of a part' $((offset + 100))
echo 'ok a call that moves a part is gone on with'

# A write of several sectors: of each image the column of a block of 12 sectors, the second write that is made of it. It
# fails whole, and its image is out; the next run has both blocks, also without that image.
INPUT=script
back synced
calls "put 8 6144 5" sync 'sum 8' 'get 7' >script
"$RAIDZX" "${IMAGES[@]}" -- run <script >row
calls 'sum 8' 'get 7' >both
answers <row >wanted
for number in 0 1 2; do
  for fault in error=EIO error=ENOSPC retval=0; do
    back synced
    disturbed "disk$number" "pwrite64:$fault:when=2" "${IMAGES[@]}" -- run
    grep INJECTED trace | grep -qv ', 512, ' || failed "a write of a row with $fault" "$(cat trace)"
    was "a write of a row on disk$number with $fault" 0 "$(cat row)" "raidzx: disk$number: 1 call failed in this run" \
      "raidzx: disk$number: out of the pool for good"
    "$RAIDZX" "${IMAGES[@]}" -- run <both 2>told | answers | cmp -s - wanted || failed 'then' "$(cat told)"
    rm "disk$number"
    "$RAIDZX" "${IMAGES[@]}" -- run <both 2>told | answers | cmp -s - wanted || failed 'then without it' "$(cat told)"
  done
  # Interrupted it is made again, and the images are those of a run that was not.
  back synced
  "$RAIDZX" "${IMAGES[@]}" -- run <script >/dev/null
  keep undisturbed
  back synced
  disturbed "disk$number" pwrite64:error=EINTR:when=2..4 "${IMAGES[@]}" -- run
  [ "$(grep -c INJECTED trace)" = 3 ] || failed 'a write of a row is interrupted' "$(cat trace)"
  was "a write of a row on disk$number is interrupted" 0 "$(cat row)"
  unchanged 'an interrupted write of a row' undisturbed >/dev/null
done
echo 'ok a write of a row that fails puts its image out, and loses nothing; interrupted it is made again'

# It moves a part, in the midst of a sector, and is gone on with: images and block hold zeros, and so do the bytes that
# such a call has not moved. At its end, within a run without a sync, it is handed over all the same.
row_of() { sed -n 's/.*""..., \([0-9]*\), \([0-9]*\)) *= 1300 (INJECTED)$/\1 \2/p' trace; }
for number in 0 1 2; do
  for last in sync 'get 7'; do
    back zeros
    calls "puthex 8 $(printf '%012288d' 0)" "$last" >script
    "$RAIDZX" "${IMAGES[@]}" -- run <script >row
    keep undisturbed
    back zeros
    disturbed "disk$number" pwrite64:retval=1300:when=2 "${IMAGES[@]}" -- run
    was "a write of a row on disk$number moves a part" 0 "$(cat row)"
    read -r length offset < <(row_of)
    grep -A 1 INJECTED trace | tail -n 1 | grep -q ", $((length - 1300)), $((offset + 1300))) *= $((length - 1300))" ||
      failed 'a write of a row moves a part' "$(cat trace)"
    unchanged 'a write of a row that moved a part' undisturbed >/dev/null
  done
done
echo 'ok a write of a row that moves a part is gone on with'

# It moves a part, and the rest fails: files may not grow behind the sector that is the last one of the row, which only the
# first image has of this block.
back synced
calls 'put 8 5632 5' sync 'sum 8' 'get 7' >script
"$RAIDZX" "${IMAGES[@]}" -- run <script >row
answers <row >wanted
keep undisturbed
back synced
STATUS=0
(trap '' XFSZ && ulimit -f 99 && "$RAIDZX" "${IMAGES[@]}" -- run <script >found 2>told) || STATUS=$?
was 'a part of a row is written' 0 "$(cat row)" 'raidzx: disk0: 1 call failed in this run' \
  'raidzx: disk0: out of the pool for good'
sectors disk0 193 5 | cmp -s - <(sectors undisturbed/disk0 193 5) || failed 'a part of a row is written' 'it is not'
sectors disk0 198 1 | cmp -s - <(sectors synced/disk0 198 1) || failed 'a part of a row is written' 'all of it is'
"$RAIDZX" "${IMAGES[@]}" -- run <both 2>told | answers | cmp -s - wanted || failed 'then' "$(cat told)"
rm disk0
"$RAIDZX" "${IMAGES[@]}" -- run <both 2>told | answers | cmp -s - wanted || failed 'then without it' "$(cat told)"
echo 'ok a write of a row of which a part is written and the rest fails puts its image out, and loses nothing'

# An image that can't be opened for a reason that is none of its disk's refuses the run, and is not touched.
calls 'get 7' >script
refused() { # NUMBER FAULT WHY
  back synced
  disturbed "disk$1" "$2" "${IMAGES[@]}" -- run
  was "$2 on disk$1" 4 "too many failed $1" \
    "raidzx: disk$1: cannot be opened: $3; nothing was done, as the disk may be whole; to go on without it for good,\
 name in its place a word at which nothing stands"
  unchanged 'no image is touched' synced >/dev/null
}
for number in 0 1 2; do
  refused $number openat:error=EACCES 'Permission denied (os error 13)'
  refused $number openat:error=EPERM 'Operation not permitted (os error 1)'
  refused $number openat:error=EMFILE 'Too many open files (os error 24)'
  refused $number openat:error=ENFILE 'Too many open files in system (os error 23)'
  refused $number openat:error=ENOMEM 'Cannot allocate memory (os error 12)'
  refused $number flock:error=ENOLCK 'No locks available (os error 37)'
  back synced
  disturbed "disk$number" flock:error=EAGAIN "${IMAGES[@]}" -- run
  was "disk$number is locked" 4 "too many failed $number" \
    "raidzx: disk$number: another program has it, or it is named twice; nothing was done"
done
echo 'ok what this program is refused refuses the run'
for fault in openat:error=EIO openat:error=ENXIO openat:error=ETXTBSY lseek:error=EIO; do
  back synced
  disturbed disk1 $fault "${IMAGES[@]}" -- run
  [ $STATUS = 0 ] && [ "$(cat found)" = "$later" ] && grep -q '^raidzx: disk1: cannot be opened: .*failed$' told ||
    failed "$fault" "$(cat found told)"
done
echo 'ok what its disk fails is a failed disk'
# So does a program that may have few descriptors.
back synced
STATUS=0
(ulimit -n 7 && "$RAIDZX" "${IMAGES[@]}" -- run <script >found 2>told) || STATUS=$?
was 'few descriptors' 4 'too many failed 1' \
  'raidzx: disk1: cannot be opened: Too many open files (os error 24); nothing was done, as the disk may be whole; to go'\
' on without it for good, name in its place a word at which nothing stands'
unchanged 'few descriptors leave all as it is' synced

# Every exit status.
statuses() { # STATUS COMMAND..
  local wanted=$1
  shift
  STATUS=0
  "$@" >found 2>told || STATUS=$?
  [ $STATUS = "$wanted" ] || failed "status $wanted" "$STATUS: $(cat found told)"
  printf 'ok status %s\n' "$wanted"
}
over() { "$RAIDZX" "${IMAGES[@]}" -- "$@" <script; }
statuses 0 over run
statuses 1 over sweep
echo 'clients 0' >script
statuses 2 over run
calls >script
truncate -s 0 "${IMAGES[@]}"
truncate -s 131072 "${IMAGES[@]}"
statuses 3 over run
rm disk0
statuses 4 over create --parity 1 --width 3 --id 9
back made
statuses 5 over create --parity 1 --width 4 --id 9
statuses 6 "$RAIDZX" "${IMAGES[@]}" -- run <&-
full() { over run >/dev/full; }
statuses 7 full
echo 'clients 9' >script
statuses 9 over run

# Memory that is wanting, by less and less room: each run ends as told, and the next one finds what was synced.
back synced
{
  echo 'clients 1'
  for id in $(seq 20 40); do echo "a put $id 65536 $id"; done
  echo 'a sync'
} >script
wanting=0
for room in $(seq 9000 -50 1000); do
  STATUS=0
  (ulimit -v "$room" && "$RAIDZX" "${IMAGES[@]}" -- run <script >found 2>told) 2>/dev/null || STATUS=$?
  case $STATUS in
    0) ;;
    8)
      [ "$(tail -n 1 found)" = 'no memory' ] || failed 'status 8' "$(cat found)"
      wanting=$((wanting + 1))
      ;;
    *) break ;; # there is no room for the program itself
  esac
done
if [ $wanting -gt 0 ]; then
  printf 'ok status 8, in %s runs\n' $wanting
else
  echo 'skipped status 8: no room for memory was found at which the program starts and runs out of it'
fi
found=$("$RAIDZX" "${IMAGES[@]}" -- run <again 2>told) || failed 'after runs without memory' "$found"
[ "$(answers <<<"$found")" = 'get 7 bytes 616263' ] || failed 'after runs without memory' "$found"
echo 'ok after runs without memory all is there'
