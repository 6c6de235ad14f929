#!/usr/bin/env bash
# A disk that missed something is noticed: an older copy of an image that is put back is out, and no block is read from it.
[ ! -w /dev/shm ] || export TMPDIR=/dev/shm # many short runs: files in memory will do
. "$(dirname "$0")/build.sh"

pool 1 3 256
calls 'put 1 3000 1' 'put 2 600 2' sync >first
calls 'put 1 3000 9' sync 'put 3 900 3' sync >second
calls 'sum 1' 'sum 2' 'sum 3' >reads
printf 'sum %s\n' "1 $(summed 3000 9)" "2 $(summed 600 2)" "3 $(summed 900 3)" >wanted
"$RAIDZX" "${IMAGES[@]}" -- run <first >/dev/null
keep old
"$RAIDZX" "${IMAGES[@]}" -- run <second >/dev/null
keep new

# Each image in turn is an older copy.
for number in 0 1 2; do
  back new
  cp "old/disk$number" .
  shows 3 0:3 $number 3
  reads_wanted "disk$number is an older copy"
  tells "disk$number is told" "raidzx: disk$number: its last group is 4, the pool's is 8: it missed what was synced since,\
 and is out for good" "raidzx: disk$number: out of the pool for good"
  cmp -s "old/disk$number" "disk$number" || failed "disk$number is an older copy" 'it was written'
  reads_wanted "disk$number is an older copy, in the next run"
done
echo 'ok an older copy is out, and is not written'

# Two of them are one too many for one parity, and nothing is done.
back new
cp old/disk0 old/disk2 .
keep mixed
INPUT=reads expect 'two older copies are one too many' 4 'too many failed 0 2' "${IMAGES[@]}" -- run
unchanged 'nothing is written then' mixed

# A disk that is added does not get what an older copy holds.
back new
cp old/disk1 .
fresh disk3 256
IMAGES+=(disk3)
calls attach copy 'sum 1' 'sum 2' 'sum 3' >script
"$RAIDZX" "${IMAGES[@]}" -- replay <script >found 2>told || failed 'an attach beside an older copy' "$(cat found)"
grep -qx '1 a.1 attach device out 1' found || failed 'an attach beside an older copy' "$(cat found)"
answers <found | cmp -s - wanted || failed 'reads beside an older copy' "$(cat found)"
echo 'ok no disk is added beside an older copy'

# Openings that are stopped leave no disk behind: with each image missing in turn, and stopped after so many calls.
if command -v strace >/dev/null && strace -o /dev/null true 2>/dev/null; then
  IMAGES=(disk0 disk1 disk2)
  for first in 1 2 3 4 5 6; do
    for second in 1 2 3 4 5 6; do
      back new
      for when in $first $second; do
        strace -f -o /dev/null -e trace=pwrite64,fdatasync -e inject=pwrite64,fdatasync:signal=KILL:when="$when" \
          "$RAIDZX" "${IMAGES[@]}" -- run <reads >/dev/null 2>&1 || true
      done
      shows 3 0:3 none 3
      reads_wanted "openings stopped at call $first and then $second"
    done
  done
  echo 'ok openings that are stopped leave no disk behind'
else
  echo 'skipped openings that are stopped: strace may not trace here'
fi
