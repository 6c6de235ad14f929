#!/usr/bin/env bash
# Where syncs take long, those of all images are begun beside each other. strace makes each one take long.
command -v strace >/dev/null || { echo 'ok early syncs are passed over: there is no strace'; exit 0; }
strace -o /dev/null true 2>/dev/null || { echo 'ok early syncs are passed over: strace may not trace here'; exit 0; }
[ ! -w /dev/shm ] || export TMPDIR=/dev/shm # no sync takes long there but for its delay
. "$(dirname "$0")/build.sh"

# slowly [FAULT]: a run whose syncs take 30 milliseconds each, and in which this fault is made. Its text stands in
# `found`, what it tells in `told`, its calls in `trace`.
slowly() {
  STATUS=0
  strace -f -y -s 0 -o trace -e trace=fdatasync,fcntl,clone3 -e inject=fdatasync:delay_enter=30000 \
    ${1:+-e "inject=$1"} "$RAIDZX" "${IMAGES[@]}" -- run <script >found 2>told || STATUS=$?
}
# beside: how many syncs were under way at once, at most. strace ends the line of a call that another one comes into,
# and tells its end in a line of its own.
beside() {
  awk '
    / fdatasync\(/ { under_way++; if (most < under_way) most = under_way }
    / fdatasync\(.* = / || /fdatasync resumed/ { under_way-- }
    END { print most }' trace
}
# synced COUNT: each image was synced so many times.
synced() {
  local image
  for image in "${IMAGES[@]}"; do
    [ "$(grep -c " fdatasync(.*/$image>" trace)" = "$1" ] || failed "$1 syncs of $image" "$(cat trace)"
  done
}

# An opening and two commits, each with two syncs of each image. The fifth sync of the opening is the first one before
# which four have taken long, and then all images are synced already: so syncs are begun early from its second five on.
pool 2 5 256
keep made
calls 'puthex 7 616263' sync 'put 8 3000 5' sync 'get 7' 'sum 8' >script
"$RAIDZX" "${IMAGES[@]}" -- run <script >text
back made
slowly
was 'slow syncs' 0 "$(cat text)"
[ "$(beside)" = 5 ] || failed 'slow syncs' "$(beside) were under way at once: $(cat trace)"
synced 6
echo 'ok slow syncs of five images are under way at once, and each is made once'

# Where there is no thread or no descriptor for it, a sync is made in its turn.
for fault in clone3:error=EAGAIN fcntl:error=EMFILE; do
  back made
  slowly "$fault"
  grep -q INJECTED trace || failed "$fault" 'no call was made to fail'
  was "$fault" 0 "$(cat text)"
  [ "$(beside)" = 1 ] || failed "$fault" "$(beside) were under way at once"
  synced 6
done
echo 'ok without threads or descriptors for them syncs are made one by one'

# An early sync that fails: its thread is given a descriptor that is none. Each round of them asks for four, of disk1
# to disk4: the fourth is of the opening, the others are of both halves of both commits. Its disk has failed, and no
# other. A later group lists it as out, and that of its own commit does, but for what has failed in the second half of
# the last one.
calls 'get 7' 'sum 8' >reads
answers <text >wanted
for row in '4 4' '6 2' '9 1' '15 3' '20 4'; do
  set -- $row
  back made
  slowly "fcntl:retval=999:when=$1"
  [ "$(grep -c 'fdatasync.* = -1 EBADF' trace)" = 1 ] || failed "early sync $1" "it has not failed: $(cat trace)"
  told=("raidzx: disk$2: out of the pool for good")
  [ "$1" != 20 ] || told=()
  was "early sync $1 fails" 0 "$(cat text)" "raidzx: disk$2: 1 call failed in this run" "${told[@]}"
  reads_wanted "early sync $1 has failed"
  rm "disk$2"
  reads_wanted "early sync $1 has failed, without disk$2"
  rm disk0
  reads_wanted "early sync $1 has failed, without disk$2 and disk0"
done
echo 'ok an early sync that fails costs its disk alone, and loses nothing that was synced'
