#!/usr/bin/env bash
# A run is stopped at each of its writes and syncs: the next run finds the last group that was synced, or a later one.
for tool in strace python3; do
  command -v $tool >/dev/null || { echo "ok stops are passed over: there is no $tool"; exit 0; }
done
strace -o /dev/null true 2>/dev/null || { echo 'ok stops are passed over: strace may not trace here'; exit 0; }
TESTS=$(cd "$(dirname "$0")" && pwd)
[ ! -w /dev/shm ] || export TMPDIR=/dev/shm # many short runs: files in memory will do
. "$TESTS/build.sh"

calls 'sum 7' 'sum 8' >reads
block() { echo "sum $1 length $2 sha $(pattern "$2" "$3" | sha256sum | cut -c 1-64)"; }
printf 'sum 7 absent\nsum 8 absent\n' >none
{ block 7 3 5; echo 'sum 8 absent'; } >one
{ block 7 600 2; block 8 70 1; } >two
{ echo 'sum 7 absent'; block 8 1500 3; } >three

# stops NAME OLD EVERY GROUP=FILE..: traces the run of `script` on the images, or its replay where COMMAND says so, of
# which the first so many are the pool's, and stops it at each call; of the calls on data rows and the scratch area at
# one of so many. Where there is a script `copies`, what is left is copied too.
COMMAND=run
stops() {
  local name=$1 old=$2 every=$3 found
  shift 3
  keep start
  strace -f -y -xx -s 32768 -e trace=pwrite64,pwritev,pwritev2,fdatasync,fsync,sync_file_range,ftruncate,fallocate \
    -o trace "$RAIDZX" "${IMAGES[@]}" -- $COMMAND <script >text 2>told
  keep end
  rm -rf stop
  mkdir stop
  mv trace start end stop
  cp reads stop
  [ ! -f copies ] || cp copies stop
  found=$(python3 "$TESTS/stops.py" "$RAIDZX" stop ${#IMAGES[@]} "$old" "$every" "$@") || { echo "$found"; exit 1; }
  printf 'ok %s: %s\n' "$name" "$found"
}

pool 1 3 256
calls 'put 7 3 5' sync 'put 7 600 2' 'put 8 70 1' sync >script
stops 'the first run of a pool' 3 1 1=none 3=none 4=one 5=two

# The uberblock of group 5 stands on disk0 alone, as a stop may leave it: the opening copies it first.
for device in 1 2; do dd if=/dev/zero of=disk$device bs=512 seek=5 count=1 conv=notrunc status=none; done
keep torn
calls 'free 7' 'put 8 1500 3' sync >script
stops 'a run on what a stop has left' 3 1 4=one 5=two 6=one 7=two 8=three

back torn
rm disk1
stops 'a run without an image' 3 1 4=one 5=two 6=one 7=two 8=three

back torn
rm disk0
stops 'a run without the image of the newest group' 3 1 4=one 6=one 7=three

# A fourth image is attached, between a sync and further puts.
pool 1 3 256
fresh disk3 256
IMAGES+=(disk3)
calls 'put 7 3 5' sync attach 'put 7 600 2' 'put 8 70 1' sync >script
stops 'a run that attaches an image' 3 1 1=none 3=none 4=one 5=one 6=two

# The uberblock of the attach's group stands on the new image alone, as a stop may leave it. From here on scripts are replayed: a run
# would go on with the expansion by itself.
COMMAND=replay
back stop/start
calls 'put 7 3 5' sync attach >script
"$RAIDZX" "${IMAGES[@]}" -- run <script >/dev/null
for device in 0 1 2; do dd if=/dev/zero of=disk$device bs=512 seek=5 count=1 conv=notrunc status=none; done
calls 'free 7' 'put 8 1500 3' sync >script
stops 'a replay on what a stop of an attach has left' 3 1 4=one 5=one 7=one 8=three

# An image is attached and the pool copied to it, which is full but for six sectors, between a sync and further puts.
# Blocks 2 and 4 lie across sectors 128 and 167, up to where single commits move the mark.
pool 1 3 256
fresh disk3 256
IMAGES+=(disk3)
calls 'sum 1' 'sum 2' 'sum 3' 'sum 4' 'sum 5' >reads
for id in 1 2 3 4 5; do echo "sum $id absent"; done >none
{ block 1 30000 1; block 2 15000 2; block 3 10000 3; block 4 5000 4; block 5 600 5; } >one
{ sed 3q one | sed '2d'; block 2 70 6; } | sort >two
{ echo 'sum 4 absent'; block 5 1500 7; } >>two
calls 'put 1 30000 1' 'put 2 15000 2' 'put 3 10000 3' 'put 4 5000 4' 'put 5 600 5' sync attach copy \
  'put 2 70 6' 'free 4' 'put 5 1500 7' sync >script
calls copy 'sum 1' 'sum 2' 'sum 3' 'sum 4' 'sum 5' >copies
stops 'a replay that attaches an image and copies' 3 20 1=none 3=none 4=one 5=one 6=one 7=one 8=one 9=one 10=two

# The pool is copied in another run, while a second client frees a block, puts one where that was, across sector 167,
# and syncs. The first sync comes in the fill, the put and the second one in the drain, and the third one behind all.
pool 1 3 256
fresh disk3 256
IMAGES+=(disk3)
calls 'put 1 30000 1' 'put 2 15000 2' 'put 3 10000 3' 'put 4 5000 4' 'put 5 600 5' sync attach >script
"$RAIDZX" "${IMAGES[@]}" -- run <script >/dev/null
printf '%s\n' 'clients 2' 'a copy' 'b free 4' 'b sync' 'b put 5 1500 7' 'b sync' 'b put 2 70 6' 'b sync' \
  "order $(turns a 100)$(turns b 19)$(turns a 200)$(turns b 25)$(turns a 500)" >script
sed 's/^sum 4 .*/sum 4 absent/' one >freed
{ sed 4q freed; block 5 1500 7; } >put
stops 'a replay that copies beside puts' 4 20 5=one 7=one 8=freed 9=freed 10=put 11=put 12=put 13=put 14=two
[ "$(cat text)" = '0 group 7 after 0
1 b.1 free 4 ok
2 group 8 after 2
3 b.2 sync group 8
4 group 9 after 4
5 b.3 put 5 ok
6 group 10 after 6
7 b.4 sync group 10
8 group 11 after 8
9 group 12 after 9
10 group 13 after 10
11 a.1 copy done width 4
12 b.5 put 2 ok
13 group 14 after 13
14 b.6 sync group 14' ] || failed 'a replay that copies beside puts' "$(cat text)"
