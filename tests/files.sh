#!/usr/bin/env bash
# A pool on real files: what a later run finds, where it stands, and what is refused and left alone.
. "$(dirname "$0")/build.sh"

lengths() { stat -c '%n %s' "${IMAGES[@]}"; }
# same_lengths NAME: no image has grown or shrunk since the lengths were noted.
same_lengths() {
  lengths | cmp -s - lengths || failed "$1" "$(lengths)"
  printf 'ok %s\n' "$1"
}

# What a second run finds.
pool 1 3 256
lengths >lengths
runs 'a block is put, read and synced' 0 '0 group 3 after 0
1 a.1 put 7 ok
2 a.2 get 7 at 2 bytes 050c13
3 group 4 after 3
4 a.3 sync group 4' 'put 7 3 5' 'get 7' 'sync'
keep first
runs 'a second run reads it' 0 '0 group 6 after 0
1 a.1 get 7 at 1 bytes 050c13' 'get 7'

# Where the first run's bytes stand: the block takes sectors 0 and 1, its parity first.
back first
pattern 3 5 >block
bytes "0000000000000007 0000000000000000 00000003 0000000000000004 $(digest block) 00000000" | filled 512 >page
filled 512 <block >column
for device in 0 1 2; do
  bytes "525a585055423031 00000001 0000000$device 0000000000000009 0000000000000004
    00000001 00000003 00000003 00000000 0000000000000040 0000000000000000 0000000000000000
    00000001 00000001 $(digest page) 0000000000000000 00000003" | filled 480 >head
  { cat head; bytes "$(digest head)"; } >uberblock
  sectors disk$device 4 1 | cmp -s - uberblock || failed 'the uberblock of group 4' disk$device
  sectors disk$device 64 1 | cmp -s - page || failed 'the index page' disk$device
  unused disk$device 5 27   # slots
  unused disk$device 32 32  # the scratch area
  unused disk$device 65 127 # the rest of the index areas
  unused disk$device 193 63 # the data rows from the second on
done
unused disk2 192 1
echo 'ok the uberblock of group 4 in slot 4 of each image'
echo 'ok the index page in index area 0 of each image'
echo 'ok nothing stands in sectors that are not used'
sectors disk0 192 1 >found
same 'the parity of the block' found column
sectors disk1 192 1 >found
same 'the bytes of the block' found column
runs 'a block of two sectors' 0 "0 group 6 after 0
1 a.1 put 8 ok
2 group 7 after 2
3 a.2 sync group 7
4 a.3 sum 8 at 4 length 600 sha $(pattern 600 2 | sha256sum | cut -c 1-64)" 'put 8 600 2' 'sync' 'sum 8'
# It takes sectors 2 to 4: parity on device 2 in row 0, content on devices 0 and 1 in row 1.
pattern 600 2 | filled 1024 >content
{ sectors disk0 193 1; sectors disk1 193 1; } >found
same 'its bytes stand in two columns' found content
od -An -v -tu1 -w1 content >numbers
paste -d ' ' <(head -n 512 numbers) <(tail -n 512 numbers) |
  while read -r one other; do printf '%d\n' $((one ^ other)); done >sums
sectors disk2 192 1 | od -An -v -tu1 -w1 | tr -d ' ' >found
same 'its parity is their sum' found sums
same_lengths 'no image grows'

# Blocks that are written again, freed, or never synced.
runs 'written again, freed, and absent' 0 '0 group 9 after 0
1 a.1 put 7 ok
2 a.2 get 7 at 2 bytes 01ff
3 a.3 free 8 ok
4 a.4 get 8 at 4 absent
5 a.5 free 8 absent
6 a.6 sum 5 at 6 absent
7 group 10 after 7
8 a.7 sync group 10
9 a.8 put 9 ok' 'puthex 7 01ff' 'get 7' 'free 8' 'get 8' 'free 8' 'sum 5' 'sync' 'put 9 70 1'
runs 'the run after it, and no block that was not synced' 0 '0 group 12 after 0
1 a.1 get 7 at 1 bytes 01ff
2 a.2 get 8 at 2 absent
3 a.3 get 9 at 3 absent' 'get 7' 'get 8' 'get 9'
same_lengths 'no image grows'

# Failed devices. The blocks, and what each run has to answer:
pool 1 3 256
calls 'put 7 3 5' 'put 8 5000 1' 'put 9 12000 3' 'sync' >script
"$RAIDZX" "${IMAGES[@]}" -- run <script >/dev/null
keep made
calls 'get 7' 'sum 8' 'sum 9' >reads
for block in '8 5000 1' '9 12000 3'; do
  set -- $block
  echo "sum $1 length $2 sha $(pattern "$2" "$3" | sha256sum | cut -c 1-64)"
done >sums
{ echo 'get 7 bytes 050c13'; cat sums; } >wanted

# fails HOW IMAGE: makes it an image that fails.
fails() {
  case $1 in
    missing) rm "$2" ;;
    'no file') rm "$2" && mkdir "$2" ;;
    'cut off in the ring') truncate -s 4096 "$2" ;;
    'cut off in the data') truncate -s 98816 "$2" ;;
  esac
}
# kinds: what stands under the images' names.
kinds() { stat -c '%n %F %s' disk* | sed 's/\(directory\) .*/\1/'; }

for how in missing 'no file' 'cut off in the ring' 'cut off in the data'; do
  for image in disk0 disk1 disk2; do
    back made
    fails "$how" $image
    kinds >before
    "$RAIDZX" disk0 disk1 disk2 -- run <reads 2>told | answers | cmp -s - wanted || failed "$image, $how" 'other blocks'
    kinds | cmp -s - before || failed "$image, $how" "$(kinds)"
  done
  printf 'ok all blocks are read with one image %s\n' "$how"
done
for how in missing 'no file' 'cut off in the ring'; do
  for left in 0 1 2; do
    back made
    for number in 0 1 2; do
      [ $number = $left ] || fails "$how" disk$number
    done
    kinds >before
    failed_ones=$(echo 0 1 2 | sed "s/$left//; s/  / /; s/^ //; s/ $//")
    INPUT=reads expect "with two images $how" 4 "too many failed $failed_ones" disk0 disk1 disk2 -- run
    unchanged 'the third one is left alone' made disk$left
    kinds | cmp -s - before || failed "two images $how" "$(kinds)"
  done
done
back made
fails 'cut off in the data' disk0
fails 'cut off in the data' disk1
runs 'two images that are cut off behind the first data row' 4 '0 group 6 after 0
1 a.1 get 7 at 1 bytes 050c13
2 a.2 sum 8 too many failed 0 1
3 a.3 sync too many failed 0 1
too many failed 0 1' 'get 7' 'sum 8' 'sync'

# A device that was out is not taken back: what it holds is old.
back made
rm disk1
runs 'a run without an image' 0 '0 group 6 after 0
1 a.1 put 7 ok
2 group 7 after 2
3 a.2 sync group 7' 'puthex 7 ff' 'sync'
cp made/disk1 .
runs 'the image is there again, with old bytes that are not read' 0 '0 group 9 after 0
1 a.1 get 7 at 1 bytes ff' 'get 7'
same 'and it is not written' disk1 made/disk1
keep before
rm disk0
runs 'a second image that is missing is one too many' 4 'too many failed 0 1' 'get 7'
unchanged 'the others are left alone' before disk1 disk2

# Two programs: while the first has the pool, others are refused and change nothing.
back made
mkfifo pipe
"$RAIDZX" "${IMAGES[@]}" -- run <pipe >text &
exec 8>pipe
calls 'put 7 2 1' >&8
# The first has its images once the last of them is locked.
for wait in $(seq 200); do
  ! locked disk2 || break
  sleep 0.05
done
locked disk2 || failed 'the first program' 'it has not locked its images'
for words in run 'create --parity 1 --width 3 --id 5'; do
  status=0
  "$RAIDZX" "${IMAGES[@]}" -- $words <reads >second 2>&1 || status=$?
  [ $status != 0 ] || failed "a second program ($words)" "$(cat second)"
  ! grep -q group second || failed "a second program ($words)" "$(cat second)"
  unchanged "a second program is refused ($words)" made
done
calls sync 'get 7' | tail -n 2 >&8
exec 8>&-
wait $! || failed 'the first program' "status $?"
printf '%s\n' '0 group 6 after 0' '1 a.1 put 7 ok' '2 group 7 after 2' '3 a.2 sync group 7' \
  '4 a.3 get 7 at 4 bytes 0108' >wanted
same 'the first program goes on' text wanted

# An output that fails: the run has been carried out, and what it synced is kept.
back made
calls 'puthex 7 aa' sync >script
status=0
"$RAIDZX" "${IMAGES[@]}" -- run <script >/dev/full || status=$?
[ $status = 7 ] || failed 'a full output' "status $status"
calls 'puthex 8 bb' sync >script
status=0
"$RAIDZX" "${IMAGES[@]}" -- run <script >&- || status=$?
[ $status = 7 ] || failed 'a closed output' "status $status"
runs 'a full and a closed output' 0 '0 group 12 after 0
1 a.1 get 7 at 1 bytes aa
2 a.2 get 8 at 2 bytes bb' 'get 7' 'get 8'
same_lengths 'no image grows'

# Scripts and inputs that are refused.
back made
refused() {
  expect "$@" "${IMAGES[@]}" -- run
  unchanged 'leaves the pool alone' made
}
input() { printf "$1" >script; INPUT=script; }
input 'clients 1\na put 7 1 1\n\na sync\na get 07\n'
refused 'a number with a leading zero' 2 'script line 5'
input 'clients 1\n# b is no client here\na put 7 1 1\nb sync\n'
refused 'a client that there is not' 2 'script line 4'
input 'clients 1\na put 7 65537 1\n'
refused 'a block of too many bytes' 2 'script line 2'
input 'clients 1\na puthex 7 abc\n'
refused 'half a byte' 2 'script line 2'
input 'a sync\n'
refused 'no line of clients' 2 'script line 1'
input ''
refused 'an empty script' 2 'script line 1'
input 'clients 9\na sync\n'
refused 'nine clients' 9 limit
tells 'the limits are told' 'raidzx: a script has at most 16777216 bytes, 8 clients and 10000 calls, and a pool has 2^62 '\
'groups; nothing was done'
{ echo 'clients 1'; yes 'a sync' | head -n 10001; } >script
refused '10,001 calls' 9 limit
INPUT=.
refused 'an input that is a folder' 6 'source fault'
images 3 256
keep made
INPUT=reads
refused 'images that are no pool' 3 'not a pool'

# An image that can be read and not written, by nobody: a program that runs.
back first
program=$(command -v sleep)
rm disk1
cp "$program" disk1
./disk1 60 &
busy=$!
# It runs once the file can't be opened for writing.
for wait in $(seq 100); do
  (: >>disk1) 2>/dev/null || break
  sleep 0.05
done
runs 'an image that can be read alone is a failed device' 0 '0 group 6 after 0
1 a.1 get 7 at 1 bytes 050c13' 'get 7'
kill $busy 2>/dev/null || true
wait $busy 2>/dev/null || true
same 'and it is not written' disk1 "$program"

# Disks in place of files, where this machine has some that may be used.
back first
loops=()
detach() {
  [ ${#loops[@]} = 0 ] || losetup -d "${loops[@]}"
  loops=()
}
trap 'detach; rm -rf "$WORK"' EXIT
for image in "${IMAGES[@]}"; do
  loop=$(losetup --show -f "$image" 2>/dev/null) || break
  loops+=("$loop")
done
if [ ${#loops[@]} = ${#IMAGES[@]} ]; then
  calls 'get 7' 'puthex 8 ff' sync >script
  INPUT=script expect 'disks in place of files' 0 '0 group 6 after 0
1 a.1 get 7 at 1 bytes 050c13
2 a.2 put 8 ok
3 group 7 after 3
4 a.3 sync group 7' "${loops[@]}" -- run
  detach
  runs 'hold what the files hold then' 0 '0 group 9 after 0
1 a.1 get 8 at 1 bytes ff' 'get 8'
else
  detach
  echo 'skipped disks in place of files: there are no loop devices to use'
fi
