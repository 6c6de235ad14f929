#!/usr/bin/env bash
# A pool of three images is widened to four, and to five: what a copy answers, where each block lies then, and which
# images a later run may lack. `copy_beside.sh` has other clients' calls, `copy_failing.sh` images that fail meanwhile,
# and `stops.sh` stops such a run at its calls.
[ ! -w /dev/shm ] || export TMPDIR=/dev/shm # many short runs: files in memory will do
. "$(dirname "$0")/build.sh"
COMMAND=replay

missing='No such file or directory (os error 2)'
first=$(summed 1536 0)

# The whole way from three images to four. A block that is put before the copy, one behind it that is still of the old
# width, as its group is the first behind the last one of the copy, and one of the new width.
pool_and 1
keep made
whole='0 group 3 after 0
1 a.1 put 1 ok
2 group 4 after 2
3 a.2 sync group 4
4 group 5 after 4
5 a.3 attach width 4 group 5
6 group 6 after 6
7 group 7 after 7
8 group 8 after 8
9 group 9 after 9
10 a.4 copy done width 4
11 a.5 put 2 ok
12 group 10 after 12
13 a.6 sync group 10
14 a.7 put 3 ok
15 group 11 after 15
16 a.8 sync group 11'
widening=('put 1 1536 0' sync attach copy 'put 2 1536 0' sync 'put 3 1536 0' sync)
runs 'a pool is widened' 0 "$whole" "${widening[@]}"
tells 'nothing is told'
expect 'a status tells the new width' 0 'pool 9 parity 1 rows 64 group 11
width 4
births 0:3 11:4
out none
blocks 3' "${IMAGES[@]}" -- status
keep widened
back made
calls "${widening[@]}" >script
INPUT=script expect 'a replay of it tells the same' 0 "$whole" "${IMAGES[@]}" -- replay
unchanged 'and leaves the same' widened

# What stands on the images. Blocks 1 and 2 are rows of three sectors and of two, block 3 is a row of four.
pattern 1536 0 >block
for part in 0 1 2; do sectors block $part 1 >content$part; done
# parity FILE..: the sum of sectors.
parity() {
  local file sum=()
  for file; do
    local at=0 byte
    while read -r byte; do sum[at]=$((${sum[at]:-0} ^ byte)) at=$((at + 1)); done < <(od -An -v -tu1 -w1 "$file")
  done
  printf "$(printf '\\x%02x' "${sum[@]}")"
}
parity content0 content2 >parity02
parity content0 content1 content2 >parity012
WIDTH=4
lies 0 parity02 content0 content2 content1 content1
lies 6 parity02 content0 content2 content1 content1
lies 12 parity012 content0 content1 content2
echo 'ok each block lies where rows of four images have its sectors'

# The group of the last sync in slot 11 and index area 1 of each.
digest=$(digest block)
bytes "0000000000000001 0000000000000000 00000600 0000000000000004 $digest 00000000
  0000000000000002 0000000000000006 00000600 000000000000000a $digest 00000000
  0000000000000003 000000000000000c 00000600 000000000000000b $digest 00000000" | filled 512 >page
for device in 0 1 2 3; do
  bytes "525a585055423031 00000001 0000000$device 0000000000000009 000000000000000b
    00000001 00000004 00000004 00000001 0000000000000040 0000000000000000 0000000000000000
    00000003 00000002 $(digest page) 0000000000000000 00000003 000000000000000b 00000004" | filled 480 >head
  { cat head; bytes "$(digest head)"; } >uberblock
  sectors disk$device 11 1 | cmp -s - uberblock || failed 'the uberblock of the last group' disk$device
  sectors disk$device 128 1 | cmp -s - page || failed 'the index page of the last group' disk$device
done
echo 'ok the last group stands on all four images'

calls 'sum 1' 'sum 2' 'sum 3' >reads
for id in 1 2 3; do echo "sum $id $first"; done >wanted
without_each 'the wider pool'
for number in 0 1 2 3; do
  back widened
  rm disk$number
  runs "without disk$number it is a pool of four" 0 "0 group 13 after 0
1 a.1 copy done width 4
2 a.2 attach device out $number
3 a.3 put 4 ok
4 group 14 after 4
5 a.4 sync group 14
6 a.5 sum 4 at 6 $first" copy attach 'put 4 1536 0' sync 'sum 4'
  tells 'it is told' "raidzx: disk$number: cannot be opened: $missing; its disk counts as failed" \
    "raidzx: no disk was attached, as disk $number is out: a pool grows while all its disks are in use" \
    "raidzx: disk$number: out of the pool for good"
  shows 4 '0:3 11:4' $number 4
done
back widened
IMAGES=(disk0 disk1 disk2)
expect 'the old images alone lack one' 0 'pool 9 parity 1 rows 64 group 11
width 4
births 0:3 11:4
out 3
blocks 3' "${IMAGES[@]}" -- status
runs 'and a run over them is refused' 4 'too many failed 3' 'sum 1'

# A second image more: from four to five, with blocks of both widths before, and of all three behind.
pool_and 2
runs 'a pool is widened twice' 0 "0 group 3 after 0
1 a.1 put 1 ok
2 group 4 after 2
3 a.2 sync group 4
4 group 5 after 4
5 a.3 attach width 4 group 5
$(groups 6 9 6)
10 a.4 copy done width 4
11 a.5 put 2 ok
12 group 10 after 12
13 a.6 sync group 10
14 a.7 put 3 ok
15 group 11 after 15
16 a.8 sync group 11
17 group 12 after 17
18 a.9 attach width 5 group 12
$(groups 13 17 19)
24 a.10 copy done width 5
25 a.11 put 4 ok
26 group 18 after 26
27 a.12 sync group 18
28 a.13 put 5 ok
29 group 19 after 29
30 a.14 sync group 19" 'put 1 1536 0' sync attach copy 'put 2 1536 0' sync 'put 3 1536 0' sync attach copy \
  'put 4 1536 0' sync 'put 5 2048 0' sync
tells 'nothing is told'
expect 'a status tells all three widths' 0 'pool 9 parity 1 rows 64 group 19
width 5
births 0:3 11:4 19:5
out none
blocks 5' "${IMAGES[@]}" -- status
pattern 2048 0 >longer
sectors longer 3 1 >content3
parity content0 content1 content2 content3 >parity0123
WIDTH=5
lies 0 parity02 content0 content2 content1 content1
lies 6 parity02 content0 content2 content1 content1
lies 12 parity012 content0 content1 content2
lies 16 parity012 content0 content1 content2
lies 20 parity0123 content0 content1 content2 content3
echo 'ok each block lies where rows of five images have its sectors'
calls 'sum 1' 'sum 2' 'sum 3' 'sum 4' 'sum 5' >reads
{ for id in 1 2 3 4; do echo "sum $id $first"; done; echo "sum 5 $(summed 2048 0)"; } >wanted
without_each 'blocks of three widths'
runs 'the pool has 320 sectors' 0 '0 group 21 after 0
1 a.1 put 6 ok
2 a.2 put 7 no space 136
3 a.3 put 7 ok
4 a.4 put 8 no space 2
5 a.5 attach no device 5' 'put 6 65536 1' "put 7 $((108 * 512)) 2" "put 7 $((107 * 512)) 2" 'put 8 1 1' attach

# No block is put at all, and nothing is synced but by the attaches and copies.
pool_and 2
runs 'widened twice at once' 0 "0 group 3 after 0
1 group 4 after 1
2 a.1 attach width 4 group 4
3 a.2 attach expanding to 4
$(groups 5 8 4)
8 a.3 copy done width 4
9 a.4 copy done width 4
10 group 9 after 10
11 a.5 attach width 5 group 9
$(groups 10 14 12)
17 a.6 copy done width 5
18 a.7 attach no device 5" attach attach copy copy attach copy attach
shows 5 '0:3 10:4 16:5' none 0

# Two parities: any two images may go, behind the attach, while a copy is paused, and behind it. The image that is no
# device of the pool is not touched.
pool 2 4 256
for number in 4 5; do
  fresh disk$number 256
  IMAGES+=(disk$number)
done
calls 'put 1 1536 0' 'put 2 20000 1' 'put 3 40000 2' sync attach >script
"$RAIDZX" "${IMAGES[@]}" -- replay <script >/dev/null
calls 'sum 1' 'sum 2' 'sum 3' >reads
printf '%s\n' "sum 1 $first" "sum 2 $(summed 20000 1)" "sum 3 $(summed 40000 2)" >wanted
# without_each_two NAME
without_each_two() {
  local name=$1 one other
  keep two
  for one in 0 1 2 3 4; do
    for ((other = one + 1; other < 5; other++)); do
      back two
      rm disk$one disk$other
      reads_wanted "$name, without disk$one and disk$other"
    done
  done
  back two
  printf 'ok %s: all blocks are read without any two images\n' "$1"
}
without_each_two 'two parities, an image attached'
runs 'two parities, a pool is widened' 0 "0 group 7 after 0
$(groups 8 12 1)
6 a.1 copy done width 5" copy
shows 5 '0:4 14:5' none 3
without_each_two 'two parities, a pool that was widened'
unused disk5 0 256
for one in 0 4; do
  back two
  rm disk$one
  runs "a copy of it without disk$one" 0 '0 group 14 after 0
1 a.1 copy done width 5' copy
done

# Nothing to copy.
pool_and 1
runs 'a copy of a pool at rest' 0 '0 group 3 after 0
1 a.1 copy done width 3
2 a.2 copy done width 3' copy copy
shows 3 0:3 none 0
rm disk1
runs 'also while an image is out' 0 '0 group 5 after 0
1 a.1 copy done width 3' copy

# Where there are fifteen images a group moves the mark by a fifteenth at most, so many groups are made. They take little
# memory.
pool 1 15 392
fresh disk15 392
IMAGES+=(disk15)
calls 'put 1 65536 0' 'put 2 65536 1' 'put 3 65536 2' 'put 4 1000 3' sync attach >script
"$RAIDZX" "${IMAGES[@]}" -- replay <script >/dev/null
calls 'sum 1' 'sum 2' 'sum 3' 'sum 4' >reads
"$RAIDZX" "${IMAGES[@]}" -- replay <reads | answers >wanted
grep -qx "sum 4 $(summed 1000 3)" wanted || failed 'a block' "$(cat wanted)"
runs 'a copy of 38 groups' 0 "0 group 9 after 0
$(groups 10 47 1)
39 a.1 copy done width 16
40 a.2 attach no device 16" copy attach
shows 16 '0:15 49:16' none 4
without_each 'a pool of the greatest width'

# The last group that there is: 2 to the power of 62 less one, here that of the copy's first commit. The images show the
# attach's group, whose number is a later one.
pool_and 1
calls 'put 1 1536 0' sync attach >script
"$RAIDZX" "${IMAGES[@]}" -- replay <script >/dev/null
for device in 0 1 2 3; do
  {
    sectors disk$device 5 1 | head -c 24
    bytes 3ffffffffffffffc
    sectors disk$device 5 1 | head -c 480 | tail -c 448
  } >head
  { cat head; bytes "$(digest head)"; } | dd of=disk$device bs=512 seek=28 conv=notrunc status=none
done
runs 'groups come to an end in a copy' 9 "0 group 4611686018427387902 after 0
1 group 4611686018427387903 after 1
2 a.1 copy limit
3 a.2 sum 1 at 3 $first
4 a.3 copy limit
limit" copy 'sum 1' copy
shows '3 to 4 mark 128 state valid' 0:3 none 1

# A pool is full when an image is attached. It is copied in the next run.
full_pool
cp reads full_reads
cp wanted full_wanted
spread 3 192 192 >narrow
back full
runs 'a full pool is widened in the next run' 0 "0 group 7 after 0
1 a.1 put 96 no space 2
$(groups 8 11 2)
6 a.2 copy done width 4
7 a.3 put 96 ok
8 a.4 get 96 at 8 bytes 01" 'put 96 1 1' copy 'put 96 1 1' 'get 96'
shows 4 '0:3 13:4' none 96
spread 4 192 192 >wide
same 'each sector of the pool lies in rows of four' narrow wide
without_each 'a full pool that was widened'
runs 'it has 256 sectors' 0 '0 group 13 after 0
1 a.1 put 96 no space 66
2 a.2 put 96 ok
3 a.3 put 97 no space 2' "put 96 $((49 * 512)) 1" "put 96 $((48 * 512)) 1" 'put 97 1 1'

# An image is missing at the opening: the copy is paused, nothing is lost, and the image is not taken back. (Block 1 is
# another one then.)
sed '/^a sum 1$/d' full_reads >reads
sed '/^sum 1 /d' full_wanted >wanted
for number in 0 1 2 3; do
  back full
  rm disk$number
  paused="raidzx: the copy is paused, as disk $number is out; all blocks are read as before"
  runs "a copy without disk$number" 0 "0 group 7 after 0
1 a.1 copy paused $number
2 a.2 attach expanding to 4
3 a.3 free 1 ok
4 group 8 after 4
5 a.4 sync group 8
6 a.5 put 1 ok
7 group 9 after 7
8 a.6 sync group 9
9 a.7 get 1 at 9 bytes 01
10 a.8 copy paused $number" copy attach 'free 1' sync 'put 1 1 1' sync 'get 1' copy
  tells 'it is told' "raidzx: disk$number: cannot be opened: $missing; its disk counts as failed" \
    "$paused" 'raidzx: no disk was attached, as the copy onto 4 disks is not done: copy, then attach' "$paused" \
    "raidzx: disk$number: out of the pool for good"
  shows '3 to 4 mark 0 state none' 0:3 $number 96
  cp full/disk$number .
  runs 'also once it is there again' 0 "0 group 11 after 0
1 a.1 copy paused $number" copy
  tells 'it is told' "raidzx: disk$number: its last group is 5, the pool's is 9: it missed what was synced since, and is out for\
 good" "$paused" "raidzx: disk$number: out of the pool for good"
  reads_wanted "a copy without disk$number"
  other=$(((number + 1) % 4))
  rm disk$other
  lost=$((number < other ? number : other))
  runs 'a second one is one too many' 4 "too many failed $lost $((number + other - lost))" copy
done
