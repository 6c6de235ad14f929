#!/usr/bin/env bash
# The most and the largest of everything: images of the most sectors, blocks of the most bytes at the most parities, the
# most ids and clients, the longest script. Where there is memory nothing is refused for want of it.
[ ! -w /dev/shm ] || export TMPDIR=/dev/shm # long images
. "$(dirname "$0")/build.sh"

# The bytes of a block of 65,536 bytes depend on its seed modulo 256 alone. Those of one more are one higher each.
pattern 65536 0 >block0
for seed in $(seq 255); do
  LC_ALL=C tr '\000-\377' "$(printf '\\%03o-\\377\\000-\\%03o' $seed $((seed - 1)))" <block0 >block$seed
done
for seed in 1 200; do pattern 65536 $seed | cmp -s - block$seed || failed 'a pattern' $seed; done
for seed in $(seq 0 255); do sums[seed]=$(summed_file block$seed); done

# 512 blocks, of the highest ids and seeds, that fill a pool to its last sector: at parity 3 and width 4 one of them has
# 128 rows. 2^64 - 512 is a multiple of 256.
pool 3 4 65728
ids=($(seq -f %.0f 0 511))
for number in "${!ids[@]}"; do ids[number]=$(printf %u $((number - 512))); done
[ "${ids[0]} ${ids[511]}" = '18446744073709551104 18446744073709551615' ] || failed 'the ids' "${ids[*]}"
text='0 group 3 after 0' puts=() gets=() read='0 group 6 after 0'
for number in "${!ids[@]}"; do
  id=${ids[number]} call=$((number + 1))
  puts+=("put $id 65536 $id")
  text+=$'\n'"$call a.$call put $id ok"
  gets+=("sum $id")
  read+=$'\n'"$call a.$call sum $id at $call ${sums[number % 256]}"
done
runs '512 blocks of 65,536 bytes' 0 "$text
513 group 4 after 513
514 a.513 sync group 4" "${puts[@]}" sync
"$RAIDZX" "${IMAGES[@]}" -- status >found 2>told || failed 'a status of a full pool' "$(cat found)"
grep -q '^raidzx: 262144 of 262144 sectors are used, by 512 of at most 512 blocks' told ||
  failed 'a status of a full pool' "$(cat told)"
# With one column of content a row's parity columns hold the same bytes.
for _ in 1 2; do for seed in $(seq 0 255); do cat block$seed; done; done >blocks
for image in "${IMAGES[@]}"; do
  tail -c +98305 $image | cmp -s - blocks || failed 'the bytes of all blocks on each image' $image
done
echo 'ok the bytes of all blocks on each image, up to its end'
runs 'a later run reads all of them' 0 "$read" "${gets[@]}"
rm disk1 disk2 disk3
runs 'a run without three of the images reads them' 0 "0 group 8 after 0
1 a.1 sum ${ids[0]} at 1 ${sums[0]}
2 a.2 sum ${ids[255]} at 2 ${sums[255]}
3 a.3 sum ${ids[511]} at 3 ${sums[255]}" "sum ${ids[0]}" "sum ${ids[255]}" "sum ${ids[511]}"

# The longest script: of 8 clients, 10,000 calls and 16,777,216 bytes. Each client stores 15 blocks of 65,536 bytes by their
# digits, and reads its own blocks alone. Beside them a sixteenth image is attached, and the blocks are copied onto it.
pool 3 15 2240
fresh disk15 2240
IMAGES+=(disk15)
letters=(a b c d e f g h)
# puts_of CLIENT, reads_of CLIENT: its calls. answers_of CLIENT: the answers to its reads. Block K, of 120, has the seed K.
puts_of() {
  local number
  for number in $(seq $((15 * $1)) $((15 * $1 + 14))); do
    printf '%s puthex %s ' ${letters[$1]} ${ids[number]}
    od -An -v -tx1 block$number | tr -d ' \n'
    echo
  done
}
reads_of() {
  local number call
  for call in get get sum sum sum sum sum sum sum sum sum sum; do
    for number in $(seq $((15 * $1)) $((15 * $1 + 14))); do echo "${letters[$1]} $call ${ids[number]}"; done
  done
  echo "${letters[$1]} sync"
  yes "${letters[$1]} free 5" | head -n 1054
}
answers_of() { # the digits are those of its calls
  puts_of $1 | sed 's/^. puthex \([0-9]*\) /get \1 bytes /'
  for number in $(seq $((15 * $1)) $((15 * $1 + 14))); do echo "sum ${ids[number]} ${sums[number]}"; done
}
{
  echo 'clients 8'
  for client in $(seq 0 7); do puts_of $client; done
  for client in $(seq 0 7); do reads_of $client; done
} >script
{ printf '#%*s\n' $((16777216 - 2 - $(stat -c %s script))) ''; } >>script
[ "$(stat -c %s script) $(grep -c '^[a-h] ' script)" = '16777216 10000' ] || failed 'the longest script' "$(wc script)"
keep made
{ cat script; echo; } >longer
INPUT=longer expect 'a script of one byte more' 9 limit "${IMAGES[@]}" -- run --attach
unchanged 'is refused' made
"$RAIDZX" "${IMAGES[@]}" -- run --attach <script >found 2>told || failed 'the longest script' "$(tail -n 1 found | cut -c 1-80)"
! grep -n 'no memory' found told || failed 'the longest script' 'no memory'
legal found >why || failed 'the longest script' "$(cat why)"
[ "$(grep -c ' [a-h]\.' found)" = 10000 ] || failed 'the longest script' 'not all calls are answered'
grep -q ' x.1 attach width 16 group ' found || failed 'the longest script' 'no attach'
grep -qx '[0-9]* x.2 copy done width 16' found || failed 'the longest script' 'no copy'
answers <found | sort -u >read
for client in $(seq 0 7); do answers_of $client; done | sort >wanted
same '10,000 calls of eight clients, beside one that attaches an image and copies' read wanted
sed -n '/^sum/p' wanted | sort >sums_wanted
{ calls; sed -n 's/^\(sum [0-9]*\) .*/a \1/p' wanted; } >reads
"$RAIDZX" "${IMAGES[@]}" -- run <reads 2>told | answers | sort >read
same 'a later run reads the blocks' read sums_wanted
