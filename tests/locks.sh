#!/usr/bin/env bash
# Programs that want the same images: one gets all of them, others leave all alone.
. "$(dirname "$0")/build.sh"

pool 1 3 256
calls 'put 5 3 5' sync >script
INPUT=script
expect 'a pool with a block' 0 '0 group 3 after 0
1 a.1 put 5 ok
2 group 4 after 2
3 a.2 sync group 4' "${IMAGES[@]}" -- run
keep made

# Another program has one image, which alone would be a failure that the pool bears.
for number in 0 1 2; do
  (
    flock -x 9
    for words in run 'create --parity 1 --width 3 --id 5'; do
      expect "another program has disk$number ($words)" 4 "too many failed $number" \
        "${IMAGES[@]}" -- $words
    done
  ) 9<"disk$number"
  unchanged 'no image is touched' made
done
expect 'an image that is named twice' 4 'too many failed 2' disk0 disk1 disk0 -- run
unchanged 'no image is touched' made
expect 'words come before images' 1 usage disk0 disk1 disk0 -- sweep

# No image can be opened: that is a failure of all devices, and no answer about what they hold.
expect 'images that are not there' 4 'too many failed 0 1 2' x0 x1 x2 -- run
expect 'a new pool on images that are not there' 4 'too many failed 0' \
  x0 x1 x2 -- create --parity 1 --width 3 --id 9

# Programs that start at one moment, over and over: each one that isn't refused finds all that was synced.
calls 'get 5' sync >script
rounds() {
  for round in $(seq 40); do
    "$RAIDZX" "${IMAGES[@]}" -- run <script >"first$1" 2>"told$1" || grep -q '^too many failed' "first$1"
  done
}
rounds a &
one=$!
rounds b &
wait $one || failed 'two programs side by side' "$(cat firsta)"
wait $! || failed 'two programs side by side' "$(cat firstb)"
status=0
"$RAIDZX" "${IMAGES[@]}" -- run <script >text || status=$?
[ $status = 0 ] && grep -q 'get 5 at 1 bytes' text || failed 'what two programs left' "$(cat text)"
rm disk1
"$RAIDZX" "${IMAGES[@]}" -- run <script >text 2>told || status=$?
[ $status = 0 ] && grep -q 'get 5 at 1 bytes' text || failed 'what two programs left, an image less' "$(cat text)"
echo 'ok two programs side by side, 40 times'
