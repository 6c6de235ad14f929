#!/usr/bin/env bash
# Pools on real files: what is written, what is refused, what is left alone.
. "$(dirname "$0")/build.sh"

pool='pool 9 parity 1 width 3 rows 64 group 1'
create=(create --parity 1 --width 3 --id 9)

images 3 256
expect 'a pool is made on three files' 0 "$pool" disk0 disk1 disk2 -- "${create[@]}"
cp disk0 made0
expect 'the same pool again' 0 "$pool" disk0 disk1 disk2 -- "${create[@]}"
same 'gives the same bytes' disk0 made0
for number in 0 1 2; do
  [ "$(stat -c %s disk$number)" = 131072 ] || { echo 'FAILED no file grows'; exit 1; }
  [ "$(dd if=disk$number bs=512 skip=1 count=1 status=none | head -c 8)" = RZXPUB01 ] ||
    { echo 'FAILED the first uberblock stands in slot 1'; exit 1; }
  dd if=disk$number bs=512 skip=2 count=30 status=none | cmp -s - <(head -c 15360 /dev/zero) ||
    { echo 'FAILED other slots hold zeros'; exit 1; }
  dd if=disk$number bs=512 skip=192 status=none | cmp -s - <(head -c 32768 /dev/zero | tr '\0' '\245') ||
    { echo 'FAILED data rows are left alone'; exit 1; }
done
echo 'ok the rings on the files'

images 3 255
cp disk0 before
expect 'devices of 255 sectors' 5 'too small' disk0 disk1 disk2 -- "${create[@]}"
same 'are left alone' disk0 before
images 2 256
cp disk0 before
expect 'two devices for three' 5 'too small' disk0 disk1 -- "${create[@]}"
same 'are left alone' disk0 before
expect 'a file that is missing' 4 'too many failed 2' disk0 disk1 none -- "${create[@]}"
[ ! -e none ] || { echo 'FAILED no file is made'; exit 1; }
images 2 256
expect 'a file named twice' 4 'too many failed 1' disk0 disk0 disk1 -- "${create[@]}"
images 3 256
truncate -s 8192 disk1
expect 'a file that ends in its ring' 4 'too many failed 1' disk0 disk1 disk2 -- "${create[@]}"
[ "$(stat -c %s disk1)" = 8192 ] || { echo 'FAILED no file grows'; exit 1; }
images 3 256

# Another program holds disk0 while this one runs.
(
  flock -x 9
  expect 'a file that another program has' 4 'too many failed 0' disk0 disk1 disk2 -- "${create[@]}"
) 9<>disk0

# An id that is used again: a wider pool of before, of a greater group, would take over; so a run over its image too is
# refused.
pool 1 4 256
calls sync sync >script
"$RAIDZX" "${IMAGES[@]}" -- run <script >text
expect 'the same id, and one image less' 0 "$pool" disk0 disk1 disk2 -- "${create[@]}"
calls 'puthex 7 61' sync >script
"$RAIDZX" disk0 disk1 disk2 -- run <script >text
grep -q '1 a.1 put 7 ok' text || failed 'a block in the new pool' "$(cat text)"
calls 'get 7' >script
INPUT=script
expect 'a run over all images is refused' 4 'too many failed 0 1 2' "${IMAGES[@]}" -- run
expect 'and one over the first ones opens the new pool' 0 '0 group 6 after 0
1 a.1 get 7 at 1 bytes 61' disk0 disk1 disk2 -- run
