#!/usr/bin/env bash
# Looks at pools on real files: what is told, and that no file changes, whoever has it and whatever may be done to it.
. "$(dirname "$0")/build.sh"

# lines GROUP OUT BLOCKS: what is told of pool 9 on three images.
lines() { printf 'pool 9 parity 1 rows 64 group %s\nwidth 3\nbirths 0:3\nout %s\nblocks %s' "$@"; }

# looks NAME STATUS TEXT [IMAGE..]: a look at these images, else at all, leaves each file as it is, and makes none.
looks() {
  local name=$1 status=$2 text=$3 file
  shift 3
  [ $# -gt 0 ] || set -- "${IMAGES[@]}"
  keep before
  expect "$name" "$status" "$text" "$@" -- status
  [ "$(printf '%s\n' disk*)" = "$(cd before && printf '%s\n' disk*)" ] || failed "$name" 'a file is new'
  for file in disk*; do
    cmp -s "$file" "before/$file" || failed "$name" "$file has changed"
  done
}

# told_line NAME LINE: this line was told by the last run.
told_line() { grep -qx "$2" told || failed "$1" "$(cat told)"; }

pool 1 3 256
looks 'a new pool' 0 "$(lines 1 none 0)"
in_use() { printf 'raidzx: disk%s: in use\n' "$@"; }
tells 'each disk is told, and that the data are safe' "$(in_use 0 1 2)" \
  'raidzx: all blocks can be read, and 1 more disk may be lost' \
  'raidzx: 0 of 192 sectors are used, by 0 of at most 512 blocks; the largest that fits has 65536 bytes'
calls 'put 7 3 5' 'put 8 1000 5' 'put 9 1 1' sync 'put 10 1 1' >script
"$RAIDZX" "${IMAGES[@]}" -- run <script >text
looks 'a pool with blocks' 0 "$(lines 4 none 3)"
told_line 'its room is told' 'raidzx: 8 of 192 sectors are used, by 3 of at most 512 blocks; the largest that fits has 62464 bytes'
told_line 'and its blocks' 'raidzx: blocks 7-9'
looks 'the same again' 0 "$(lines 4 none 3)"
looks 'an image less is named' 0 "$(lines 4 2 3)" disk0 disk1
looks 'two images are exchanged' 4 'too many failed 1 2' disk0 disk2 disk1
told_line 'what these two show is told' 'raidzx: disk2: is named as image 1, and shows image 2 of pool 9'
told_line 'and their order' 'raidzx: the words in their right order: disk0 disk1 disk2 -- status'
looks 'a file that is missing' 0 "$(lines 4 1 3)" disk0 none disk2
told_line 'it is told' \
  'raidzx: none: cannot be opened: No such file or directory (os error 2); its disk counts as failed'
[ ! -e none ] || failed 'a file that is missing' 'it was made'
looks 'two that are' 4 'too many failed 1 2' disk0 none nothing
mkdir folder
looks 'a folder' 0 "$(lines 4 1 3)" disk0 folder disk2
told_line 'it is told' 'raidzx: folder: cannot be opened: Is a directory (os error 21); its disk counts as failed'

# Standard input is not read, and a full output is told.
INPUT=script looks 'a script on standard input' 0 "$(lines 4 none 3)"
keep made
status=0
"$RAIDZX" "${IMAGES[@]}" -- status >/dev/full || status=$?
[ "$status" = 7 ] || failed 'a full output' "status $status"
for words in 'status now' 'status --attach' 'status status' statuses; do
  expect "no command: $words" 1 usage "${IMAGES[@]}" -- $words
done
unchanged 'a full output, and words that are no command' made
expect 'devices in memory' 3 'not a pool' mem:256 mem:256 -- status

# Another program has an image; a run that waits for its script has them all.
(
  flock -x 9
  looks 'an image that another program has' 0 "$(lines 4 none 3)"
) 9<>disk0
mkfifo later
"$RAIDZX" "${IMAGES[@]}" -- run <later >text &
running=$!
exec 8>later
for _ in $(seq 100); do
  ! locked disk2 || break
  sleep 0.1
done
locked disk2 || failed 'a look beside a run' 'the run has not locked its images'
looks 'a look beside a run' 0 "$(lines 4 none 3)"
calls 'put 10 1 1' sync >&8
exec 8>&-
wait $running || failed 'a run beside a look' "$(cat text)"
[ "$(tail -n 1 text)" = '3 a.2 sync group 7' ] || failed 'a run beside a look' "$(cat text)"
looks 'a look after it' 0 "$(lines 7 none 4)"

# Images that may be read alone. Who is root, and may write all, looks at them as nobody.
plain=()
if [ "$(id -u)" = 0 ]; then
  plain=(setpriv --reuid=65534 --regid=65534 --clear-groups)
  cp "$RAIDZX" program
  RAIDZX=$PWD/program
  chmod 755 .
fi
chmod 444 disk*
if "${plain[@]}" test -r disk0 2>/dev/null; then
  keep made
  status=0
  found=$("${plain[@]}" "$RAIDZX" "${IMAGES[@]}" -- run <script 2>told) || status=$?
  [ "$status" = 4 ] || failed 'a run on images that may be read alone' "status $status, text: $found"
  status=0
  found=$("${plain[@]}" "$RAIDZX" "${IMAGES[@]}" -- status 2>told) || status=$?
  [ "$status" = 0 ] && [ "$found" = "$(lines 7 none 4)" ] ||
    failed 'images that may be read alone' "status $status, text: $found"
  unchanged 'images that may be read alone' made
else
  echo 'skipped images that may be read alone: nobody else can look'
fi
chmod 644 disk*

images 3 256
looks 'images without a pool' 3 'not a pool'

# A pipe would keep who opens it waiting.
pool 1 3 256
mkfifo pipe
RAIDZX_ALONE=$RAIDZX
limited() { timeout 20 "$RAIDZX_ALONE" "$@"; }
RAIDZX=limited looks 'a pipe' 0 "$(lines 1 1 0)" disk0 pipe disk2
told_line 'it is told' 'raidzx: pipe: cannot be opened: Illegal seek (os error 29); its disk counts as failed'

# Looks beside runs that sync over and over: each finds the pool, and takes no disk for one that is out where it tells
# what a disk is.
mapfile -t many < <(for number in $(seq 200); do printf '%s\n' "put 7 3 $number" sync; done)
calls "${many[@]}" >script
(while [ ! -e enough ]; do "$RAIDZX" "${IMAGES[@]}" -- run <script >text || exit; done) &
running=$!
busy=0
for number in $(seq 1000); do
  "$RAIDZX" "${IMAGES[@]}" -- status >found 2>told || failed "look $number beside a run" "$(cat found told)"
  [ "$(sed -n 2p found)" = 'width 3' ] || failed "look $number beside a run" "$(cat found)"
  if grep -q '^raidzx: another program writes to these images' told; then
    busy=$((busy + 1))
  else
    [ "$(sed -n 4p found)" = 'out none' ] && [ "$(grep -c ': in use$' told)" = 3 ] ||
      failed "look $number beside a run" "$(cat found told)"
  fi
done
touch enough
wait $running || failed 'a run beside looks' "$(tail -n 1 text)"
echo "ok 1000 looks beside a run, of which $busy had no moment in which nothing changed"

# The calls on each image: it is asked whether it is a folder or a pipe, opened to be read, measured, read and closed.
if command -v strace >/dev/null && strace -o /dev/null true 2>/dev/null; then
  pool 1 3 256
  strace -f -y -s 0 -e trace=%desc -o trace "$RAIDZX" "${IMAGES[@]}" -- status >text
  sed -nE -e 's/^[0-9]+ +//' \
    -e 's/^openat\(.*"(disk.)", O_RDONLY\|O_NOCTTY\|O_CLOEXEC\) = .*/open \1/' \
    -e 's/^(statx|newfstatat|stat)\(.*"(disk.)", .* = 0$/kind \2/' \
    -e 's/^lseek\(.*(disk.)>, 0, SEEK_END\) += [0-9]+$/measure \1/' \
    -e 's/^pread64\(.*(disk.)>, ""..., ([0-9]+), ([0-9]*)\) += \2$/read \1 \3 \2/' \
    -e 's/^close\(.*(disk.)>\) += 0$/close \1/' -e '/disk/p' trace |
    awk '$1 == "read" && $3 % 512 + $4 % 512 == 0 { $3 /= 512; $4 /= 512 } { print }' >found
  {
    for number in 0 1 2; do printf "%s disk$number\n" kind open measure; done
    # To see what each image shows, by the status itself, and whether they have changed: the ring, and what lies behind
    # it. To choose takes what was just seen; the looks behind it read it again.
    for _ in seen told again; do
      for number in 0 1 2; do echo "read disk$number 0 64"; done
    done
    for number in 0 1 2; do echo "close disk$number"; done
  } >wanted
  same 'the calls of a look' found wanted
else
  echo 'skipped the calls of a look: strace is not there, or may not trace'
fi
