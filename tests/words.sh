#!/usr/bin/env bash
# Command words, and a full output.
. "$(dirname "$0")/build.sh"

images 3 256
cp disk0 before
memory=(mem:256 mem:256 mem:256)
expect 'devices in memory' 0 'pool 7 parity 2 width 3 rows 64 group 1' \
  "${memory[@]}" -- create --parity 2 --width 3 --id 7
expect 'the most data rows' 0 'pool 7 parity 1 width 2 rows 65536 group 1' \
  mem:65728 mem:65728 -- create --parity 1 --width 2 --id 7
expect 'no words' 1 usage
expect 'no command' 1 usage disk0 disk1 disk2 --
expect 'no dashes' 1 usage disk0 disk1 disk2
expect 'no image' 1 usage -- create --parity 1 --width 3 --id 9
expect 'a file beside devices in memory' 1 usage disk0 mem:256 -- create --parity 1 --width 2 --id 9
expect 'devices in memory of two sizes' 1 usage mem:256 mem:257 -- create --parity 1 --width 2 --id 9
expect 'a command that there is not' 1 usage disk0 disk1 disk2 -- resize
expect 'a width that is not above the parity' 1 usage disk0 disk1 disk2 -- create --parity 2 --width 2 --id 9
expect 'a parity of four' 1 usage disk0 disk1 disk2 -- create --parity 4 --width 5 --id 9
expect 'a number with a leading zero' 1 usage disk0 disk1 disk2 -- create --parity 1 --width 03 --id 9
expect 'a word too many' 1 usage disk0 disk1 disk2 -- create --parity 1 --width 3 --id 9 now
expect 'a word too many after a command without options' 1 usage disk0 disk1 disk2 -- replay now
expect 'replay reads a script' 2 'script line 1' "${memory[@]}" -- replay

# NAME | WORDS: these words behind the dashes are no command.
while IFS='|' read -r name words; do
  expect "$name" 1 usage "${memory[@]}" -- $words
done <<'END'
an option twice|create --parity 1 --width 3 --id 9 --id 9
an option twice, once in one word|create --parity=1 --parity 1 --width 3 --id 9
a flag twice|run --attach --attach
a flag with a value|run --attach=true
a number with a sign|create --parity +1 --width 3 --id 9
a number with a minus|create --parity 1 --width 3 --id=-9
a number with a leading zero in one word|create --parity=1 --width=3 --id=09
an id of 2^64|create --parity 1 --width 3 --id 18446744073709551616
an option without its value|create --parity 1 --width 3 --id
an option with an empty value|create --parity 1 --width 3 --id=
an option that is not there|create --parity 1 --width 3
a front of an option|create --par 1 --width 3 --id 9
an option that there is not|run --fast
an option of another command|status --attach
an option before the command|--attach run
two commands|status replay
a word behind second dashes|run -- --attach
a command behind second dashes|-- run
help as a word behind the dashes|help
help of a command|help create
help of a command that there is not|help resize
help as a long option|--help
help as a short option of a command|create -h
the version|--version
the version by a letter|-V
END
same 'refused words leave the devices alone' disk0 before

# NAME | WORDS: these are the command that makes pool 7.
while IFS='|' read -r name words; do
  expect "$name" 0 'pool 7 parity 2 width 3 rows 64 group 1' "${memory[@]}" -- create $words
done <<'END'
options in another order|--id 7 --width 3 --parity 2
options with their values in one word|--parity=2 --width=3 --id=7
both in any order|--width=3 --id 7 --parity=2
second dashes at the end|--parity 2 --width 3 --id 7 --
END
expect 'the greatest id' 0 'pool 18446744073709551615 parity 1 width 2 rows 64 group 1' \
  mem:256 mem:256 -- create --id=18446744073709551615 --parity=1 --width=2

# WORDS | TEXT: standard error has this line.
while IFS='|' read -r words text; do
  expect "who asks by $words" 1 usage $words
  grep -qxF "raidzx: $text" told || failed "who asks by $words" "$(cat told)"
  grep -q 'docs/raidzx.1' told || failed "who asks by $words: the manual" "$(cat told)"
done <<'END'
help|raidzx IMAGE.. -- create --parity P --width W --id N
-h|raidzx IMAGE.. -- status                 tells where the pool stands, and only reads
--help|raidzx IMAGE.. -- run [--attach] <SCRIPT
help run|raidzx IMAGE.. -- run [--attach] <SCRIPT
create --help|raidzx IMAGE.. -- create --parity P --width W --id N
disk0 -- replay -h|raidzx IMAGE.. -- replay <SCRIPT
disk0 -- help status|raidzx IMAGE.. -- status
--version|raidzx (pools of format 1); the manual: docs/raidzx.1, to be read by man -l docs/raidzx.1
disk0 -- -V|raidzx (pools of format 1); the manual: docs/raidzx.1, to be read by man -l docs/raidzx.1
END
expect 'a word that is no text' 1 usage $'\xff' disk1 -- create --parity 1 --width 2 --id 9

status=0
"$RAIDZX" disk0 disk1 disk2 -- create --parity 1 --width 3 --id 9 >/dev/full || status=$?
[ "$status" = 7 ] || { echo 'FAILED a full output ends with 7'; exit 1; }
echo 'ok a full output'

# Words that memory is wanting for, by less and less room. `ulimit` would leave the shell too little to start anything.
if command -v prlimit >/dev/null; then
  long=$(head -c 100000 /dev/zero | tr '\0' x)
  many=()
  for number in $(seq 16); do many+=("$long"); done
  wanting=0
  starts=yes
  for room in $(seq 9000 -100 1000); do
    status=0
    found=$(prlimit --as=$((room * 1024)) "$RAIDZX" "${many[@]}" 2>told) || status=$?
    case $status in
      1) [ "$found" = usage ] && [ $wanting = 0 ] || failed 'words that are no command' "$room: $found" ;;
      8)
        [ "$found" = 'no memory' ] || failed 'words without memory' "$found"
        wanting=$((wanting + 1))
        ;;
      *) # there is no room for the program itself
        starts=no
        break
        ;;
    esac
  done
  if [ $wanting -gt 0 ]; then
    printf 'ok words without memory, in %s runs\n' $wanting
  elif [ $starts = no ]; then
    failed 'words without memory' 'they are told as no command'
  else
    echo 'skipped words without memory: this machine does not bound it'
  fi
else
  echo 'skipped words without memory: prlimit is not installed'
fi
