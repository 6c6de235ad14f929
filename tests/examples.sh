#!/usr/bin/env bash
# The sessions of README.md, line by line, and examples/: each script answers what stands beside it, and files are kept,
# listed, copied and read again, or it is told why not.
. "$(dirname "$0")/build.sh"
examples=$ROOT/examples

# A folder as one has who has cloned the repository and built the program.
mkdir session
cp -r "$examples" session
ln -s "$RAIDZX" session/raidzx

# typed COMMAND WANTED: the command of a session shows this, on standard output and standard error together.
typed() {
  (cd session && env -u RAIDZX bash -c "$1") </dev/null >found 2>&1 || true
  printf '%s' "$2" | cmp -s - found ||
    failed "README.md: \$ $1" "$(printf 'wanted (<) and found (>) differ\n' && diff <(printf '%s' "$2") found)"
  echo "$1" >>typed
}

: >typed
shown=no
command=
wanted=
# (a block ends with a line that is no command, as a next command ends what is wanted of the one before it)
while IFS= read -r line; do
  case $shown:$line in
    no:'```console') shown=yes ;;
    yes:'$ '* | yes:'```')
      [ -z "$command" ] || typed "$command" "$wanted"
      wanted=
      command=${line#\$ }
      [ "$line" != '```' ] || shown=no command=
      ;;
    yes:*) wanted+=$line$'\n' ;;
  esac
done <"$ROOT/README.md"
for name in store-file read-file list-files copy-pool; do
  grep -q "^examples/$name.sh " typed || failed 'a session of README.md' "none shows $name.sh"
done
echo "ok the sessions of README.md: $(wc -l <typed) commands"

# Each script, on the images that the one before has left. Those of one client are run. The one of two clients is
# replayed: a run of it may answer in another order.
# example NAME [COMMAND]
example() {
  INPUT=$examples/$1.script \
    expect "examples/$1.script" 0 "$(cat "$examples/$1.out")" "${IMAGES[@]}" -- "${2:-run}"
  touch "$1.run"
}
pool 1 3 2048
for name in store read-back; do example $name; done
keep whole
rm disk1
example one-disk-lost
back whole
example replace-and-free
example two-clients replay
for name in not-synced after-not-synced; do example $name; done
for script in "$examples"/*.script; do
  [ -e "$(basename "$script" .script).run" ] || failed 'all examples are carried out' "$script"
done

# laid_out SIZE ID IMAGE..: a pool of one parity on images of this size.
laid_out() {
  local size=$1 id=$2
  shift 2
  rm -f "$@"
  truncate -s "$size" "$@"
  "$RAIDZX" "$@" -- create --parity 1 --width $# --id "$id" >/dev/null
}

# 500 blocks of 65,536 bytes with their parity take 96,000 of the 196,608 sectors of this pool.
laid_out 33652736 9 "${IMAGES[@]}"
bash "$examples/500-puts.sh" | "$RAIDZX" "${IMAGES[@]}" -- run >found
[ "$(grep -c ' put .* ok$' found)" = 500 ] && [ "$(tail -n 1 found)" = '502 a.501 sync group 4' ] ||
  failed '500 puts' "$(tail -n 1 found)"
echo 'ok 500 puts and a sync'

export RAIDZX
# does NAME STATUS TEXT LAST WORD..: an example ends so, prints this, and tells this last.
does() {
  local name=$1 status=$2 text=$3 last=$4 found_status=0
  shift 4
  bash "$examples/$@" >found 2>told || found_status=$?
  [ "$found_status" = "$status" ] && [ "$(cat found)" = "$text" ] && [ "$(tail -n 1 told)" = "$last" ] ||
    failed "$name" "status $found_status, text: $(head -c 1000 found), told: $(cat told)"
  printf 'ok %s\n' "$name"
}
# gives FIRST FILE: the file is read again.
gives() {
  bash "$examples/read-file.sh" "$1" "${IMAGES[@]}" >again 2>told || failed read-file "$(cat told)"
  cmp -s "$2" again || failed read-file "$2 differs"
  [ "$(tail -n 1 told)" = "read-file: ${2#files/}, $(wc -c <"$2") bytes" ] || failed read-file "$(cat told)"
}
# holds BLOCKS: how many blocks the pool has.
holds() {
  [ "$("$RAIDZX" "${IMAGES[@]}" -- status 2>told | tail -n 1)" = "blocks $1" ] || failed 'blocks of the pool' "$1"
}

# A file of any kind: of no byte, of one block, of many. Each reads the same without an image.
laid_out 16M 10 "${IMAGES[@]}"
mkdir files
: >files/empty
printf 'hello' >'files/a letter'
head -c 65536 /dev/zero | tr '\0' '\377' >files/block
{ cat "$ROOT/crates.txt" "$RAIDZX"; head -c 7000001 /dev/zero; printf '\0\n\r\0'; } >files/many
first=1000
for file in files/*; do
  length=$(wc -c <"$file")
  last=$((first + (length + 65535) / 65536))
  does "store $file" 0 '' "store-file: ${file#files/}, $length bytes: blocks $first to $last" \
    store-file.sh "$file" $first "${IMAGES[@]}"
  gives $first "$file"
  first=$((first + 1000))
done
many=$(wc -c <files/many)
blocks=$((4 + 2 + (many + 65535) / 65536))
rm disk2
first=1000
for file in files/*; do
  gives $first "$file"
  first=$((first + 1000))
done
does 'files are listed, without an image' 0 "1000 5 a letter
2000 65536 block
3000 0 empty
4000 $many many" "list-files: 4 files; the pool has $blocks blocks" \
  list-files.sh "${IMAGES[@]}"

# Into a whole pool, once an image is out.
new=(new0 new1 new2)
rm -f "${new[@]}"
truncate -s 16M "${new[@]}"
does 'no pool is made for a copy' 1 '' 'copy-pool: the new pool is not there: create it first' \
  copy-pool.sh "${IMAGES[@]}" -- "${new[@]}"
"$RAIDZX" "${new[@]}" -- create --parity 1 --width 3 --id 11 >/dev/null
does 'a pool is not copied into itself' 1 '' 'copy-pool: both pools have the id 11: give a new pool an id of its own' \
  copy-pool.sh "${new[@]}" -- "${new[@]}"
does 'a pool is copied' 0 '' "copy-pool: copied $blocks blocks: each has the same sum in both pools" \
  copy-pool.sh "${IMAGES[@]}" -- "${new[@]}"
IMAGES=("${new[@]}")
rm new0
first=1000
for file in files/*; do
  gives $first "$file"
  first=$((first + 1000))
done
echo 'ok the copy gives the files, also without an image'
does 'no copy into a pool that has an image out' 1 '' 'copy-pool: images of the new pool are out: 0' \
  copy-pool.sh disk0 disk1 disk2 -- "${IMAGES[@]}"

# A small pool: a new file over an older one, and what finds no room.
IMAGES=(disk0 disk1 disk2)
laid_out 512K 12 "${IMAGES[@]}"
head -c 300000 files/many >files/longer
head -c 900000 files/many >files/large
store() { does "$1" "$2" '' "store-file: $3" store-file.sh "$4" "$5" "${IMAGES[@]}"; }
store 'a file' 0 'longer, 300000 bytes: blocks 100 to 105' files/longer 100
holds 6
store 'a shorter one over it' 0 'a letter, 5 bytes: blocks 100 to 101' 'files/a letter' 100
holds 2
gives 100 'files/a letter'
store 'a number in the way' 1 'block 100 is in the way: free it, or choose another number' files/longer 96
store 'a number of a block that is no head' 1 \
  'block 101 is there, and is not the head of a file: free it, or choose another number' files/longer 101
gives 100 'files/a letter'
holds 2
! bash "$examples/store-file.sh" files/large 100 "${IMAGES[@]}" >found 2>told ||
  failed 'a file with no room' "$(cat told)"
grep -q '^store-file: the pool has no room for 900000 bytes (block .* no space .*): nothing is stored at 100$' told ||
  failed 'a file with no room' "$(cat told)"
does 'a file with no room leaves no head' 1 '' 'read-file: there is no block 100' read-file.sh 100 "${IMAGES[@]}"
holds 0

# A store that is cut short: all blocks are there, and the program is stopped in the place of its fifth run, that of the
# head.
cat >stopping <<END
#!/usr/bin/env bash
[ "\${!#}" != run ] || echo run >>"$WORK/runs"
[ "\$(wc -l <"$WORK/runs")" -lt 5 ] || exit 9
exec "$RAIDZX" "\$@"
END
chmod +x stopping
: >runs
RAIDZX=$WORK/stopping store 'a store that is cut short' 1 'the program ended with status 9: ' files/longer 100
does 'it leaves no file' 1 '' 'read-file: block 100: longer was not stored to its end, store it again' \
  read-file.sh 100 "${IMAGES[@]}"
does 'nor is one listed' 0 '' "list-files: 0 files; the pool has 6 blocks" \
  list-files.sh "${IMAGES[@]}"
store 'it is stored again' 0 'a letter, 5 bytes: blocks 100 to 101' 'files/a letter' 100
holds 2

# Bytes that are none of the file's: the head has their sum.
printf 'clients 1\na puthex 101 68656c6c70\na sync\n' | "$RAIDZX" "${IMAGES[@]}" -- run >found
does 'other bytes than were stored' 1 '' 'read-file: a letter: its blocks hold other bytes than were stored' \
  read-file.sh 100 "${IMAGES[@]}"

# Why there is no file.
truncate -s 33488897 files/huge
store 'a file that fits no pool' 1 \
  'files/huge has 33488897 bytes, and a pool has 512 blocks: at most 33488896 bytes fit' files/huge 7
store 'a file that is not there' 1 'files/none: no file that can be read' files/none 7
store 'a wrong number' 1 "FIRST is the number of a block, 0 or above, not '08'" files/block 08
does 'no block' 1 '' 'read-file: there is no block 7' read-file.sh 7 "${IMAGES[@]}"
does 'a block that is no head' 1 '' 'read-file: block 101 is not the head of a file' read-file.sh 101 "${IMAGES[@]}"
for words in 'store-file FILE FIRST IMAGE..' 'read-file FIRST IMAGE..' 'list-files IMAGE..' \
  'copy-pool OLD-IMAGE.. -- NEW-IMAGE..'; do
  name=${words%% *}
  does "the usage of $name" 1 '' "$name: usage: $name.sh ${words#* }" "$name.sh"
done
truncate -s 512K blank0 blank1
for words in 'store-file.sh files/block 7' 'read-file.sh 7' list-files.sh; do
  name=${words%%.*}
  does "$name with no pool" 1 '' "$name: no pool is on these images" $words blank0 blank1
  RAIDZX=$WORK/none does "$name with no program" 1 '' \
    "$name: the program could not be built or started: $WORK/none" $words blank0 blank1
done
rm disk1 disk2
does 'too many images are missing' 1 '' 'read-file: the program ended with status 4: too many failed 1 2' \
  read-file.sh 100 "${IMAGES[@]}"
