# The built program, for the checks beside this file: sets RAIDZX to it, and WORK to an empty folder.
# RAIDZX_PROGRAM names a program that is built already. Without it the one that stands in the program's out/ serves, as
# `rt ci` leaves it there, and is built anew only where there is none or where a source is younger.
set -eu
ROOT=$(cd "$(dirname "${BASH_SOURCE[0]}")/.." && pwd)
if [ -n "${RAIDZX_PROGRAM:-}" ]; then
  RAIDZX=$(realpath "$RAIDZX_PROGRAM")
else
  RAIDZX=$ROOT/crates/raidzx/out/raidzx
  # (not each crate has all of these folders)
  if [ ! -x "$RAIDZX" ] || find "$ROOT"/crates.txt "$ROOT"/crates/*/{src,specs,proofs} -type f -newer "$RAIDZX" \
    -print -quit 2>/dev/null | grep -q .; then
    (cd "$ROOT/crates/raidzx" && rt run -- mem:256 mem:256 -- create --parity 1 --width 2 --id 1 >/dev/null)
  fi
fi
WORK=$(mktemp -d)
trap 'rm -rf "$WORK"' EXIT
cd "$WORK"

# fresh IMAGE SECTORS: a fresh image, that holds a pattern.
fresh() { head -c $(($2 * 512)) /dev/zero | tr '\0' '\245' >"$1"; }

# images COUNT SECTORS: fresh images disk0, disk1, .. IMAGES names them.
images() {
  local number
  rm -rf disk*
  IMAGES=()
  for number in $(seq 0 $(($1 - 1))); do
    fresh "disk$number" "$2"
    IMAGES+=("disk$number")
  done
}

# pool PARITY WIDTH SECTORS: a fresh pool, of id 9, on fresh images.
pool() {
  images "$2" "$3"
  "$RAIDZX" "${IMAGES[@]}" -- create --parity "$1" --width "$2" --id 9 >/dev/null
}

# keep FOLDER, back FOLDER: copies of the images as they stand, and the images as they were copied.
keep() {
  rm -rf "$1"
  mkdir "$1"
  cp -r disk* "$1"
}
back() {
  rm -rf disk*
  cp -r "$1"/disk* .
}

# locked IMAGE: whether a program has it locked. To try the lock would keep that program from it for a moment.
locked() { grep -q ":$(stat -c %i "$1") " /proc/locks; }

# failed NAME FOUND: ends the check.
failed() {
  printf 'FAILED %s: %s\n' "$1" "$2"
  exit 1
}

# expect NAME STATUS TEXT WORD..: a run of the program with these words. INPUT is its standard input, and what it tells
# on standard error stands in `told`.
expect() {
  local name=$1 status=$2 text=$3 found found_status=0
  shift 3
  found=$("$RAIDZX" "$@" <"${INPUT:-/dev/null}" 2>told) || found_status=$?
  if [ "$found_status" != "$status" ] || [ "$found" != "$text" ]; then
    failed "$name" "status $found_status, text: $found"
  fi
  printf 'ok %s\n' "$name"
}

# tells NAME LINE..: these lines were told by the last run.
tells() {
  local name=$1
  shift
  [ "$(cat told)" = "$(printf '%s\n' "$@")" ] || failed "$name" "$(cat told)"
  printf 'ok %s\n' "$name"
}

# calls CALL..: a script in which one client makes these calls.
calls() {
  printf 'clients 1\n'
  [ $# = 0 ] || printf 'a %s\n' "$@"
}

# runs NAME STATUS TEXT CALL..: a script of these calls is carried out on the images, by a run, or as COMMAND says: a
# replay leaves an expansion that stands where it is, and a run goes on with it.
COMMAND=run
runs() {
  local name=$1 status=$2 text=$3
  shift 3
  calls "$@" >script
  INPUT=script expect "$name" "$status" "$text" "${IMAGES[@]}" -- $COMMAND
}

# same NAME FILE FILE
same() {
  cmp -s "$2" "$3" || failed "$1" "$2 differs from $3"
  printf 'ok %s\n' "$1"
}

# unchanged NAME FOLDER [IMAGE..]: these images, else all, stand as they were copied.
unchanged() {
  local name=$1 folder=$2 image
  shift 2
  for image in "${@:-${IMAGES[@]}}"; do
    cmp -s "$image" "$folder/$image" || failed "$name" "$image has changed"
  done
  printf 'ok %s\n' "$name"
}

# bytes HEX: these bytes. filled LENGTH: the input, and zeros up to this length.
bytes() { printf "$(printf %s "$1" | tr -d ' \n' | sed 's/../\\x&/g')"; }
filled() { cat - /dev/zero | head -c "$1"; }
digest() { sha256sum "$1" | cut -c 1-64; }
# sectors FILE FIRST COUNT: some of a file's sectors.
sectors() { dd if="$1" bs=512 skip="$2" count="$3" status=none; }
# unused FILE FIRST COUNT: these sectors hold zeros, or what a fresh image holds.
unused() { [ "$(sectors "$@" | tr -d '\0\245' | wc -c)" = 0 ] || failed 'sectors that are not used' "$*"; }

# pattern LEN SEED: the bytes that `put ID LEN SEED` stores.
pattern() {
  local at
  printf "$(for ((at = 0; at < $1; at++)); do printf '\\x%02x' $((($2 + 7 * at + at / 256) % 256)); done)"
}

# answers: of a journal's text the answers to `get` and `sum`, without their places in the journal.
answers() {
  sed -n 's/^[0-9]* [a-h]\.[0-9]* \(get\|sum\) \([0-9]*\)\( at [0-9]*\)\?/\1 \2/p'
}

# legal FILE: each group of a journal follows the one before it; a sync and an attach name the group just before them,
# which began behind their caller's last answer; a read answers for a point behind that.
legal() {
  awk '
    function wrong(why) { print NR ": " why; bad = 1; exit }
    $1 != NR - 1 { wrong("its number") }
    $2 == "group" {
      if (NR > 1 && ($3 != group + 1 || $5 < after || $5 > $1)) wrong("a group")
      group = $3; after = $5; listed = NR
      next
    }
    {
      caller = substr($2, 1, 1); number = substr($2, 3)
      if (number != made[caller] + 1) wrong("a call")
      commits = $3 == "sync" || $4 == "width"
      if (commits && ($NF != group || listed != NR - 1 || after <= last[caller])) wrong("a commit")
      if (($3 == "get" || $3 == "sum") && ($6 <= last[caller] || $6 > $1)) wrong("a read")
      made[caller] = number; last[caller] = $1
    }
    END { exit bad }' "$1"
}

# disturbed PATH FAULT WORD..: a run with a fault in the calls on this file, as `fdatasync:error=EIO:when=2`. Its text
# stands in `found`, what it tells in `told`, its calls in `trace`. STATUS is how it ends.
disturbed() {
  local path=$1 fault=$2
  shift 2
  STATUS=0
  "${AROUND[@]}" strace -f -s 0 -o trace -P "$path" -e "trace=${fault%%:*}" -e "inject=$fault" \
    "$RAIDZX" "$@" <"${INPUT:-/dev/null}" >found 2>told || STATUS=$?
  sed -i '/^strace: Requested path/d' told
}
AROUND=()

# singly PATH WORD..: a run as it is, but that each call which reads several sectors ahead fails. That counts for no disk,
# and each sector that is asked for is read by a call of its own: SINGLE holds, from its place 1 on, the numbers of those
# on this file among all calls that read of it.
SINGLY=(python3 -I -S "$ROOT/tests/singly.py")
singly() {
  local path=$1
  shift
  "${SINGLY[@]}" strace -f -s 0 -o trace -P "$path" -e trace=pread64 \
    "$RAIDZX" "$@" <"${INPUT:-/dev/null}" >found 2>told || true
  mapfile -t SINGLE < <(echo none && grep 'pread64(' trace | grep -n ', 512, ' | cut -d : -f 1)
}
# disturbed_singly PATH FAULT WORD..: such a run with a fault in calls that read a sector alone: `pread64:error=EIO:when=3`
# is the third of them, as the last `singly` found them, and with `when=3+` each call from there on. Where there is no
# such call the run is not made, and STATUS is `none`.
disturbed_singly() {
  local path=$1 fault=$2 when=${2##*when=} call
  shift 2
  call=${SINGLE[${when%+}]:-}
  STATUS=none
  [ -n "$call" ] || return 0
  AROUND=("${SINGLY[@]}")
  disturbed "$path" "${fault%when=*}when=${when/#${when%+}/$call}" "$@"
  AROUND=()
}

# was NAME STATUS TEXT [LINE..]: how the disturbed run has ended, and what it has told.
was() {
  local name=$1 status=$2 text=$3
  shift 3
  if [ "$STATUS" != "$status" ] || [ "$(cat found)" != "$text" ] ||
    [ "$(cat told)" != "$([ $# = 0 ] || printf '%s\n' "$@")" ]; then
    failed "$name" "status $STATUS, text: $(cat found), told: $(cat told)"
  fi
}

# summed LEN SEED: what a sum of such a block answers.
summed() { echo "length $1 sha $(pattern "$1" "$2" | sha256sum | cut -c 1-64)"; }
# summed_file FILE: what it answers of a block of the bytes of a file.
summed_file() { echo "length $(stat -c %s "$1") sha $(digest "$1")"; }

# pool_and COUNT: a fresh pool of three images, and so many images more that show none.
pool_and() {
  local number
  pool 1 3 256
  for ((number = 3; number < 3 + $1; number++)); do
    fresh disk$number 256
    IMAGES+=(disk$number)
  done
}

# shows WIDTH BIRTHS OUT BLOCKS: what a status tells of the images that runs name, behind its first line.
shows() {
  local found
  found=$("$RAIDZX" "${IMAGES[@]}" -- status 2>told | tail -n +2) || failed 'a status' "$found"
  [ "$found" = "$(printf 'width %s\nbirths %s\nout %s\nblocks %s' "$@")" ] || failed 'a status' "$found"
}

# groups FIRST LAST ITEM: the lines of these groups, one below the other, from the item of this number on.
groups() {
  local group item=$3
  for ((group = $1; group <= $2; group++, item++)); do echo "$item group $group after $item"; done
}

# reads_wanted NAME: the script `reads` is answered with the blocks that `wanted` holds.
reads_wanted() {
  "$RAIDZX" "${IMAGES[@]}" -- replay <reads 2>told | answers | cmp -s - wanted || failed "$1" 'other blocks'
}

# without_each NAME: the images as they stand, and without each one of them in turn, give the blocks that `wanted`
# holds.
without_each() {
  local name=$1 image
  keep each
  reads_wanted "$name"
  for image in "${IMAGES[@]}"; do
    back each
    rm "$image"
    reads_wanted "$name, without $image"
  done
  back each
  printf 'ok %s: all blocks are read, also without each one of %s images\n' "$name" ${#IMAGES[@]}
}

# lies SECTOR FILE..: these stand where the pool has this sector and those behind it, in rows of WIDTH.
lies() {
  local sector=$1 file
  shift
  for file; do
    sectors disk$((sector % WIDTH)) $((192 + sector / WIDTH)) 1 | cmp -s - "$file" || failed "sector $sector" "$file"
    sector=$((sector + 1))
  done
}

# spread WIDTH FIRST COUNT: so many of the pool's sectors, as rows of this width have them from a device sector on.
spread() {
  local sector
  for ((sector = 0; sector < $3; sector++)); do sectors disk$((sector % $1)) $(($2 + sector / $1)) 1; done
}

# full_pool: a fresh pool of three images that 96 blocks fill, and an image that was attached. `reads` sums the blocks,
# and `wanted` has their answers.
full_pool() {
  local id
  pool_and 1
  {
    calls
    for id in $(seq 0 95); do echo "a put $id 512 $id"; done
    printf 'a %s\n' 'put 96 1 1' sync attach 'put 96 1 1'
  } >script
  "$RAIDZX" "${IMAGES[@]}" -- run <script >found 2>told || failed 'a full pool' "$(cat found)"
  [ "$(tail -n 6 found)" = '97 a.97 put 96 no space 2
98 group 4 after 98
99 a.98 sync group 4
100 group 5 after 100
101 a.99 attach width 4 group 5
102 a.100 put 96 no space 2' ] || failed 'a full pool' "$(cat found)"
  keep full
  { calls; for id in $(seq 0 95); do echo "a sum $id"; done; } >reads
  "$RAIDZX" "${IMAGES[@]}" -- run <reads | answers >wanted
  for id in 0 1 95; do grep -qx "sum $id $(summed 512 $id)" wanted || failed 'a block of a full pool' $id; done
  back full
}

# turns LETTERS COUNT: these letters so many times, for the order of a script.
turns() { printf "$1%.0s" $(seq "$2"); }
