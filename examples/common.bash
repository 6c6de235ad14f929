# What the examples that keep files share: each of them sources this. It needs bash, coreutils, grep and sed.
set -euo pipefail
shopt -s lastpipe
export LC_ALL=C
self=$(basename "$0" .sh)
# RAIDZX names the program, where it is not the one beside this folder.
raidzx=${RAIDZX:-$(dirname "${BASH_SOURCE[0]}")/../raidzx}
work=$(mktemp -d)
trap 'rm -rf "$work"' EXIT

# The bytes of a block, and the blocks that one script puts or gets: a script has at most 16 MiB, and 100 puts take 13.
block=65536
lot=100
# The head of a file has fewer bytes than this.
head_limit=400

# say WORD..: tells this on standard error. stop WORD..: tells why the script ends, and ends it.
say() { printf '%s: %s\n' "$self" "$*" >&2; }
stop() {
  say "$*"
  exit 1
}

# number NAME WORD: ends unless the word is the number of a block.
number() {
  [[ $2 =~ ^(0|[1-9][0-9]{0,17})$ ]] || stop "$1 is the number of a block, 0 or above, not '$2'"
}

# start WORD..: starts the program. Its output is in $work/text and its status in `status`. What it tells on standard
# error is passed on, each line once, however many runs of it tell the same; but for what a status tells of a pool that is
# well. `ranges` are the numbers of the blocks that it has told.
declare -A told=()
start() {
  local line
  status=0
  ranges=
  "$raidzx" "$@" 2>&1 >"$work/text" | while IFS= read -r line; do
    case $line in
      *': in use' | *': cannot be read' | 'raidzx: all blocks can be read'*) continue ;;
      'raidzx: '*' sectors are used, by '*) continue ;;
      'raidzx: blocks '*)
        ranges=${line#raidzx: blocks }
        continue
        ;;
    esac
    [ -n "${told[-$line]-}" ] || printf '%s\n' "$line" >&2
    told[-$line]=told
  done || status=$?
}

# checked: ends, with the reason, where the last command was not carried out.
checked() {
  case $status in
    0) ;;
    3) stop 'no pool is on these images' ;;
    70 | 126 | 127) stop "the program could not be built or started: $raidzx" ;;
    *) stop "the program ended with status $status: $(tail -n 1 "$work/text")" ;;
  esac
}

# carry_out WORD..: starts the program, and ends where it did not carry out its command.
carry_out() {
  start "$@"
  checked
}

# look IMAGE..: ends unless these images show a pool that can be read. Nothing is written to them. Sets `pool`, its
# number, `out`, the images that are out, `blocks`, how many it has, and `ranges`, their numbers.
look() {
  carry_out "$@" -- status
  pool=$(sed -n 's/^pool \([0-9]*\) .*/\1/p' "$work/text")
  out=$(sed -n 's/^out //p' "$work/text")
  blocks=$(sed -n 's/^blocks //p' "$work/text")
  [ "$blocks" = "$(list_ids | wc -l)" ] || stop 'the pool changes meanwhile: try again when no program is at work on it'
}

# calls CALL FIRST LAST: a call of the client for each of these blocks, as lines of a script.
calls() { seq "$2" "$3" | sed "s/^/a $1 /"; }

# bytes: the bytes of the blocks that the last run has got, one behind the other.
bytes() { sed -n 's/.* bytes //p' "$work/text" | tr a-f A-F | basenc --base16 -d; }

# read_head FILE: whether this file holds the head of a file that is kept: a line of the word `file`, its length and its
# SHA-256, then its name. While a file is stored the word is `part`. Sets `kind`, `length`, `digest`, `name` and
# `pieces`, the number of blocks behind the head.
read_head() {
  kind='' length='' digest='' name=''
  { IFS=' ' read -r kind length digest && IFS= read -r -d '' name || true; } <"$1"
  [[ "$kind $length $digest" =~ ^(file|part)\ (0|[1-9][0-9]{0,7})\ [0-9a-f]{64}$ ]] || return 1
  pieces=$(((length + block - 1) / block))
  # as `ls` shows it
  name=${name//[[:cntrl:]]/?}
}

# list_ids: the numbers of the pool's blocks, a line each, as the last look has told them in ranges.
list_ids() {
  local range
  for range in $ranges; do seq "${range%-*}" "${range#*-}"; done
}

# sum_calls: a sum of the client for each of the blocks of $work/ids that may be a head, as lines of a script.
sum_calls() { sed -nE '/^.{1,18}$/s/^/a sum /p' "$work/ids"; }

# find_heads IMAGE..: finds the heads among the blocks of $work/ids, at most 10,000. They are in $work/heads, a line for
# each: its number and its bytes in hexadecimal digits.
find_heads() {
  local id length digits
  : >"$work/heads"
  { echo 'clients 1' && sum_calls; } >"$work/script"
  carry_out "$@" -- run <"$work/script"
  sed -n 's/.* sum \([0-9]*\) at [0-9]* damaged$/\1/p' "$work/text" >"$work/damaged"
  while read -r id; do say "block $id is damaged"; done <"$work/damaged"
  sed -n 's/.* sum \([0-9]*\) at [0-9]* length \([0-9]*\) .*/\1 \2/p' "$work/text" >"$work/sums"
  { echo 'clients 1' && while read -r id length; do
    ((length >= head_limit)) || echo "a get $id"
  done <"$work/sums"; } >"$work/script"
  carry_out "$@" -- run <"$work/script"
  sed -n 's/.* get \([0-9]*\) at [0-9]* bytes \(.*\)/\1 \2/p' "$work/text" >"$work/small"
  while read -r id digits; do
    tr a-f A-F <<<"$digits" | basenc --base16 -d >"$work/head"
    if read_head "$work/head"; then echo "$id $digits" >>"$work/heads"; fi
  done <"$work/small"
}
