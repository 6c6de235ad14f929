#!/usr/bin/env bash
# The way in, `./raidzx`: when it builds, what it hands to the program, and how it ends where no program comes of a
# build. Proves nothing: a stand-in for rt makes a program that tells what it was given, and ends with 9.
set -eu
door=$(cd "$(dirname "${BASH_SOURCE[0]}")/.." && pwd)/raidzx
WORK=$(mktemp -d)
trap 'rm -rf "$WORK"' EXIT
cd "$WORK"

mkdir -p repository/crates/raidzx/{src,specs,proofs/part} kit elsewhere
cp "$door" repository/raidzx
repository=$WORK/repository
sources=$repository/crates/raidzx
printf 'raidzx:\n' >repository/crates.txt
touch "$sources"/{src/main.text,specs/Lib.text,proofs/part/Answers.text}
cat >kit/rt <<'END'
#!/usr/bin/env bash
printf '%s\n' "$1" >>"$WORK/calls"
echo 'a line of the build'
echo 'another one' >&2
[ ! -e "$WORK/refused" ] || exit 1
[ ! -e "$WORK/edited" ] || touch src/main.text
[ "$1" = run ] || exit 0
mkdir -p out
printf '#!/usr/bin/env bash\nprintf "%%s\\n" "$PWD" "$#" "$@"\ncat\nexit 9\n' >out/raidzx
chmod +x out/raidzx
END
chmod +x kit/rt
export WORK
path=$PATH
PATH=$WORK/kit:$PATH

failed() {
  printf 'FAILED %s: %s\n' "$name" "$1"
  exit 1
}

# use NAME BUILDS DOOR: a use of the door from another folder, with words and standard input. BUILDS: yes or no.
use() {
  name=$1
  local status=0 wanted
  rm -f calls
  (cd elsewhere && printf 'input' | "$3" 'two words' '*' -- run '' >../said 2>../told) || status=$?
  [ "$status" = 9 ] || failed "status $status"
  printf -v wanted '%s\n' "$WORK/elsewhere" 5 'two words' '*' -- run ''
  [ "$(cat said)" = "${wanted}input" ] || failed 'words, input or output were changed'
  case $2 in
    yes) [ "$(cat calls)" = $'all\nrun' ] && [ -s told ] || failed 'nothing was built' ;;
    no) [ ! -e calls ] && [ ! -s told ] || failed 'it was built once more' ;;
  esac
  printf 'ok %s\n' "$name"
}

# refuse NAME: a use of the door that ends with 70, and with nothing on standard output.
refuse() {
  name=$1
  local status=0
  "$repository/raidzx" >said 2>told </dev/null || status=$?
  [ "$status" = 70 ] && [ ! -s said ] && [ -s told ] || failed "status $status"
  printf 'ok %s\n' "$name"
}

# later FILE: makes the file younger than the last build.
later() { touch -d '1 minute' "$1"; }

# settle: makes all sources older than the last build.
settle() { find "$repository/crates.txt" "$sources"/{src,specs,proofs} -exec touch -d '1 minute ago' {} +; }

# asks WORD TEXT: is answered without a build.
asks() {
  name="$1 is answered at once"
  local status=0
  rm -f calls
  "$repository/raidzx" "$1" >said 2>told </dev/null || status=$?
  [ "$status" = 1 ] && [ "$(cat said)" = usage ] && [ ! -e calls ] && grep -q "$2" told ||
    failed "status $status, $(cat said told)"
  printf 'ok %s\n' "$name"
}

settle
asks --help 'IMAGE.. -- create --parity P'
for word in -h help --version; do asks $word 'format 1'; done
use 'the first use builds' yes "$repository/raidzx"
use 'the second one does not' no "$repository/raidzx"
use 'it is named from another folder' no ../repository/raidzx
ln -s ../repository/raidzx elsewhere/link
use 'it is named by a link' no ./link
for file in "$repository/crates.txt" "$sources"/{src/main.text,specs/Lib.text,proofs/part/Answers.text}; do
  later "$file"
  use "a change of ${file##*/} is built" yes "$repository/raidzx"
  settle
  use 'once' no "$repository/raidzx"
done
later "$repository/crates.txt"
touch edited
use 'a source changes while it is built' yes "$repository/raidzx"
rm edited
touch -d '1 minute ago' "$repository/crates.txt"
use 'and is built the next time' yes "$repository/raidzx"
settle

touch refused
later "$sources/src/main.text"
refuse 'a build that fails ends with 70, and the older program is not started'
grep -q 'another one' told || failed 'what the build printed is not on standard error'
rm refused
use 'the next use builds again' yes "$repository/raidzx"
rm -r "$sources/out"
# A folder with the commands that the door uses, and without rt.
mkdir plain
for command in bash env nproc mkdir mv readlink; do ln -s "$(PATH=$path command -v "$command")" "plain/$command"; done
PATH=$WORK/plain
refuse 'without rt there is no build'
PATH=$path
