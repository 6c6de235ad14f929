#!/usr/bin/env bash
# The drawing of the crates shows those that there are, and the lines of crates.txt that do not follow from others; the
# list of clauses is that of the sources, and the clauses that are promised are in it; the manual tells each note of the
# program, and is shown without a warning; no bullet of a crate's README is long.
set -eu
WORK=$(mktemp -d)
trap 'rm -rf "$WORK"' EXIT
cd "$(dirname "${BASH_SOURCE[0]}")/.."
failed() {
  printf 'FAILED %s\n' "$1"
  exit 1
}

listed=$(sed -n 's/^\([a-z_]*\):.*/\1/p' crates.txt | sort)
drawn=$(sed -n 's/.*monospace".*>\([a-z_]*\)<\/text>/\1/p' docs/crates.svg | sort)
[ "$listed" = "$drawn" ] || failed 'the drawing has not the crates of crates.txt'
# What crates.txt says and does not follow from other lines of it.
awk '
  function reaches(upper, lower,   middle) {
    if ((upper, lower) in below) return 1
    if ((upper, lower) in known) return known[upper, lower]
    known[upper, lower] = 0
    for (middle in crates)
      if ((upper, middle) in below && reaches(middle, lower)) return known[upper, lower] = 1
    return 0
  }
  /^[a-z_]+:/ {
    name = substr($1, 1, length($1) - 1)
    crates[name]
    for (at = 2; at <= NF; at++) below[name, $at]
  }
  END {
    for (upper in crates) for (lower in crates) {
      needed = ((upper, lower) in below)
      for (middle in crates)
        if (needed && middle != lower && (upper, middle) in below && reaches(middle, lower)) needed = 0
      if (needed) print upper, lower
    }
  }
' crates.txt | sort >"$WORK/needed"
sed -n 's/.*<title>\([a-z_]*\) stands on \([a-z_]*\)<.*/\1 \2/p' docs/crates.svg | sort >"$WORK/drawn"
lacking=$(comm -23 "$WORK/needed" "$WORK/drawn")
[ -z "$lacking" ] || failed "the drawing lacks these lines: $lacking"
surplus=$(comm -13 "$WORK/needed" "$WORK/drawn")
[ -z "$surplus" ] || failed "these lines of the drawing are not of crates.txt, or follow from others: $surplus"
echo 'ok the drawing of the crates'

if python3 --version >/dev/null 2>&1; then
  python3 docs/crates.py | cmp -s - docs/crates.svg ||
    failed 'docs/crates.svg is not what docs/crates.py draws: python3 docs/crates.py >docs/crates.svg'
  echo 'ok the drawing is of this crates.txt'
  python3 docs/clauses.py | cmp -s - docs/clauses.md ||
    failed 'docs/clauses.md is not what docs/clauses.py writes: python3 docs/clauses.py >docs/clauses.md'
  echo 'ok the list of clauses'
  python3 docs/clauses.py --cited docs/promises.md || failed 'a clause that is promised is not there'
  echo 'ok the clauses that are promised'
  python3 docs/clauses.py --cited crates/*/README.md || failed 'a clause that a README tells is not there'
  echo 'ok the clauses that the READMEs tell'
  # What is told of words that are no command shows forms of words, as the manual's first lines do.
  sources=$(printf '%s\n' crates/raidzx/src/*.rt | grep -v -e /usage.rt -e /help.rt)
  said=$(python3 tests/manual.py docs/raidzx.1 $sources)
  [ -z "$said" ] || failed "the manual does not tell: $said"
  echo 'ok the notes of the program, which the manual tells'
else
  echo 'skipped the list of clauses: python3 is not installed'
fi

# A bullet is a line that begins with a dash, and the lines that continue it.
long=$(awk '
  function close_bullet() {
    if (length(bullet) > 200) print name ": " substr(bullet, 1, 60) " .."
    bullet = ""
  }
  FNR == 1 { close_bullet(); name = FILENAME }
  /^ *- / { close_bullet(); bullet = $0; next }
  /^ *$/ { close_bullet(); next }
  bullet != "" { sub(/^ */, ""); bullet = bullet " " $0 }
  END { close_bullet() }
' crates/*/README.md)
[ -z "$long" ] || failed "a bullet has more than 200 characters: $long"
echo 'ok the bullets of the READMEs'

if man --version 2>/dev/null | grep -q '^man [0-9]'; then
  said=$(LC_ALL=C man -l --warnings=w docs/raidzx.1 2>&1 >/dev/null) || failed 'the manual page is not shown'
  [ -z "$said" ] || failed "the manual page: $said"
  echo 'ok the manual page'
else
  echo 'skipped the manual page: man-db is not installed'
fi
