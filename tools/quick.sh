#!/usr/bin/env bash
# Runs the tests of crates and the stored outputs of charts, and proves nothing. It looks at the
# layout of these crates, too, or of all.
#
#     tools/quick.sh [CRATE | CHART] ..
#
# CRATE is a crate of crates.txt: its tests run or, if it has none, those of each crate of tests that
# stands on it. CHART is a chart or diagram of charts/, by its path or its name: each stored output
# that has it in its command is compared. Without a name all stored outputs are compared.
#
# The program is the one that `./msc` runs, if it was built of these sources. Else one is built
# without a proof, once for each change of the sources, which takes the better part of the minute.
# The last line is `N passed, M failed`.
set -uo pipefail
top=$(cd "$(dirname "$(readlink -f "${BASH_SOURCE[0]}")")/.." && pwd)
cd "$top" || exit 1
. tools/sources.sh
passed=0 failed=0
unproved=$top/out/unproved

# Runs a check, and counts it.
check() {
  if "$@"; then
    passed=$((passed + 1))
  else
    failed=$((failed + 1))
    echo "quick: failed: $*"
  fi
}

is_crate() { [ -d "crates/$1/src" ]; }
has_tests() { grep -rqs '^#\[test\]' "crates/$1/src"; }

# The crates of tests that stand on a crate.
tests_above() {
  local name below
  while IFS=: read -r name below; do
    name=${name%% *}
    if has_tests "$name" && [[ " $below " == *" $1 "* ]]; then echo "$name"; fi
  done < <(grep -v '^#' crates.txt)
}

# Runs the tests of a crate, with no proof.
try_tests() { (cd "crates/$1" && rt try --test); }

# Runs the tests that tell most of a crate.
try_crate() {
  local name found=0
  if has_tests "$1"; then
    check try_tests "$1"
    return
  fi
  for name in $(tests_above "$1"); do
    echo "quick: $1 has no tests of its own; those of $name use it"
    check try_tests "$name"
    found=1
  done
  if [ "$found" = 0 ]; then echo "quick: no crate of tests stands on $1: name a chart"; fi
}

# Sets `program` to one of these sources.
find_program() {
  local sources
  sources=$(sources_line)
  if [ -x "$program" ] && is_built_of "$built" "$sources"; then return; fi
  if is_built_of "$(carried_folder)/built-of" "$sources"; then
    program=$(carried_folder)/msc
    return
  fi
  program=$unproved
  if [ -x "$program" ] && is_built_of "$unproved-of" "$sources"; then return; fi
  echo 'quick: building a program without a proof' >&2
  mkdir -p out
  rm -f "$unproved-of"
  tools/unproved.py "$unproved" || return
  echo "$sources" >"$unproved-of"
}

# Compares the stored outputs that name a chart, or all.
compare() { check tools/transcripts.py ${1+--of "$1"} "$program"; }

charts=() crates=()
for name in "$@"; do
  if is_crate "$name"; then crates+=("$name"); fi
done
if [ "${#crates[@]}" -gt 0 ] || [ $# = 0 ]; then check tools/layout "${crates[@]}"; fi
for name in "$@"; do
  if [[ $name == -* ]]; then
    echo 'usage: ./test quick [CRATE | CHART] ..' >&2
    exit 2
  fi
  if is_crate "$name"; then
    try_crate "$name"
  else
    charts+=("$(basename "${name%.*}")")
  fi
done
if [ "${#charts[@]}" -gt 0 ] || [ $# = 0 ]; then
  if find_program; then
    if [ $# = 0 ]; then compare; fi
    for name in "${charts[@]}"; do
      if [ -n "$(find charts -name "$name.*" -print -quit)" ]; then
        compare "$name"
      else
        echo "quick: there is no crate and no chart $name"
        failed=$((failed + 1))
      fi
    done
  else
    failed=$((failed + 1))
  fi
fi

echo "$passed passed, $failed failed"
[ "$failed" = 0 ]
