#!/usr/bin/env bash
# Tries the launcher ./msc in copies of the repository, with a stand-in for rt that builds nothing:
# it runs the carried program for the sources that this was built of, and for no others.
#
#     tools/launcher.sh PROGRAM
set -u
top=$(cd "$(dirname "$(readlink -f "${BASH_SOURCE[0]}")")/.." && pwd)
real=$(readlink -f "$1")
passed=0 failed=0
room=$(mktemp -d)
trap 'rm -rf "$room"' EXIT

check() {
  if "${@:2}"; then
    passed=$((passed + 1))
  else
    failed=$((failed + 1))
    echo "launcher: failed: $1"
  fi
}

# A tool of this name stands first on the path, and writes each call to $room/calls.
stand_in() {
  mkdir -p "$room/$1"
  { printf '#!/bin/sh\necho "%s $*" >>"%s/calls"\n' "$2" "$room" && cat; } >"$room/$1/$2"
  chmod +x "$room/$1/$2"
}

# of the crate that it is called in, it proves nothing; it does not prove msc_order where $room/bad
stand_in rt rt <<END
if [ "\$1" = version ]; then echo stand-in; exit; fi
echo "\$1 \${PWD##*/}" >>$room/steps
case \$1 in
check) if [ -e $room/bad ] && [ "\${PWD##*/}" = msc_order ]; then echo open goal; exit 1; fi ;;
lib) mkdir -p out/rlib && touch out/rlib/stamp ;;
run) mkdir -p out && printf '#!/bin/sh\necho built\n' >out/msc && chmod +x out/msc ;;
esac
END
stand_in machine uname <<'END'
echo another
END
stand_in sums sha256sum <<'END'
exec /usr/bin/sha256sum "$@"
END

# A fresh copy, which carries the program. Its crates are built without rt, unless $1 says so.
copy() {
  rm -rf "$room/copy"
  mkdir "$room/copy"
  (cd "$top" && tar -cf - --exclude=out --exclude=must-fail msc tools crates.txt HANDLES crates \
    charts/two_phase_commit.msc docs/msc.1) | tar -xf - -C "$room/copy"
  if [ "${1-}" != rt ]; then
    echo "import os; os.chdir('$room/copy/crates/msc'); os.system('rt run')" \
      >"$room/copy/tools/build.py"
  fi
  local top=$room/copy carried
  . "$top/tools/sources.sh"
  carried=$(carried_folder)
  mkdir -p "$carried"
  cp "$real" "$carried/msc"
  printf 'kit carried\n%s\n' "$(sources_line)" >"$carried/built-of"
}

# Runs the launcher of the copy with these words; a folder of stand-ins ($1) is first on the path.
launch() {
  : >"$room/calls"
  PATH=${1:+$room/$1:}/usr/bin:/bin "$room/copy/msc" "${@:2}" 2>"$room/error"
}

words=(check --queues mailbox --closest --why --show 0 "$top/charts/two_phase_commit.msc")
answers() { [ "$(launch "${1-}" "${words[@]}")" = "$("$real" "${words[@]}")" ]; }
builds() { [ "$(launch rt "${words[@]}")" = built ] && grep -q '^rt run' "$room/calls"; }
proves_nothing() { answers rt && ! [ -s "$room/calls" ]; }
makes_no_sum() { answers sums && ! [ -s "$room/calls" ]; }
makes_sums() { answers sums && [ -s "$room/calls" ]; }
is_refused() {
  launch '' --version
  [ $? = 4 ] && grep -q 'rt, the Rattle toolchain, is not here' "$room/error"
}

# The steps of rt in a build from nothing, or above a crate that changed: each crate is checked and
# then made a library, once, and after those that it stands on.
builds_in_order() {
  : >"$room/steps"
  builds && [ "$(sort "$room/steps" | uniq -d)" = '' ] && awk -v crates="$room/copy/crates.txt" '
    BEGIN {
      while ((getline line <crates) > 0) { split(line, words, /[ :]/); below[words[1]] = line }
    }
    $1 == "check" { checked[$2] }
    $1 == "lib" { if (!($2 in checked)) exit 1; made[$2] = NR }
    $1 != "lib" {
      count = split(below[$2], names, /[ :]/)
      for (at = 2; at <= count; at++) wanted[names[at], $2] = NR
    }
    END {
      for (pair in wanted) {
        split(pair, names, SUBSEP)
        if (names[1] in made && made[names[1]] > wanted[pair]) exit 1
      }
    }' "$room/steps" && [ "$(grep -c '^check ' "$room/steps")" = "$1" ]
}
# How many crates are proved for the program where crate $1 changed: it, and those that stand on it.
proved_for() {
  local crate
  for crate in $(program_crates | grep -vx msc); do
    if program_crates "$crate" | grep -qx "$1"; then echo "$crate"; fi
  done | wc -l
}
is_not_proved() {
  launch rt --version
  [ $? = 4 ] && grep -q 'open goal' "$room/error" && grep -q 'msc_order is not proved' "$room/error"
}

# Whether the program and its manual are installed, and whether only they are removed.
installs() (
  cd / && PREFIX=$room/there "$room/copy/tools/install" >"$room/log" &&
    cmp "$real" "$room/there/bin/msc" &&
    cmp "$top/docs/msc.1" "$room/there/share/man/man1/msc.1" &&
    cmp <("$real" completions bash) "$room/there/share/bash-completion/completions/msc" &&
    cmp <("$real" completions zsh) "$room/there/share/zsh/site-functions/_msc" &&
    cmp <("$real" completions fish) "$room/there/share/fish/vendor_completions.d/msc.fish"
)
uninstalls() {
  PREFIX=$room/there "$room/copy/tools/uninstall" >"$room/log" &&
    [ "$(find "$room/there" -type f)" = "$room/there/bin/other" ]
}

changed_byte() { printf ' ' >>"$1"; }
added_file() { touch "$(dirname "$1")/Added.antt"; }
removed_file() { rm "$1"; }
# its times say that nothing changed
changed_in_secret() {
  touch -r "$1" "$room/times"
  printf ' ' >>"$1"
  touch -r "$room/times" "$1"
}
# the file as it was, with nothing beside it
undo() {
  rm -f "$(dirname "$1")/Added.antt"
  cp "$top/${1#"$room/copy/"}" "$1"
}

copy
check 'a fresh copy, without rt' answers
check 'the program is taken once' makes_no_sum
touch "$room/copy/crates/listed/src/lib.rt"
check 'a source is newer and the same' makes_sums
check 'and is looked at once' makes_no_sum
for file in src/lib.rt specs/Words.antt proofs/Lib.antt; do
  file=$room/copy/crates/msc_lexer/$file
  for change in changed_byte added_file removed_file changed_in_secret; do
    for state in fresh taken; do
      rm -rf "$room/copy/crates/msc/out"
      if [ "$state" = taken ]; then answers; fi
      "$change" "$file"
      check "$change, $file, $state: without rt" is_refused
      check "$change, $file, $state" builds
      undo "$file"
      check "$change, $file, $state: undone, without rt" answers
    done
  done
done
changed_byte "$file"
check 'built' builds
check 'what was built is not built again' test "$(launch '')" = built
copy rt
changed_byte "$room/copy/crates/msc/src/main.rt"
check 'a build from nothing' builds_in_order "$(program_crates | grep -cvx msc)"
changed_byte "$room/copy/crates/msc_order/src/lib.rt"
check 'a build above a crate that changed' builds_in_order "$(proved_for msc_order)"
changed_byte "$room/copy/crates/msc_order/src/lib.rt"
touch "$room/bad"
check 'a crate that is not proved' is_not_proved
rm "$room/bad"
check 'and then is' builds_in_order "$(proved_for msc_order)"
check 'nothing is left of it' test ! -e "$room/copy/out/proving"
copy
echo >>"$room/copy/crates.txt"
check 'another list of crates' builds
copy
check 'a machine of another kind' test "$(launch machine:"$room"/rt)" = built
copy
echo 'no program' >"$(top=$room/copy; . "$top/tools/sources.sh"; carried_folder)/msc"
check 'a program that does not start' builds
copy
touch "$room/copy/crates/msc/out"
check 'a folder that cannot be made' proves_nothing
copy
mkdir -p "$room/there/bin"
touch "$room/there/bin/other"
check 'installed' installs
check 'installed again' installs
check 'uninstalled' uninstalls
check 'uninstalled again' uninstalls

echo "launcher: $passed passed, $failed failed"
[ "$failed" = 0 ]
