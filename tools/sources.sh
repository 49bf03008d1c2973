# shellcheck shell=bash disable=SC2034,SC2154
# What the program is built of, and the program that the repository carries. For scripts, which set
# `top` to the top of the repository and then read this file.
#
# A program has a file beside it, `built` here and `built-of` where it is carried, with two lines:
#
#     kit KIT       the line that `rt version` says of the kit that proved and built it
#     sources SUM   the digest of the sources that it was built of

program=$top/crates/msc/out/msc
built=$top/crates/msc/out/built

# The crates that the program stands on, and its own; or those that crate $1 stands on, and it.
program_crates() {
  awk -F: -v root="${1-msc}" '
    !/^#/ { split($1, words, " "); below[words[1]] = $2 }
    function visit(name, count, at, names) {
      if (seen[name]++) return
      count = split(below[name], names, " ")
      for (at = 1; at <= count; at++) if (names[at] in below) visit(names[at])
      print name
    }
    END { visit(root) }' "$top/crates.txt"
}

# The folders of their sources, and the list of crates.
source_folders() {
  local crate part
  echo crates.txt
  for crate in $(program_crates); do
    for part in src specs proofs; do
      if [ -e "$top/crates/$crate/$part" ]; then echo "crates/$crate/$part"; fi
    done
  done
}

# Prints the line of the sources: one digest of their names and bytes.
sources_line() (
  cd "$top" || exit
  mapfile -t folders < <(source_folders)
  sum=$(find "${folders[@]}" ! -type d -print0 | LC_ALL=C sort -z | xargs -0 sha256sum -- |
    sha256sum) || exit
  echo "sources ${sum%% *}"
)

# Whether a program, by the file beside it, was built of these sources; the second word is their
# line.
is_built_of() {
  [ -n "$2" ] && [ -f "$1" ] && grep -qxF "$2" "$1"
}

# The folder of the carried program for machines of this kind.
carried_folder() {
  echo "$top/carried/$(uname -m)-linux-gnu"
}

# How many proofs run side by side: as many as there are processors and 4 GB of free memory for
# each, and four at most.
proof_lanes() {
  local lanes
  lanes=$({ nproc; awk '/^MemAvailable/ { print int($2 / 4000000) }' /proc/meminfo; echo 4; } |
    sort -n | head -n 1)
  echo $((lanes > 0 ? lanes : 1))
}
