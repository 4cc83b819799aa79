# Functions of ./tt and ./gate: which sources go into the program, and the stamp by which a program that was built is known again.
#
# The stamp lies beside the program. It has two checksums, one of the names and the contents of the sources and one of the program, so times
# don't count: a copied repository has its program, and so has one that went to another branch and back.

# Lists the crates of the program, each once, by the file crates.txt of a folder; with `lines` their lines there, without comments.
crates_of_program() {
  awk -v what="${2:-names}" '
    { sub(/ *#.*/, "") }
    /^[a-z0-9_]+:/ { name = below = $0; sub(/:.*/, "", name); sub(/^[^:]*:/, "", below); line[name] = $0; libraries[name] = below }
    END {
      waiting = "tt"
      while (match(waiting, /[a-z0-9_]+/)) {
        crate = substr(waiting, RSTART, RLENGTH)
        waiting = substr(waiting, RSTART + RLENGTH)
        if (crate in listed || !(crate in line)) continue
        listed[crate] = 1
        print what == "lines" ? line[crate] : crate
        waiting = waiting " " libraries[crate]
      }
    }' "$1/crates.txt"
}

# Prints the checksum of the program's sources in a folder: of HANDLES, the lines of its crates, and their files in src/, specs/ and proofs/.
sum_of_sources() {
  (
    set -o pipefail
    cd "$1"
    {
      sha256sum HANDLES
      crates_of_program . lines
      find $(crates_of_program . | sed 's,^,crates/,') \( -name out -o -name must-fail \) -prune -o -type f \
        \( -path 'crates/*/src/*' -o -path 'crates/*/specs/*' -o -path 'crates/*/proofs/*' \) -print0 | LC_ALL=C sort -z | xargs -0 sha256sum
    } | sha256sum | cut -d ' ' -f 1
  )
}

# Prints the stamp of a program that was built from sources with this checksum.
stamp_of() {
  echo "sources $2"
  echo "program $(sha256sum <"$1" | cut -d ' ' -f 1)"
}

# Writes the stamp of a program beside it.
put_stamp() {
  stamp_of "$1" "$2" >"$1.stamp.new"
  mv "$1.stamp.new" "$1.stamp"
}

# Says whether a program is the one that its stamp names, built from the sources that the folder has now.
is_current() {
  [ -f "$1" ] && [ -f "$1.stamp" ] && [ "$(stamp_of "$1" "$(sum_of_sources "$2")")" = "$(cat "$1.stamp")" ]
}
