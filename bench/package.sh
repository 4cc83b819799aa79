# Functions of `./tt package`: an archive of the built program with what belongs to it.

# What of the repository is in a package, beside the program and the file NEEDS.
PACKED=(LICENSE-MIT LICENSE-APACHE README.md CHANGELOG.md docs/RULES.md docs/PROOF_FORMAT.md docs/GROUPS_FORMAT.md examples)

# Prints what a program needs of the system, a line each: `needs FILE` for a library or its loader, and `glibc VERSION` for the newest symbol.
needs_of() {
  local libraries version
  if [ "$(head -c 4 "$1" | tail -c 3)" != ELF ]; then
    echo "what it needs of the system isn't known: it is a script"
    return
  fi
  libraries=$(ldd "$1" 2>&1) || true
  case $libraries in
    *'not a dynamic executable'* | *'statically linked'*)
      echo 'needs nothing: it is linked statically'
      return
      ;;
    *'=>'* | *ld-linux*) ;;
    *)
      echo "what it needs of the system isn't known: $libraries"
      return
      ;;
  esac
  # The library linux-vdso is a part of the kernel.
  awk '$1 !~ /^linux-vdso/ { print "needs " $1 }' <<<"$libraries" | LC_ALL=C sort
  version=$(grep -aoE 'GLIBC_[0-9]+(\.[0-9]+)+' "$1" | LC_ALL=C sort -uV | tail -n 1)
  if [ -n "$version" ]; then echo "glibc ${version#GLIBC_} or later"; fi
}

# Makes the archive of the program in the folder out/ of a repository. Names, times and owners are the same for the same contents.
make_package() {
  local program=$1 top=$2 line version name room date
  line=$("$program" --version)
  version=$(cut -d ' ' -f 2 <<<"$line")
  case $version in
    '' | *[!0-9.]*)
      echo "tt: --version prints '$line', which has no version" >&2
      return 2
      ;;
  esac
  name="tt-$version-x86_64-linux"
  mkdir -p "$top/out"
  room=$(mktemp -d "$top/out/package.XXXXXX")
  trap "rm -rf $(printf %q "$room")" EXIT
  mkdir "$room/$name"
  cp "$program" "$room/$name/tt"
  chmod 755 "$room/$name/tt"
  {
    echo "$line"
    if command -v file >/dev/null; then echo "file $(file -b "$program" | sed 's/, BuildID[^,]*//')"; fi
    needs_of "$program"
  } >"$room/$name/NEEDS"
  (cd "$top" && find "${PACKED[@]}" \( -name __pycache__ -o -name out \) -prune -o -type f -print0 | xargs -0 cp --parents -t "$room/$name")
  chmod -R u=rwX,go=rX "$room/$name"
  date=$(sed -n 's/^### \([0-9-]*\)$/\1/p' "$top/CHANGELOG.md" | head -n 1)
  tar --sort=name --owner=0 --group=0 --numeric-owner --mtime="${date:-1970-01-01} 00:00:00 UTC" -C "$room" -cf "$room/archive.tar" "$name"
  gzip -9n "$room/archive.tar"
  mv "$room/archive.tar.gz" "$top/out/$name.tar.gz"
  cat "$room/$name/NEEDS"
  echo "out/$name.tar.gz"
}
