# Functions that find the program that fits the sources, or build it. `./actionlint` sources this after setting `top`, the root directory, and
# `name`, the program's, which is actionlint or actionlint-facts.
#
# A program fits if it was built from these sources: crates/CRATE/out/CRATE if no source is newer, and prebuilt/NAME if its file of hashes
# in prebuilt/ has the hash of the sources, it was proved in the logic of the installed kit, if there is one, and it runs on this machine. Finding that out needs awk, find, sort, xargs and sha256sum.
#
# A stamp names the program that was last found to fit, and its sources. It is in the clone, or in the user's cache folder if the clone is
# read-only. With a stamp, a run only searches for newer sources.
case ${name:=actionlint} in
  actionlint-facts)
    crate=al_facts
    hashed=prebuilt/$name.sha256
    ;;
  *)
    crate=actionlint
    hashed=prebuilt/sources.sha256
    ;;
esac
built=crates/$crate/out/$crate
prebuilt=prebuilt/$name
stamp=$top/crates/$crate/out/fits
caches=${XDG_CACHE_HOME:-${HOME:+$HOME/.cache}}
case $caches in
  /*) cached_stamp=$caches/$name$top/fits ;;
  *) cached_stamp= ;;
esac
why="no program was built from these sources"
news=

# Tells the user something, if standard error takes it.
say() { printf '%s: %s\n' "$name" "$1" >&2 || :; }

has() { command -v "$1" > /dev/null; }

# What the program is built from: crates.txt, and src, specs and proofs of its crate and of the repository's crates below that.
list_sources() {
  printf 'crates.txt'
  awk -v "top=$crate" '
    /^[^#]/ { split($0, halves, ":"); split(halves[1], named, " "); below[named[1]] = halves[2] }
    function find(crate,   names, count, i) {
      if (!(crate in below) || crate in found) return
      found[crate] = 1
      count = split(below[crate], names, " ")
      for (i = 1; i <= count; i++) find(names[i])
    }
    END { find(top); for (crate in found) print crate }' "$top/crates.txt" | while read -r one; do
    for part in src specs proofs; do
      if [ -d "$top/crates/$one/$part" ]; then printf ' crates/%s/%s' "$one" "$part"; fi
    done
  done
}

# Whether no source is newer than a file. Folders are compared too, which shows added and deleted files.
is_newest() {
  newer=$(CDPATH='' cd -- "$top" && LC_ALL=C exec find $sources -newer "$1" -print -quit 2> /dev/null) && [ -z "$newer" ]
}

# Whether a stamp names a program that still fits.
is_noted() {
  [ -r "$1" ] && { read -r program && read -r sources; } < "$1" && [ -x "$top/$program" ] && ! [ "$top/$program" -nt "$1" ] &&
    ! [ "$top/$built" -nt "$1" ] && is_newest "$1"
}

# Whether the built program fits.
built_fits() { [ -x "$top/$built" ] && is_newest "$top/$built"; }

# The hash of the sources' paths and bytes and of a kit's identity, in the form of the files of hashes.
hash_of_sources() {
  hash=$(
    CDPATH='' cd -- "$top" || exit 1
    { printf '%s\n' "$1"; find $sources -type f -print0 | LC_ALL=C sort -z | xargs -0 sha256sum --; } | sha256sum
  )
  printf '%s  %s\n' "${hash%% *}" "$1"
}

# The identity of the kit that built the carried program, if that was built from these sources.
kit_of_prebuilt() {
  [ -x "$top/$prebuilt" ] && read -r hash kit < "$top/$hashed" && [ "$(hash_of_sources "$kit")" = "$hash  $kit" ] &&
    printf '%s\n' "$kit"
}

# Whether the carried program fits. If not, `why` may say more. In a kit's identity, the words after the first one name the logic.
prebuilt_fits() {
  if [ -f "$top/$prebuilt" ] && ! [ -x "$top/$prebuilt" ]; then
    why="$prebuilt isn't executable, as \`chmod +x\` makes it"
    return 1
  fi
  kit=$(kit_of_prebuilt 2> /dev/null) || return 1
  if has rt; then
    here=$(rt version)
    if [ "${here#* }" != "${kit#* }" ]; then
      why="$prebuilt fits these sources, but was proved in another logic than that of the kit that is here"
      return 1
    fi
  fi
  if ! (CDPATH='' cd -- "$top" && "./$prebuilt" --help) > /dev/null 2>&1; then
    why="$prebuilt fits these sources, but doesn't run here: it needs Linux on x86-64 with glibc 2.34 or later"
    return 1
  fi
}

# Writes a stamp for a program under a temporary name, if possible, before the sources are looked at.
begin_stamp() {
  for place in "$stamp" "$cached_stamp"; do
    new_stamp=$place.$$
    if [ -n "$place" ] && mkdir -p "${place%/*}" && printf '%s\n%s\n' "$1" "$sources" > "$new_stamp"; then return; fi
  done 2> /dev/null
  place=
}

# Whether a program fits. Sets `program` to its path relative to `top`, stamps one that wasn't known to fit, and sets `news` if carried.
find_program() {
  if is_noted "$stamp" || is_noted "$cached_stamp"; then return; fi
  for needed in awk find sort xargs sha256sum; do
    if ! has "$needed"; then
      why="$needed is missing to tell whether a program fits these sources"
      return 1
    fi
  done
  sources=$(list_sources)
  program=$prebuilt
  if built_fits; then program=$built; fi
  begin_stamp "$program"
  if [ "$program" = "$prebuilt" ] && ! prebuilt_fits; then
    if [ -n "$place" ]; then rm -f "$new_stamp"; fi
    return 1
  fi
  if [ -z "$place" ]; then return; fi
  if [ "$program" = "$built" ]; then
    touch -r "$top/$built" "$new_stamp"
  else
    news="this is $prebuilt, which was built from these sources; ./$name --build-anew proves and builds it here"
  fi
  mv -f "$new_stamp" "$place"
}

# Ends with a sentence that says why nothing is run, what is missing to build a program, and what can be run instead.
refuse() {
  missing=
  if ! has rt; then missing=rt; fi
  if ! has python3; then missing="python3${missing:+ or $missing}"; fi
  instead="a release's program runs as it is"
  if [ -x "$top/$prebuilt" ]; then instead="$prebuilt can be run by its path, whatever it was built from, and $instead"; fi
  say "$why; python3 and the kit's rt would prove and build one${missing:+, but there is no $missing on the PATH}; $instead"
  exit 3
}

# Proves and builds the program, and runs it. Without the kit, the reason is that alone if it was asked for.
build() {
  if has python3 && has rt; then exec python3 "$top/tools/build.py" "$name" "$crate" "$@"; fi
  if [ "${1-}" = --build-anew ]; then why="nothing can be proved and built here"; fi
  refuse
}
