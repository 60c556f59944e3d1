# What the scripts at the top share. Each sets `top`, the folder of the repository, before it reads this file.

# The crates that a crate stands on by crates.txt, lowest first, and it itself last.
crates_below() {
  awk -v wanted="$1" '
    function visit(name,   i, n, deps) {
      if (name in seen || !(name in line)) return
      seen[name] = 1
      n = split(line[name], deps, " ")
      for (i = 1; i <= n; i++) visit(deps[i])
      print name
    }
    /^[a-z0-9_]+[^:]*:/ { text = $0; sub(/^[^:]*:/, "", text); line[$1 ~ /:$/ ? substr($1, 1, length($1) - 1) : $1] = text }
    END { visit(wanted) }
  ' "$top/crates.txt"
}

# The crates named on standard input and each that stands on one of them.
crates_above() {
  awk '
    FNR == NR { in_it[$1] = 1; next }
    /^[a-z0-9_]+[^:]*:/ { text = $0; sub(/^[^:]*:/, "", text); line[$1 ~ /:$/ ? substr($1, 1, length($1) - 1) : $1] = text }
    END {
      do {
        grown = 0
        for (name in line) if (!(name in in_it)) {
          n = split(line[name], deps, " ")
          for (i = 1; i <= n; i++) if (deps[i] in in_it) { in_it[name] = 1; grown = 1; break }
        }
      } while (grown)
      for (name in in_it) if (name in line) print name
    }
  ' - "$top/crates.txt"
}

# The names of all crates.
all_crates() { sed -n 's/^\([a-z0-9_]\{1,\}\)[^:]*:.*/\1/p' "$top/crates.txt"; }

# The names of the crates for measuring, which the gate leaves out: no other crate stands on one.
measuring='^pfx_bench_'

# Takes the crates for measuring from the copy $1.
drop_measuring() {
  local name
  for name in $(all_crates | grep "$measuring"); do
    rm -rf "$1/crates/$name" && sed -i "/^$name[ :]/d" "$1/crates.txt" || return
  done
}

# Says when what the gate leaves out was last tried whole.
last_of_more() {
  local date commit _
  if read -r date commit _ 2>/dev/null <"$top/.ci/more"; then
    echo "check: further wrong bodies and the programs for measuring are tried by ./check-more, whole last on $date at commit $commit"
  else
    echo "check: further wrong bodies and the programs for measuring are tried by ./check-more, which hasn't been run whole"
  fi
}

# What find is told so that it leaves out what editors put beside a file.
not_of_editors=(! -name '.*' ! -name '*~' ! -name '#*')

# A sum of the sources of a crate ($2): of it and the crates below without out/, the wrong bodies and what editors leave, of their lines
# in crates.txt, and of the toolchain's line ($1).
sources_sum() {
  local crates
  crates=$(crates_below "$2")
  {
    printf '%s\n' "$1"
    grep -E "^($(tr '\n' '|' <<<"$crates")-)[ :]" "$top/crates.txt" | LC_ALL=C sort
    cd "$top/crates" && find $crates \( -name out -o -name 'must-fail*' \) -prune -o -type f "${not_of_editors[@]}" -print0 | LC_ALL=C sort -z | xargs -0 sha256sum
  } | sha256sum | cut -d' ' -f1
}

# A sum of the program's sources.
program_sum() { sources_sum "$1" pfx; }

# A sum of all that the gate reads, and of the toolchain's line ($1).
gate_sum() {
  {
    printf '%s\n' "$1"
    cd "$top" && find crates crates.txt HANDLES \( -name out -o -name must-fail-more \) -prune -o -type f "${not_of_editors[@]}" -print0 | LC_ALL=C sort -z | xargs -0 sha256sum
  } | sha256sum | cut -d' ' -f1
}

sum_of_file() { sha256sum <"$1" | cut -d' ' -f1; }

# The value of a line 'KEY VALUE' of a file.
value_in() { sed -n "s/^$2 //p" "$1" 2>/dev/null; }

# Whether the release is of these sources. Sets `kit`, the toolchain that built it.
release_fits() {
  [ -f "$top/release/pfx" ] && [ -f "$top/release/SUM" ] || return 1
  kit=$(value_in "$top/release/SUM" kit)
  [ "$(program_sum "$kit")" = "$(value_in "$top/release/SUM" sources)" ]
}

# Whether the release's program is the one that was released.
release_is_whole() { [ "$(sum_of_file "$top/release/pfx")" = "$(value_in "$top/release/SUM" program)" ]; }

# Whether the program in crates/pfx/out/ is of these sources. Sets `kit`, the toolchain that built it.
is_built() {
  local sources=$top/crates/pfx/out/sources
  [ -x "$top/crates/pfx/out/pfx" ] && [ -f "$sources" ] || return 1
  kit=$(value_in "$sources" kit)
  [ "$(program_sum "$kit")" = "$(value_in "$sources" sources)" ]
}

# Whether the library in the folder $1 is of these sources, and as it was built from them by the script at hand.
library_fits() {
  [ -f "$1/LIBRARY" ] || return 1
  [ "$(sources_sum "$(value_in "$1/LIBRARY" kit)" pfx_c)" = "$(value_in "$1/LIBRARY" sources)" ] &&
    [ "$(value_in "$1/LIBRARY" build)" = "$(sum_of_file "$top/examples/embed/build")" ] &&
    [ "$(sum_of_file "$1/libpfx.a")" = "$(value_in "$1/LIBRARY" archive)" ] &&
    [ "$(sum_of_file "$1/libpfx.so")" = "$(value_in "$1/LIBRARY" shared)" ]
}

# The program as rt links it, with the machine's C library beside it, so that another library can be preloaded into it: the release's is
# static. It is built where it isn't there ($1: the script's name).
dynamic_path() {
  is_built || { need_rt "$1" && (cd "$top/crates/pfx" && "$rt" run -- --version) >&2; } || return
  echo "$top/crates/pfx/out/pfx"
}

# The path of the program that ./pfx starts: the release where it is of these sources, else the one that was built here.
program_path() { release_fits && release_is_whole && echo "$top/release/pfx" || echo "$top/crates/pfx/out/pfx"; }

# How many crates to prove side by side: one a processor, where each has 3 GB of free memory.
lanes() {
  local processors memory
  processors=$(nproc 2>/dev/null || echo 2)
  memory=$(awk '/^MemAvailable:/ { print int($2 / 3000000) }' /proc/meminfo 2>/dev/null)
  [ "${memory:-2}" -ge 1 ] || memory=1
  [ "${memory:-2}" -lt "$processors" ] && echo "${memory:-2}" || echo "$processors"
}

# The toolchain's command, or an end with what is needed and where that is named ($1: the script's name).
need_rt() {
  rt=${RT:-rt}
  if ! command -v "$rt" >/dev/null 2>&1; then
    echo "$1: this needs the Rattle toolchain's command rt on the PATH, or named by the variable RT" >&2
    return 1
  fi
}

# Copies the files of the work tree that git knows or would add to the folder $1, and makes a repository of it.
copy_tree() {
  (cd "$top" && git ls-files -co --exclude-standard -z | while IFS= read -r -d '' file; do
    [ -f "$file" ] && printf '%s\0' "$file"
  done | xargs -0 cp --parents -p -t "$1") && git -C "$1" init -q .
}

# Moves the edits of each crate of the copy $1 from the folder $2 to wrong-bodies/, where rt ci doesn't try each alone, and removes
# its other edits.
set_edits_aside() {
  local name
  for name in $(all_crates); do
    [ ! -d "$1/crates/$name/$2" ] || mv "$1/crates/$name/$2" "$1/crates/$name/wrong-bodies" || return
    rm -rf "$1/crates/$name/must-fail" "$1/crates/$name/must-fail-more"
  done
}

# Says what the gate would refuse, but only once it has proved what lies below: files that the toolchain's formatter writes
# otherwise, and wrong bodies whose text isn't there; and what it wouldn't see, where pages and sources differ. It looks at a copy of
# the work tree in the folder $1.
says_at_once() {
  local name
  copy_tree "$1" && git -C "$1" add -A || return
  for name in $(all_crates); do
    (cd "$1/crates/$name" && "$rt" fmt 2>&1 | sed -n "s/^rt: note: /$name: /p")
  done
  git -C "$1" diff --name-only | sed 's/$/: not as rt fmt writes it/'
  python3 "$top/.ci/wrong_bodies" "$1" --look
  python3 "$top/.ci/pages" "$1"
  python3 "$top/.ci/definitions" "$1" --check
  python3 "$top/.ci/promises" "$1" --check
}

# Takes from the copy $1 the tests of its crate $2: the crate itself where it is only tests, else the tests within.
drop_tests() {
  case $2 in
    pfx_trial_*)
      rm -rf "$1/crates/$2"
      sed -i "/^$2[ :]/d" "$1/crates.txt" ;;
    *)
      find "$1/crates/$2/src" -name '*.rt' -exec sed -i '/^#\[cfg(test)\]$/,+1d' {} +
      rm -rf "$1/crates/$2/src/tests" "$1/crates/$2/src/tests.rt" ;;
  esac
}

# The whole minutes of processor time of a script's children, from what `times` wrote to the file $1.
processor_minutes() { awk 'NR == 2 { split($0, parts, /[ms ]+/); print int(parts[1] + parts[3] + (parts[2] + parts[4]) / 60) }' "$1"; }
