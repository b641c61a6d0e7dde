# Runs a command program: it is proved and built first where that has not been done since its sources changed, with a line for each crate. The commands
# beside this file read it, with their arguments: `name` is the program's crate, `takes` how long it takes to build, and `usage` prints what it does.
if [[ $# -eq 1 && $1 == --help ]]; then
  usage
  exit 0
elif [[ $# -ne 0 ]]; then
  usage >&2
  exit 2
fi

CDPATH='' cd "$(dirname "${BASH_SOURCE[0]}")/.." || exit 1
program=target/bin/$name

# The folders that the program is made of: that of its crate and of each crate that it lists below it in crates.txt.
made_of() {
  awk -v name="$name" '
    function visit(crate, below, count, i) {
      if (!(crate in uses) || seen[crate]++) return
      print "crates/" crate
      count = split(uses[crate], below, " ")
      for (i = 1; i <= count; i++) visit(below[i])
    }
    { sub(/#.*/, ""); if (split($0, line, ":") == 2) { gsub(/[ \t]/, "", line[1]); uses[line[1]] = line[2] } }
    END { visit(name) }' crates.txt
}

# Whether the program is missing, or older than crates.txt or than a file or a folder in what it is made of. What rt makes is no part of that, nor are edits
# that must be refused.
is_stale() {
  local folders newer
  [[ -x $program && ! crates.txt -nt $program ]] || return 0
  mapfile -t folders < <(made_of)
  [[ ${#folders[@]} -gt 0 ]] || return 0
  newer=$(find "${folders[@]}" -mindepth 1 -regex 'crates/[^/]*/\(out\|must-fail\)' -prune -o -newer "$program" -print -quit 2>/dev/null) || return 0
  [[ -n $newer ]]
}

# Has the program proved and built. rt runs it then, here on no input, and says what it does on standard error.
build() {
  (cd "crates/$name" && rt run </dev/null 2>&1 >/dev/null) |
    sed -un -e '/^rt: \(chose\|running\) /d' -e "s/^rt: /$name: /p" -e "s/^crate \([a-z0-9_]*\): .*/$name: \1/p" >&2 &&
    mkdir -p target/bin && cp "crates/$name/out/$name" "$program.new" && mv "$program.new" "$program"
}

if is_stale; then
  if ! command -v rt >/dev/null; then
    echo "$name: rt is not on the PATH: install the Rattle kit (its START-HERE.md says how)" >&2
    exit 1
  fi
  echo "$name: what has changed is proved and built: $takes if nothing has been yet" >&2
  began=$(date +%s)
  if ! build; then
    echo "$name: it could not be built: run 'rt check' in crates/$name and read its report" >&2
    exit 1
  fi
  # What changes from here on is newer than the program, also where nothing had to be built.
  touch -d "@$began" "$program"
fi
exec "$program"
