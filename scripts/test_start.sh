#!/bin/sh
# Tests bin/rotor in scratch folders with a false kit: `rt ci` notes the files that it finds, and leaves a program that
# prints its number and its words.
# Usage: scripts/test_start.sh [SHELL ..]   (the shells to run bin/rotor by; without words: dash and bash, if they are there)
unset CDPATH
here=$(cd -- "$(dirname -- "$0")/.." && pwd -P) || exit 2
scratch=$(mktemp -d) || exit 2
trap 'rm -rf -- "$scratch"' EXIT
passed=0
failed=0

# check NAME WANTED FOUND
check() {
  if [ "$2" = "$3" ]; then
    passed=$((passed + 1))
  else
    failed=$((failed + 1))
    printf 'FAILED %s (%s)\n  wanted: %s\n  found:  %s\n' "$1" "$shell" "$2" "$3"
  fi
}

# Makes a repository in the folder $1, with a false kit beside it.
make_repository() {
  top=$1
  kit=$scratch/kit
  mkdir -p -- "$top/bin" "$top/crates/low/src" "$top/crates/low/must-fail" "$top/crates/rotor/src" "$top/crates/laws/src" \
    "$kit/bin" "$scratch/rooms"
  cp -- "$here/bin/rotor" "$top/bin/rotor"
  printf 'Handles allowed: none.\n' >"$top/HANDLES"
  printf '# crates\nlow: thiserror\nlaws: low rotor\nrotor: low # the program\n' >"$top/crates.txt"
  echo 'wrong' >"$top/crates/low/must-fail/wrong.edit"
  echo 'law' >"$top/crates/laws/src/lib.rt"
  echo 'one' >"$top/crates/low/src/lib.rt"
  echo 'two' >"$top/crates/low/src/more.rt"
  echo 'main' >"$top/crates/rotor/src/main.rt"
  echo 'kit 1' >"$kit/KIT-ID"
  echo 0 >"$scratch/runs"
  rm -f -- "$scratch/fails" "$scratch/waits"
  cat >"$kit/bin/rt" <<'RT'
#!/bin/sh
top=$PWD
scratch=$(dirname "$(dirname "$(dirname "$(readlink -f "$0")")")")
rm -rf "$top/crates/rotor/out"
if [ -e "$scratch/waits" ]; then sleep 30; fi
run=$(($(cat "$scratch/runs") + 1))
echo "$run" >"$scratch/runs"
find . -type f | LC_ALL=C sort | tr '\n' ' ' >"$scratch/copied"
echo 'rt: low proved'
if [ -e "$scratch/fails" ]; then
  echo '1 passed, 1 failed'
  exit 1
fi
mkdir -p "$top/crates/rotor/out"
printf '#!/bin/sh\necho "program %s: $*"\nexit 3\n' "$run" >"$top/crates/rotor/out/rotor"
chmod +x "$top/crates/rotor/out/rotor"
echo '2 passed, 0 failed'
RT
  chmod +x "$kit/bin/rt"
}

# Runs a start script, and prints its output and its status.
start() {
  script=$1
  shift
  found=$(PATH=$kit/bin:/usr/bin:/bin TMPDIR=$scratch/rooms $shell "$script" "$@" 2>"$scratch/errors")
  printf '%s [%s]' "$found" "$?"
}

run_tests() {
  make_repository "$scratch/work/top"
  cd -- "$scratch" || exit 2
  check 'a first start builds' 'program 1: check [3]' "$(start "$top/bin/rotor" check)"
  check 'the program'\''s sources alone are copied' \
    './HANDLES ./crates.txt ./crates/low/src/lib.rt ./crates/low/src/more.rt ./crates/rotor/src/main.rt ' "$(cat "$scratch/copied")"
  check 'the copy is gone' '' "$(ls "$scratch/rooms")"
  check 'a second start does not' 'program 1: a b  c [3]' "$(start "$top/bin/rotor" a 'b  c')"
  ln -sf "$top/bin/rotor" "$scratch/link"
  ln -sf link "$scratch/more"
  check 'a link to a link' 'program 1: x [3]' "$(start "$scratch/more" x)"
  mkdir -p "$scratch/other/work/top/bin"
  check 'CDPATH' 'program 1: x [3]' "$(export CDPATH="$scratch/other:$scratch" && start work/top/bin/rotor x)"
  touch -d '2001-01-01' "$top/crates/low/src/lib.rt"
  check 'an old time, the same bytes' 'program 1: x [3]' "$(start "$top/bin/rotor" x)"
  touch -d '2101-01-01' "$top/crates/low/src/lib.rt"
  check 'a time in the future, the same bytes' 'program 1: x [3]' "$(start "$top/bin/rotor" x)"
  echo 'three' >"$top/crates/low/src/lib.rt"
  touch -d '2001-01-01' "$top/crates/low/src/lib.rt"
  check 'other bytes with an old time' 'program 2: x [3]' "$(start "$top/bin/rotor" x)"
  touch -d '2101-01-01' "$top/crates/low/src/lib.rt"
  check 'a time in the future' 'program 2: x [3]' "$(start "$top/bin/rotor" x)"
  mv -- "$top/crates/low/src/more.rt" "$top/crates/low/src/less.rt"
  check 'a source with another name' 'program 3: x [3]' "$(start "$top/bin/rotor" x)"
  rm -- "$top/crates/low/src/less.rt"
  check 'a source that is gone' 'program 4: x [3]' "$(start "$top/bin/rotor" x)"
  echo 'low:' >>"$top/crates.txt"
  check 'other lines in crates.txt' 'program 5: x [3]' "$(start "$top/bin/rotor" x)"
  echo 'more' >>"$top/crates/laws/src/lib.rt"
  check 'a crate that the program does not use' 'program 5: x [3]' "$(start "$top/bin/rotor" x)"
  echo 'kit 2' >"$kit/KIT-ID"
  check 'another kit' 'program 6: x [3]' "$(start "$top/bin/rotor" x)"
  echo 'another' >"$top/crates/low/must-fail/more.edit"
  check 'a wrong body' 'program 6: x [3]' "$(start "$top/bin/rotor" x)"
  : >"$scratch/fails"
  echo 'four' >"$top/crates/low/src/lib.rt"
  check 'a gate that leaves no program' ' [7]' "$(start "$top/bin/rotor" x)"
  check 'the line of that' 1 "$(grep -c 'rotor: the program was not built' "$scratch/errors")"
  check 'the copy of that is gone' '' "$(ls "$scratch/rooms")"
  check 'the old program stays' 'program 6: x' "$("$top/out/rotor" x)"
  rm -f -- "$scratch/fails"
  : >"$scratch/waits"
  (PATH=$kit/bin:/usr/bin:/bin TMPDIR=$scratch/rooms timeout -s INT 2 $shell "$top/bin/rotor" x >/dev/null 2>&1)
  rm -f -- "$scratch/waits"
  check 'the old program stays after an interrupt' 'program 6: x' "$("$top/out/rotor" x)"
  check 'the copy is gone after an interrupt' '' "$(ls "$scratch/rooms")"
  check 'the start after an interrupt builds' 'program 8: x [3]' "$(start "$top/bin/rotor" x)"
  check 'without a kit' 'program 8: x [3]' "$(kit=$scratch/none && start "$top/bin/rotor" x)"
  echo 'five' >"$top/crates/low/src/lib.rt"
  check 'a build without a kit' ' [7]' "$(kit=$scratch/none && start "$top/bin/rotor" x)"
  check 'a build with the kit again' 'program 9: x [3]' "$(start "$top/bin/rotor" x)"
  printf '#!/none/sh\n' >"$top/out/rotor"
  check 'a program that cannot run' ' [7]' "$(start "$top/bin/rotor" x)"
  check 'the line of that' 1 "$(grep -c 'rotor: cannot run' "$scratch/errors")"
  printf '#!/bin/sh\ngrep SigIgn /proc/$$/status | cut -f 2\n' >"$top/out/rotor"
  ignored=$(start "$top/bin/rotor" x)
  check 'SIGXFSZ is ignored' 1 "$((0x${ignored%% *} >> 24 & 1))"
  make_repository "$scratch/-d/-e"
  cd -- "$scratch" || exit 2
  check 'folders that begin with -' 'program 1: x [3]' "$(start ./-d/-e/bin/rotor x)"
  cd -- "$scratch/-d" || exit 2
  check 'a relative path that begins with -' 'program 1: x [3]' "$(start -- -e/bin/rotor x)"
  rm -rf -- "$scratch/work" "$scratch/other" "$scratch/kit" "$scratch/-d"
}

# start with the shell's own -- in front of a path
[ $# -gt 0 ] || set -- dash bash
for shell in "$@"; do
  command -v "$shell" >/dev/null 2>&1 && run_tests
done
echo "$passed passed, $failed failed"
[ "$failed" -eq 0 ]
