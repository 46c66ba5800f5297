#!/bin/sh
# Tries wrong bodies that are too many or too dear for the gate: plants/NAME/*.edit, in the form of crates/NAME/must-fail.
# Usage: scripts/try_plants.sh [NAME ..]   (crates; without words, all that have plants)
# It works on a copy, whose checks begin with what other checks of the same crates kept on this machine. It prints what
# `rt must-fail` prints, and ends with 1 if a wrong body is proved or cannot be tried.
unset CDPATH
top=$(cd -- "$(dirname -- "$0")/.." && pwd -P) || exit 2
copy=$(mktemp -d) || exit 2
trap 'rm -rf -- "$copy"' EXIT
cd -- "$top" || exit 2
tar -c --exclude=out HANDLES crates.txt crates | tar -x -C "$copy" || exit 2
[ $# -gt 0 ] || set -- $(ls plants)
for name in "$@"; do
  rm -rf -- "$copy/crates/$name/must-fail"
  cp -r -- "plants/$name" "$copy/crates/$name/must-fail" || exit 2
done
cd -- "$copy" && git init -q . || exit 2
status=0
for name in "$@"; do
  rt must-fail "$name" || status=1
done
exit $status
