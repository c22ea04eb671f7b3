#!/usr/bin/env bash
# Tries the wrong bodies of plants/CRATE/ for each CRATE that is named: the prover must refuse every one.
# They are no part of the gate. Run it when a contract of the crate changes, after `rt check` there.
set -u
top=$(cd "$(dirname "$0")/.." && pwd) || exit 1
[ $# -gt 0 ] || { echo "usage: checks/plants.sh CRATE .." >&2; exit 2; }
copy=$(mktemp -d) || exit 1
trap 'rm -rf "$copy"' EXIT
cp -a "$top/crates" "$top/crates.txt" "$top/HANDLES" "$copy" || exit 1
for crate in "$@"; do
  [ -d "$top/plants/$crate" ] || { echo "plants.sh: no plants/$crate" >&2; exit 2; }
  mkdir -p "$copy/crates/$crate/must-fail"
  rm -f "$copy/crates/$crate/must-fail"/*.edit
  cp "$top/plants/$crate"/*.edit "$copy/crates/$crate/must-fail/" || exit 1
done
cd "$copy" && git init -q . && rt must-fail "$@"
