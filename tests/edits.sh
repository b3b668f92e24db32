#!/usr/bin/env bash
# Tries the wrong bodies in crates/*/more-edits, which are no part of the gate: the check must refuse each, as it must those in must-fail.
#   tests/edits.sh [CRATE..]
# Needs rt. Works on a copy of the repository, so that nothing here is changed; the first edit of each crate takes a check of it. The last
# line is `N passed, M failed`.
set -u
top=$(dirname "$(dirname "$(realpath "$0")")"); work=$(mktemp -d); trap 'rm -rf "$work"' EXIT
cp -a "$top/crates" "$top/crates.txt" "$top/HANDLES" "$work" && cd "$work" || exit 2
rm -rf crates/*/must-fail
crates=()
for folder in crates/*/more-edits; do
  crate=$(basename "$(dirname "$folder")")
  [ $# = 0 ] || [[ " $* " == *" $crate "* ]] || continue
  mv "$folder" "crates/$crate/must-fail" && crates+=("$crate")
done
wanted=$(find crates/*/must-fail -name '*.edit' | wc -l)
[ "$wanted" -gt 0 ] || { echo "no such crate: $*"; exit 2; }
for crate in "${crates[@]}"; do echo "$crate"; done | xargs -P 2 -I CRATE rt must-fail CRATE > lines 2>&1
grep 'must-fail ' lines
passed=$(grep -c 'must-fail .*: refused, as it must be' lines)
[ "$passed" = "$wanted" ] || grep -v 'must-fail ' lines
echo "$passed passed, $((wanted - passed)) failed"
[ "$passed" = "$wanted" ]
