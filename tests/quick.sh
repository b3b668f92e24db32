#!/usr/bin/env bash
# Tries a program that the toolchain's trial build made: it says that it is not proved, it replays, and it is neither
# installed nor packed.
#   tests/quick.sh PROGRAM
# Needs make and coreutils. The last line is `N passed, M failed`.
set -u
program=$(realpath "$1"); top=$(dirname "$(dirname "$(realpath "$0")")"); work=$(mktemp -d); trap 'rm -rf "$work"' EXIT
cd "$top" || exit 2
unset MAKEFLAGS MAKELEVEL MFLAGS; export LC_ALL=C
passed=0; failed=0
check() { # NAME COMMAND..
  local name=$1; shift
  if "$@" > "$work/log" 2>&1; then passed=$((passed + 1)); else failed=$((failed + 1)); echo "wrong: $name"; head -n 5 "$work/log" | sed "s|$work|..|g; s|$top|..|g; s/^/  /"; fi
}

"$program" --version > "$work/version"
check 'its version' grep -qxE 'bgp_replay [0-9]+\.[0-9]+\.[0-9]+' <(sed -n 1p "$work/version")
check 'it says that it is not proved' grep -qxE 'commit ([0-9a-f]{12}(, changed)?|not recorded); \(not proved\)' <(sed -n 2p "$work/version")
check 'two lines' [ "$(wc -l < "$work/version")" = 2 ]
check 'the report that the crate states' cmp <("$program" $(< crates/bgp_replay/args) < crates/bgp_replay/stdin) crates/bgp_replay/stdout
for target in install dist deb; do
  make -s --no-print-directory $target BINARY="$program" DESTDIR="$work/root" PREFIX=/usr DIST="$work/dist" > "$work/out" 2> "$work/said"
  check "make $target refuses it" [ $? = 2 ]
  check "make $target says why" grep -q 'is not proved' "$work/said"
  check "make $target makes nothing" [ ! -e "$work/root" -a ! -e "$work/dist" ]
done

echo "$passed passed, $failed failed"
[ $failed = 0 ] && [ $passed -gt 0 ]
