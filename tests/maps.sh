#!/usr/bin/env bash
# Makes drawn calls of the prefix maps `Radix`, `Flat` and `ChunkedMap`, each of IPv4 and of IPv6, beside a plain sorted list, and compares every
# answer: inserts, removals, gets, longest matches, the paths of a prefix, lengths, now and then the whole table in order, and clearing.
# map_calls.rattle says which keys are drawn.
#   tests/maps.sh [CALLS] [SEED..]     CALLS (200000) of each map and family for each of six kinds of draw and each SEED (1 2 3): 21.6 million
#   UNPROVED=1 tests/maps.sh CALLS SEED..     the same with no proof, with checks, at some thousand calls a second: tries a changed map
# A family, map and kind fails at its first difference, whose seed and call are printed, or where a way of answering never occurred. The
# program is proved (by JOBS (1) jobs) and built in a repository of its own below the folder for temporary files
# (bgp_replay_bench/map_calls), over copies of the three crates and of what earlier checks kept of them; the next run finds it there. Needs
# rt. The last line is `N passed, M failed`.
set -u
top=$(dirname "$(dirname "$(realpath "$0")")"); work=$(mktemp -d); trap 'rm -rf "$work"' EXIT
calls=${1:-200000}; [ $# = 0 ] || shift; [ $# -gt 0 ] || set -- 1 2 3
wanted=36; out=$(dirname "$work")/bgp_replay_bench/map_calls
[ -z "${UNPROVED:-}" ] || out=$work/copy
mkdir -p "$out/crates/map_calls/src" && rm -rf "$out"/crates/{bgp_prefix,prefix_maps,chunked_map} &&
  cp -a "$top"/crates/{bgp_prefix,prefix_maps,chunked_map} "$out/crates/" && cp "$top/HANDLES" "$out/" || exit 2
{ grep -E '^(bgp_prefix|prefix_maps|chunked_map):' "$top/crates.txt"; echo 'map_calls: bgp_prefix prefix_maps chunked_map'; } > "$out/crates.txt"
cp "$top/tests/map_calls.rattle" "$out/crates/map_calls/src/main.rt" && cd "$out/crates/map_calls" || exit 2
if [ -n "${UNPROVED:-}" ]; then
  rt try --steps 1 --seconds 600 -- "$calls" "$@" > "$work/lines" 2> "$work/log"
else
  rt run --jobs "${JOBS:-1}" > "$work/log" 2>&1 || { tail -n 20 "$work/log"; exit 2; }
  out/map_calls "$calls" "$@" > "$work/lines" 2> "$work/log"
fi
echo "seeds $*, $calls calls of each map and family for each kind of draw and seed"
sed -n '/^ok /{ s/Tally { //; s/ }$//; p; }; /^wrong: /p; /^  /p' "$work/lines"
passed=$(grep -c '^ok ' "$work/lines")
[ $((passed + $(grep -c '^wrong: ' "$work/lines"))) = $wanted ] || { echo 'not all were tried to the end'; tail -n 20 "$work/log"; }
echo "$passed passed, $((wanted - passed)) failed"
[ "$passed" = $wanted ]
