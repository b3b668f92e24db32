#!/usr/bin/env bash
# Measures `read_update` alone on a dump of UPDATEs, beside `bgpdump -m`'s whole time on the same dump (where it is installed).
#   bench/update.sh [MESSAGES]
# Default: 5,000,000 messages. `update_bench.rattle` cuts the dump in either phase, and in the phase `read` reads the messages too: what
# that takes more is `read_update` (and the drop of what it gave). Best of ROUNDS runs, by processor time. The allocations a message are
# valgrind's totals of both phases, on a dump of 50,000 messages, less one another and divided by the messages.
# The program is made in a repository of copies under the folder for temporary files. Needs rt, cc and GNU time.
set -eu
messages=${1:-5000000}; rounds=${ROUNDS:-3}; peers=20
here=$(dirname "$(realpath "$0")"); top=$(dirname "$here"); out=$here/out; scratch=$(dirname "$(mktemp -u)")/bgp_replay_bench/update; program=$scratch/crates/update_bench
mkdir -p "$out" "$program/src"
cc -O2 -o "$out/gen_mrt" "$here/gen_mrt.c" -lm
dump() {
  [ -f "$out/updates-$1-$peers.mrt" ] || "$out/gen_mrt" updates "$1" $(($1 * 3 / 10 < 300000 ? $1 * 3 / 10 : 300000)) "$peers" 1 > "$out/updates-$1-$peers.mrt"
  echo "$out/updates-$1-$peers.mrt"
}
for crate in bgp_prefix mrt_frame bgp_update; do
  copy=$scratch/crates/$crate; mkdir -p "$copy"; rm -rf "$copy/src" "$copy/specs" "$copy/proofs"
  cp -a "$top/crates/$crate/src" "$top/crates/$crate/specs" "$top/crates/$crate/proofs" "$copy"
  [ -d "$copy/out" ] || [ ! -d "$top/crates/$crate/out" ] || cp -a "$top/crates/$crate/out" "$copy"
done
{ grep -E '^(bgp_prefix|mrt_frame|bgp_update):' "$top/crates.txt"; echo 'update_bench: bgp_prefix mrt_frame bgp_update'; } > "$scratch/crates.txt"
cp "$top/HANDLES" "$scratch"; cp "$here/update_bench.rattle" "$program/src/main.rt"
large=$(dump "$messages"); small=$(dump 50000)
(cd "$program" && rt run -- cut "$small" > "$out/update.log" 2>&1) || { tail "$out/update.log"; exit 1; }
bench=$program/out/update_bench

# the least processor time of a command, in seconds
least() { for _ in $(seq "$rounds"); do command time -q -f '%U %S' -o "$out/time" "$@" > /dev/null; awk '{ print $1 + $2 }' "$out/time"; done | sort -n | head -1; }
cat "$large" > /dev/null                                   # into the page cache
read -r updates _ <<< "$("$bench" read "$large")"
cut=$(least "$bench" cut "$large"); both=$(least "$bench" read "$large")
echo "$updates UPDATEs of $messages messages: cut $cut s, cut and read $both s"
awk -v c="$cut" -v b="$both" -v n="$updates" 'BEGIN { printf "read_update: %.3f s, %.0f ns a message\n", b - c, (b - c) / n * 1e9 }'
if command -v bgpdump > /dev/null; then
  theirs=$(least bgpdump -q -m "$large")
  awk -v c="$cut" -v b="$both" -v t="$theirs" 'BEGIN { d = b > c ? b - c : 0.01; printf "bgpdump -m: %.2f s, %.1f times the time of read_update\n", t, t / d }'
fi
if command -v valgrind > /dev/null; then
  allocations() { valgrind "$bench" "$1" "$small" 2>&1 | sed -n 's/.*total heap usage: \([0-9,]*\) allocs.*/\1/p' | tr -d ,; }
  read -r updates _ <<< "$("$bench" read "$small")"
  awk -v c="$(allocations cut)" -v b="$(allocations read)" -v n="$updates" 'BEGIN { printf "allocations: %.2f a message\n", (b - c) / n }'
fi
