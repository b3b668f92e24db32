#!/usr/bin/env bash
# Measures `tables` of chosen routes beside `churn`: what reading and replaying alone takes. `--origin` names an AS that no
# route has, and one that some have; `--path` a mask of ten words that few paths match.
# Prints the least wall time, processor time and peak memory of alternating runs, and the times as ratios of those of
# `churn`: at most 1.05 is wanted for an origin AS, and 1.3 for the mask.
#   bench/choices.sh PROGRAM [PREFIXES] [PEERS]
# Defaults: 200,000 prefixes x 20 peers. Needs cc and GNU time. ROUNDS (5) and WORKERS (1) can be set in the environment.
set -eu
program=$(realpath "$1"); prefixes=${2:-200000}; peers=${3:-20}
here=$(dirname "$(realpath "$0")"); out=$here/out; mkdir -p "$out"
cc -O2 -o "$out/gen_mrt" "$here/gen_mrt.c" -lm
rib=$out/rib-$prefixes-$peers.mrt
[ -f "$rib" ] || "$out/gen_mrt" rib "$prefixes" "$peers" 1 ipv4 > "$rib"
times=$(mktemp -d); trap 'rm -rf "$times"' EXIT
some=$("$program" tables "$rib" 2> /dev/null | head -1 | cut -d'|' -f3 | awk '{ print $NF }')

# One run of a question: adds wall, user and system seconds and KiB to its list.
run() { # QUESTION WORD..
  local question=$1; shift
  command time -q -f '%e %U %S %M' -o "$times/one" "$program" "$@" --workers "${WORKERS:-1}" "$rib" | cat > /dev/null
  tail -1 "$times/one" >> "$times/$question"
}
wall() { awk '{ print $1 }' "$times/$1" | sort -n | head -1; }
processor() { awk '{ print $2 + $3 }' "$times/$1" | sort -n | head -1; }

for _ in $(seq "${ROUNDS:-5}"); do
  run churn churn
  run 'no-route' tables --origin 4294967294
  run 'some-routes' tables --origin "$some"
  run 'ten-words' tables --path "* $some ? 1..5 * 7..900 ? ? 3 *"
done
printf '%-12s %8s %8s %8s %12s %12s\n' question 'wall s' 'cpu s' 'peak MB' 'wall ratio' 'cpu ratio'
for question in churn no-route some-routes ten-words; do
  printf '%-12s %8.2f %8.2f %8.1f %12.3f %12.3f\n' $question "$(wall $question)" "$(processor $question)" \
    "$(awk '{ print $4 / 1024 }' "$times/$question" | sort -n | head -1)" \
    "$(awk "BEGIN { print $(wall $question) / $(wall churn) }")" \
    "$(awk "BEGIN { print $(processor $question) / $(processor churn) }")"
done
