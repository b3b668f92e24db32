#!/usr/bin/env bash
# Measures `tables --format json` of a RIB dump beside `tables` as text, each by one worker into a pipe that `cat` reads.
# Prints the least wall time, processor time and peak memory of alternating runs, what each form has written, and the
# times of JSON as ratios of those of text: at most 2.2 is wanted.
#   bench/json.sh PROGRAM [PREFIXES] [PEERS]
# Defaults: 200,000 prefixes x 20 peers. Needs cc and GNU time. ROUNDS (5) can be set in the environment, and FAMILY
# (ipv4) to ipv6: a dump of IPv6 routes, by family ipv6.
set -eu
program=$(realpath "$1"); prefixes=${2:-200000}; peers=${3:-20}; family=${FAMILY:-ipv4}
case $family in ipv4) asked= of=;; ipv6) asked='--family ipv6' of=-6;; *) echo "no such family: $family"; exit 2;; esac
here=$(dirname "$(realpath "$0")"); out=$here/out; mkdir -p "$out"
cc -O2 -o "$out/gen_mrt" "$here/gen_mrt.c" -lm
rib=$out/rib$of-$prefixes-$peers.mrt
[ -f "$rib" ] || "$out/gen_mrt" rib "$prefixes" "$peers" 1 $family > "$rib"
times=$(mktemp -d); trap 'rm -rf "$times"' EXIT

# One run of a form: adds wall, user and system seconds and KiB to the list of that form.
run() { # FORM OPTION..
  local form=$1; shift
  command time -q -f '%e %U %S %M' -o "$times/one" "$program" tables $asked --workers 1 "$@" "$rib" | cat > /dev/null
  tail -1 "$times/one" >> "$times/$form"
}
wall() { awk '{ print $1 }' "$times/$1" | sort -n | head -1; }
processor() { awk '{ print $2 + $3 }' "$times/$1" | sort -n | head -1; }

set -o pipefail
for _ in $(seq "${ROUNDS:-5}"); do
  run text
  run json --format json
done
printf '%-8s %8s %8s %8s %8s %10s\n' tables 'wall s' 'cpu s' 'peak MB' MB lines
for form in text json; do
  options=; [ $form = text ] || options='--format json'
  read -r lines bytes < <("$program" tables $asked --workers 1 $options "$rib" | wc -lc)
  printf '%-8s %8.2f %8.2f %8.1f %8.1f %10d\n' $form "$(wall $form)" "$(processor $form)" \
    "$(awk '{ print $4 / 1024 }' "$times/$form" | sort -n | head -1)" "$(awk "BEGIN { print $bytes / 1e6 }")" "$lines"
done
for what in wall processor; do
  awk -v what=$what -v json="$($what json)" -v text="$($what text)" \
    'BEGIN { if (text > 0) printf "JSON takes %.2f times the %s time of text (wanted: at most 2.2)\n", json / text, what }'
done
