#!/usr/bin/env bash
# Every number of workers and every ring gives the same bytes: all nine reports on each dump by workers 1, 2, 3, 4, 8, 64 and rings
# 1, 2, 1024, 65536 (24 pairs) against one worker and a ring of 65536.
#   tests/same_bytes.sh PROGRAM
# The dumps are examples/sample.mrt, the front of a generated RIB dump and of generated updates, and of each file in the directory that the
# variable SAMPLES names, where it is set. A front is cut at FRONT bytes (20000), where its last record is damaged mostly. All dumps
# together, as files of one run, are one more, so are they with --errors rfc7606, and with --rib replace and a RIB dump behind them. So much by family ipv4; by
# family ipv6 a generated RIB dump and updates of IPv6 routes, those of SAMPLES, and all together, in the same ways. Needs cc. The last line
# is `N passed, M failed`, counted in runs.
set -u
program=$(realpath "$1"); here=$(dirname "$(realpath "$0")"); work=$(mktemp -d); trap 'rm -rf "$work"' EXIT
front=${FRONT:-20000}
cc -O2 -o "$work/same" "$here/same.c" && cc -O2 -o "$work/gen_mrt" "$here/../bench/gen_mrt.c" -lm || exit 2
mkdir "$work/dumps" "$work/dumps6"; cp "$here/../examples/sample.mrt" "$work/dumps/sample.mrt"
"$work/gen_mrt" rib 200 20 1 | head -c "$front" > "$work/dumps/generated-rib.mrt"
"$work/gen_mrt" updates 2000 300 20 1 | head -c "$front" > "$work/dumps/generated-updates.mrt"
"$work/gen_mrt" rib 200 20 1 ipv6 | head -c "$front" > "$work/dumps6/generated-rib.mrt"
"$work/gen_mrt" updates 2000 300 20 1 ipv6 | head -c "$front" > "$work/dumps6/generated-updates.mrt"
if [ -n "${SAMPLES:-}" ]; then
  for dump in "$SAMPLES"/*; do [ -f "$dump" ] && head -c "$front" "$dump" > "$work/dumps/front-of-$(basename "$dump" | tr -c 'A-Za-z0-9._\n-' _)"; done
  for dump in "$work"/dumps/front-of-*; do [ ! -f "$dump" ] || ln -s "$dump" "$work/dumps6/"; done
fi
cd "$work/dumps" && ln -s "$program" "$work/program" || exit 2
tries() { # DUMP..: a line for each number of workers, so that they run side by side
  for workers in 1 2 3 4 8 64; do echo "-w $workers -r 1,2,1024,65536 ../program $*"; done
}
{
  for dump in *; do tries "$dump"; done; tries *; tries * --errors rfc7606; tries * sample.mrt --rib replace
  six=(../dumps6/*); for dump in "${six[@]}"; do tries "$dump" --family ipv6 --quiet; done
  tries "${six[@]}" * --family ipv6 --quiet
  tries "${six[@]}" * ../dumps6/generated-rib.mrt --rib replace --family ipv6 --quiet
} | xargs -P "$(nproc)" -L 1 ../same > "$work/lines"
grep -v '^tried ' "$work/lines"
sums=$(awk '$1 == "tried" { runs += $2; failed += $3; lines++ } END { print runs + 0, failed + 0, lines + 0 }' "$work/lines")
read -r runs failed lines <<< "$sums"
wanted=$((6 * ($(ls | wc -l) + 3 + $(ls ../dumps6 | wc -l) + 2)))
[ "$lines" = "$wanted" ] || { echo "$((wanted - lines)) of $wanted tries didn't end"; failed=$((failed + wanted - lines)); }
echo "$((runs - failed)) passed, $failed failed"
[ "$failed" = 0 ] && [ "$runs" -gt 0 ]
