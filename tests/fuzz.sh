#!/usr/bin/env bash
# Replays damaged dumps: mutate.c makes one of each seed, and all nine reports on it are compared by same.c.
#   tests/fuzz.sh PROGRAM [FILES] [FIRST]     seeds FIRST (1) to FIRST + FILES - 1 (800 files, 13 runs each)
#   tests/fuzz.sh --seed N PROGRAM            writes the dump of a seed to fuzz-N.mrt in the current directory, and tries it by all pairs
#   FAMILY=ipv6 tests/fuzz.sh ..              the same by family ipv6: damage to what IPv6 routes are made of, and --family ipv6
# A run fails where it doesn't end with status 0 or 1, or says anything but `damaged: N` with as many lines in `faults`, where 1 or 4
# workers with a ring of 1 or 1,024 or reads of one byte give other bytes or another status, or where it takes more than 128 MB or
# 120 seconds. Odd seeds are tried with --rib replace, each third one with --attributes all, the second and third of
# each four with --table-dump read, of each five two with --state-peers local and by-as and one with --written-by bird,
# three of each nine with --errors rfc7606, and all without notes. The address space is bound to 4 GB (`ulimit -v`). Dumps are made of examples/sample.mrt, three generated ones, and the files in the directory that the variable SAMPLES names; a seed's dump is the
# same where these are the same.
# Needs cc. A run that fails is printed behind its seed. The last line is `N passed, M failed`, counted in runs.
set -u
alone=; [ "${1:-}" = --seed ] && { alone=$2; shift 2; }
program=$(realpath "$1"); files=${2:-800}; first=${3:-1}; family=${FAMILY:-ipv4}
case $family in
  ipv4) asked= damages=;; ipv6) asked='--family ipv6' damages=-6;; *) echo "no such family: $family"; exit 2;;
esac
here=$(dirname "$(realpath "$0")"); work=$(mktemp -d); trap 'rm -rf "$work"' EXIT
samples=${SAMPLES:+$(realpath "$SAMPLES")}; from=$PWD
for tool in same mutate; do cc -O2 -o "$work/$tool" "$here/$tool.c" || exit 2; done
cc -O2 -shared -fPIC -o "$work/refuse.so" "$here/refuse.c" && cc -O2 -o "$work/gen_mrt" "$here/../bench/gen_mrt.c" -lm || exit 2
mkdir "$work/dumps" && cd "$work" || exit 2
cp "$here/../examples/sample.mrt" dumps/sample
./gen_mrt rib 300 20 1 $family > dumps/generated-rib; ./gen_mrt updates 1500 300 20 1 $family > dumps/generated-updates
./gen_mrt table-dump 60 20 1 $family > dumps/generated-table-dump
if [ -n "$samples" ]; then for dump in "$samples"/*; do [ -f "$dump" ] && cp "$dump" dumps/; done; fi
rib_of() { [ $(($1 % 2)) = 0 ] || echo --rib replace; } # SEED
attributes_of() { [ $(($1 % 3)) != 0 ] || echo --attributes all; } # SEED
table_dump_of() { [ $(($1 / 2 % 2)) = 0 ] || echo --table-dump read; } # SEED
peers_of() { case $(($1 % 5)) in 1) echo --state-peers local;; 2) echo --state-peers by-as;; 3) echo --written-by bird;; esac; } # SEED
errors_of() { [ $(($1 / 3 % 3)) != 1 ] || echo --errors rfc7606; } # SEED
options_of() { echo --quiet $asked $(rib_of "$1") $(attributes_of "$1") $(table_dump_of "$1") $(peers_of "$1") $(errors_of "$1"); } # SEED
make_dump() { LC_ALL=C; ./mutate $damages "$1" 40000 dumps/* > "$2"; }
try() { # SEED
  make_dump "$1" "seed-$1" || { echo "seed $1: no dump"; return; }
  ./same -p "$1" -b ./refuse.so -v 4096 -m 128 "$program" "seed-$1" $(options_of "$1") | sed "/^tried/!s/^/seed $1:/"
  rm -f "seed-$1"
}
if [ -n "$alone" ]; then
  make_dump "$alone" "$from/fuzz-$alone.mrt" || exit 2
  cd "$from" && "$work/same" -b "$work/refuse.so" -v 4096 -m 128 "$program" "fuzz-$alone.mrt" $(options_of "$alone") | tee "$work/lines"
else
  export -f try make_dump options_of rib_of attributes_of table_dump_of peers_of errors_of; export program asked damages
  seq "$first" $((first + files - 1)) | xargs -P "$(nproc)" -n 10 bash -c 'for seed; do try $seed; done' try > lines
  cd "$work" || exit 2
  grep -v '^tried ' lines
fi
read -r runs failed lines <<< "$(awk '$1 == "tried" { runs += $2; failed += $3; lines++ } END { print runs + 0, failed + 0, lines + 0 }' "$work/lines")"
[ -z "$alone" ] || files=1
[ "$lines" = "$files" ] || { echo "$((files - lines)) of $files dumps weren't tried to the end"; failed=$((failed + files - lines)); }
[ "$failed" = 0 ] || [ -n "$alone" ] || echo "to try one again: ${SAMPLES:+SAMPLES=.. }${FAMILY:+FAMILY=$FAMILY }tests/fuzz.sh --seed N PROGRAM"
echo "$((runs - failed)) passed, $failed failed"
[ "$failed" = 0 ] && [ "$runs" -gt 0 ]
