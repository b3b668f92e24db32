#!/usr/bin/env bash
# Measures `churn` of packed dumps: a RIB dump, and updates cut into a series of files, each packed by gzip and by bzip2,
# next to the same dumps plain, to `gzip -dc` and `bzip2 -dc` alone, and to a shell loop that unpacks the series into
# standard input. Prints the wall and processor time and the peak memory of the fastest of alternating runs, and how the
# processor time that unpacking adds compares with that of the tool, and the wall time of a run by all threads with the
# tool alone and with the loop.
#   bench/packed.sh PROGRAM [PREFIXES] [PEERS] [MESSAGES] [FILES]
# Defaults: 200,000 prefixes x 20 peers, and 1,500,000 messages in 64 files. Needs cc, gzip, bzip2 and GNU time.
# ROUNDS (3) can be set in the environment, and FAMILY (ipv4) to ipv6: dumps of IPv6 routes, by family ipv6.
set -eu
program=$(realpath "$1"); prefixes=${2:-200000}; peers=${3:-20}; messages=${4:-1500000}; files=${5:-64}
family=${FAMILY:-ipv4}
case $family in ipv4) asked= of=;; ipv6) asked='--family ipv6' of=-6;; *) echo "no such family: $family"; exit 2;; esac
here=$(dirname "$(realpath "$0")"); out=$here/out; mkdir -p "$out"
cc -O2 -o "$out/gen_mrt" "$here/gen_mrt.c" -lm
rib=$out/rib$of-$prefixes-$peers.mrt; series=$out/series$of-$messages-$peers-$files
[ -f "$rib" ] || "$out/gen_mrt" rib "$prefixes" "$peers" 1 $family > "$rib"
if [ ! -d "$series" ]; then
  rm -rf "$series.new"; mkdir "$series.new"
  for number in $(seq -w "$files"); do # the same session goes on in each, with other messages
    "$out/gen_mrt" updates $((messages / files)) $((prefixes * 3 / 2)) "$peers" "$((10#$number))" $family \
      > "$series.new/$number.mrt"
  done
  mv "$series.new" "$series"
fi
for file in "$rib" "$series"/*.mrt; do
  [ -f "$file.gz" ] || { gzip -c "$file" > "$file.new"; mv "$file.new" "$file.gz"; }
  [ -f "$file.bz2" ] || { bzip2 -c "$file" > "$file.new"; mv "$file.new" "$file.bz2"; }
done
times=$(mktemp -d); trap 'rm -rf "$times"' EXIT

# Unpacks files by a tool into the program's standard input.
unpacking='tool=$1 program=$2; shift 2; for file; do $tool -dc "$file"; done | '
unpacking+="\"\$program\" churn $asked --workers 1 -"

# One run: its name, and the command. Adds wall, user and system seconds and KiB to the list of that name.
run() {
  local name=$1; shift
  command time -q -f '%e %U %S %M' -o "$times/one" "$@" > "$times/said"
  tail -1 "$times/one" >> "$times/$name"
}
fastest() { sort -n "$times/$1" | head -1; }
wall() { fastest "$1" | awk '{ print $1 }'; }
processor() { fastest "$1" | awk '{ print $2 + $3 }'; }

measure() { # LABEL FILE..
  local label=$1 form name; shift
  local packed=("${@/%/.gz}") bzipped=("${@/%/.bz2}")
  rm -f "$times"/*
  for _ in $(seq "${ROUNDS:-3}"); do
    run plain "$program" churn $asked --workers 1 "$@"
    run gzip "$program" churn $asked --workers 1 "${packed[@]}"
    run bzip2 "$program" churn $asked --workers 1 "${bzipped[@]}"
    run gzip-threads "$program" churn $asked "${packed[@]}"
    run bzip2-threads "$program" churn $asked "${bzipped[@]}"
    run gzip-dc gzip -dc "${packed[@]}"
    run bzip2-dc bzip2 -dc "${bzipped[@]}"
    run gzip-loop sh -c "$unpacking" sh gzip "$program" "${packed[@]}"
    run bzip2-loop sh -c "$unpacking" sh bzip2 "$program" "${bzipped[@]}"
  done
  printf '%-24s %8s %8s %8s\n' "$label" 'wall s' 'cpu s' 'peak MB'
  for name in plain gzip gzip-threads gzip-dc gzip-loop bzip2 bzip2-threads bzip2-dc bzip2-loop; do
    fastest "$name" | awk -v name="$name" '{ printf "%-24s %8.2f %8.2f %8.1f\n", name, $1, $2 + $3, $4 / 1024 }'
  done
  for form in gzip bzip2; do
    awk -v form="$form" -v ours="$(processor "$form")" -v plain="$(processor plain)" -v tool="$(processor "$form-dc")" \
      'BEGIN { if (tool > 0) printf "unpacking %s takes %.2f times the processor time of %s -dc\n", form, (ours - plain) / tool, form }'
    awk -v form="$form" -v ours="$(wall "$form-threads")" -v tool="$(wall "$form-dc")" -v loop="$(wall "$form-loop")" \
      'BEGIN { if (ours > 0) printf "%s -dc takes %.2f times the wall time of a replay by all threads, a loop of it %.2f times\n", form, tool / ours, loop / ours }'
  done
}

measure "RIB dump" "$rib"
measure "$files files of updates" "$series"/*.mrt
