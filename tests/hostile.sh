#!/usr/bin/env bash
# Replays dumps that are costly to read, each at a size n and at 2n, and prints a table: the dump, its size at 2n, of `tables` by one
# worker the processor time at 2n, how many times the time at n that is (`by 4`: by four workers), the peak of memory at 2n, and
# that peak in bytes a byte of the dump.
#   tests/hostile.sh PROGRAM [NAME..]          NAMEs are gen_hostile.c's; all where none is given
# A dump fails where a run doesn't end with status 0 or 1 in SECONDS_A_RUN (60) of processor time, where 2n takes more than RATIO (2.3)
# times the time of n by any report, by 1 or by 4 workers (times under 0.1 s aren't judged; one over the bound is measured again, up to
# five times, so that a busy machine doesn't count), where 4 workers give other bytes or another status than one, or where a run holds
# more than 64 MB and PER_BYTE (40) bytes a byte. Of each report ROUNDS (2) runs are made, of which the least time counts. Dumps of the
# list `scattered` have the bound SCATTERED (3.0), since they don't keep to RATIO: each of their keys falls somewhere else in the tables, which
# outgrow one cache after the other, as any map of scattered keys does (docs/PERFORMANCE.md). Each dump is replayed by the family of
# routes that gen_hostile.c names.
# Needs cc and awk. The last line is `N passed, M failed`.
set -u
program=$(realpath "$1"); shift; here=$(dirname "$(realpath "$0")"); work=$(mktemp -d); trap 'rm -rf "$work"' EXIT
ratio=${RATIO:-2.3}; wide=${SCATTERED:-3.0}; per_byte=${PER_BYTE:-40}; rounds=${ROUNDS:-2}; seconds=${SECONDS_A_RUN:-60}
for tool in gen_hostile measure; do cc -O2 -o "$work/$tool" "$here/$tool.c" || exit 2; done
passed=0; failed=0
scattered='ids-mixed more-ids-mixed nested far-peers ids-mixed-6 nested-6 long-prefixes-6'
is_over() {
  local most=$ratio; case " $scattered " in *" $name "*) most=$wide;; esac
  awk "BEGIN { exit !($took >= 0.1 && $before * $most < $took) }"
}
chosen() { [ $# = 1 ] || case " ${*:2} " in *" $1 "*) ;; *) return 1;; esac; }
fault() { echo "  $name: $*"; good=0; }
measured() { # REPORT SIZE WORKERS: sets status, took, peak, sum
  read -r status took peak written sum <<< "$("$work/measure" "$rounds" "$seconds" "$program" $1 $asked --workers "$3" "$work/$2")"
  [ "${status:-none}" = 0 ] || [ "${status:-none}" = 1 ] || fault "$1 of $2 by $3 workers: status ${status:-none}"
}
compared() { # REPORT WORKERS: measures n and 2n; sets what measured sets of 2n, before, times
  for _ in 1 2 3 4 5 6; do
    measured "$1" n "$2"; before=${took:-0}; measured "$1" 2n "$2"
    [ $good = 1 ] || break
    is_over || break
  done
  times=$(awk "BEGIN { printf \"%.2f\", ($before > 0 ? $took / $before : 0) }")
  if is_over; then fault "$1 by $2 workers: $times times the time for twice the dump ($before and $took s)"; fi
}
printf '%-17s %8s %9s %7s %7s %9s %7s   %s\n' dump MB seconds 'to n' 'by 4' 'peak MB' 'a byte' what
while read -r name count family what; do
  chosen "$name" "$@" || continue
  good=1 asked= address=10.0.0.1
  [ "$family" = ipv4 ] || asked="--family $family" address=2001:db8::1
  "$work/gen_hostile" "$name" "$count" > "$work/n"; "$work/gen_hostile" "$name" $((count * 2)) > "$work/2n"
  size=$(stat -c %s "$work/2n")
  for report in tables churn visibility origins seen peers history faults "match --address $address" 'churn --rib replace' \
    'history --rib replace'; do
    compared "$report" 1
    [ "$peak" -le $((65536 + per_byte * size / 1024)) ] || fault "$report: $peak kilobytes of memory for a dump of $size bytes"
    row=$(awk "BEGIN { printf \"%8.1f %9.2f %7s\", $size / 1e6, $took, \"$times\" }")
    held=$(awk "BEGIN { printf \"%9.1f %7.2f\", $peak / 1024, $peak * 1024 / $size }")
    one="$status $written $sum"; compared "$report" 4
    [ "$one" = "$status $written $sum" ] || fault "$report: 4 workers give status $status and $written bytes, one gives $one"
    [ "$report" != tables ] || printf -v shown '%s %7s %s' "$row" "$times" "$held"
  done
  printf '%-17s %s   %s%s\n' "$name" "${shown:-}" "$what" "$([ $good = 1 ] || echo ' FAILED')"; shown=
  if [ $good = 1 ]; then passed=$((passed + 1)); else failed=$((failed + 1)); fi
  rm -f "$work/n" "$work/2n"
done < <("$work/gen_hostile")
echo "$passed passed, $failed failed"
[ $failed = 0 ] && [ $passed -gt 0 ]
