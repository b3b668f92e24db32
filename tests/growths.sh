#!/usr/bin/env bash
# Refuses each growth of these tests in turn, the Nth for N = 1, 2 and so on (refusals.c; refuse.c is the library that stands before the C
# library). A test asserts what a call answers then, that what it took comes back as it was, and that the same call made again is answered;
# an assertion that fails aborts it. Where the growth is one of the test's own, the test ends with an error, and that run shows nothing.
#   tests/growths.sh
# Needs cc, and the programs of tests that `rt test` leaves in crates/*/out. The last line is `N passed, M failed`, counted in runs.
set -u
top=$(dirname "$(dirname "$(realpath "$0")")"); work=$(mktemp -d); trap 'rm -rf "$work"' EXIT
cc -O2 -shared -fPIC -o "$work/refuse.so" "$top/tests/refuse.c" && cc -O2 -o "$work/refusals" "$top/tests/refusals.c" || exit 2
cd "$work" || exit 2
tries() { # CRATE TEST..
  local crate=$1; shift
  for name in "$@"; do echo "$top/crates/$crate/out/${crate}_tests" ./refuse.so memory-test 1 0 none "$name"; done
}
{
  tries prefix_tests prefixes::growths::a_refused_growth_leaves_each_map
  tries update_tests updates::paths::a_refused_push_leaves_the_path
  tries record_tests units::a_refused_growth_spends_the_units
  tries table_tests sessions::a_session_is_spent_after_a_refused_growth
  tries lane_tests growths::rounds_give_the_tables_or_spend_the_replayer schedules::turns_that_find_nothing_change_nothing
  tries replay_tests growths::a_run_by_each_dealing_writes_its_report_or_wants_memory \
    growths::a_run_of_each_request_writes_its_report_or_wants_memory growths::words_give_their_job_or_want_memory
} > tries
xargs -P "$(nproc)" -L 1 ./refusals < tries > lines
grep -v '^tried ' lines
awk '$1 == "tried" { printf "%5d runs, %5d with a growth that the test saw refused: %s\n", $2, $3, $7 }' lines | sort -k 12
read -r runs failed lines <<< "$(awk '$1 == "tried" { runs += $2; failed += $4; lines++ } END { print runs + 0, failed + 0, lines + 0 }' lines)"
wanted=$(wc -l < tries)
[ "$lines" = "$wanted" ] || { echo "$((wanted - lines)) of $wanted tests weren't tried to the end"; failed=$((failed + wanted - lines)); }
echo "$((runs - failed)) passed, $failed failed"
[ "$failed" = 0 ] && [ "$runs" -gt 0 ]
