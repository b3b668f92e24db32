#!/usr/bin/env bash
# The reports of all shares of the peers, put together, are the whole report: for each dump 1, 2, 3 and 7 shares (`--peers I/N`). Each share's lines
# are those of its peers in the whole report, in their order, and each peer is in one share (`tables`, `churn`, `match`, `peers`); counts add up
# (`visibility`, `seen`); origins follow from the lines of `seen` together; lists of faults are one list. The lines of `peers`, by place, are in the order
# of the whole report, and so are those of `tables`, `churn` and `match` where they follow it.
#   tests/shares.sh PROGRAM
# The dumps are those of examples/, both as one run, the front of a generated RIB dump and of generated updates, and each file in the directory that
# the variable SAMPLES names, where it is set; and RIB dumps with updates between them, with --rib replace. So much by family ipv4; by family ipv6
# the fronts of a generated RIB dump and of updates of IPv6 routes, those of SAMPLES, and the first two together, with --rib replace too. A front is
# cut at FRONT bytes (200000), where its last record is damaged mostly. Needs awk and cc. The last line is `N passed, M failed`.
set -u
program=$(realpath "$1"); here=$(dirname "$(realpath "$0")"); work=$(mktemp -d); trap 'rm -rf "$work"' EXIT
export LC_ALL=C
front=${FRONT:-200000}
cc -O2 -o "$work/gen_mrt" "$here/../bench/gen_mrt.c" -lm || exit 2
mkdir "$work/dumps" "$work/dumps6" && cd "$work" || exit 2
cp "$here/../examples/sample.mrt" dumps/sample.mrt; cp "$here/../examples/updates.mrt" dumps/updates.mrt
./gen_mrt rib 300 20 1 | head -c "$front" > dumps/generated-rib.mrt
./gen_mrt updates 2000 300 20 1 | head -c "$front" > dumps/generated-updates.mrt
./gen_mrt rib 300 20 1 ipv6 | head -c "$front" > dumps6/generated-rib.mrt
./gen_mrt updates 2000 300 20 1 ipv6 | head -c "$front" > dumps6/generated-updates.mrt
if [ -n "${SAMPLES:-}" ]; then
  for dump in "$SAMPLES"/*; do [ -f "$dump" ] && head -c "$front" "$dump" > "dumps/front-of-$(basename "$dump" | tr -c 'A-Za-z0-9._\n-' _)"; done
  for dump in dumps/front-of-*; do [ ! -f "$dump" ] || ln -s "../$dump" dumps6/; done
fi
passed=0; failed=0
check() { # NAME COMMAND..
  local name=$1; shift
  if "$@" > log 2>&1; then passed=$((passed + 1)); else failed=$((failed + 1)); echo "wrong: $name"; head -n 5 log | sed 's/^/  /'; fi
}
report() { "$program" "$@" 2> said; [ $? -le 1 ] || { cat said; exit 2; }; }

# The lines of the whole report whose peer is in a share's, in their order.
of_share() { awk -F'|' 'NR == FNR { has[$1] = 1; next } $1 in has' "$1" "$2"; }
# Counts of the same key, summed up: the key is all columns but the last.
summed() { awk -F'|' '{ count = $NF; key = substr($0, 1, length($0) - length(count) - 1); sums[key] += count } END { for (key in sums) print key "|" sums[key] }' "$@" | sort; }
# The prefixes with two origins or more, from lines of `seen`.
origins_in() { awk -F'|' '$2 != "-" && !(($1, $2) in had) { had[$1, $2] = 1; count[$1]++ } END { for (prefix in count) if (count[prefix] > 1) print prefix }' "$@" | sort; }
# The lines of `peers` of several shares, in the order of one run: by file, offset and entry, none first.
by_place() { sort -t'|' -k7,7n -k8,8n -k9,9n "$@"; }
# The lines of several shares, peer after peer as the first file names them.
by_peers() { awk -F'|' 'NR == FNR { order[++peers] = $1; next } { lines[$1] = lines[$1] $0 "\n" } END { for (i = 1; i <= peers; i++) printf "%s", lines[order[i]] }' "$@"; }
nothing_twice() { [ -z "$(for part in "$@"; do cut -d'|' -f1 "$part" | sort -u; done | sort | uniq -d)" ]; }

six=(dumps6/*)
for dump in dumps/* 'dumps/sample.mrt dumps/updates.mrt' '--rib replace dumps/sample.mrt dumps/updates.mrt dumps/sample.mrt' \
  '--rib replace dumps/generated-rib.mrt dumps/generated-updates.mrt dumps/generated-rib.mrt dumps/sample.mrt' \
  "${six[@]/#/--family ipv6 }" '--family ipv6 dumps6/generated-rib.mrt dumps6/generated-updates.mrt' \
  '--family ipv6 --rib replace dumps6/generated-rib.mrt dumps6/generated-updates.mrt dumps6/generated-rib.mrt'; do
  address=$(report tables $dump | head -n 1 | cut -d'|' -f2 | cut -d/ -f1)
  case $dump in --family\ ipv6*) address=${address:-2001:db8::1};; *) address=${address:-192.0.2.1};; esac
  for words in tables churn peers "match --address $address" visibility seen origins faults; do report $words $dump > "whole-${words%% *}"; done
  for count in 1 2 3 7; do
    for words in tables churn peers "match --address $address" visibility seen faults; do
      for ((i = 1; i <= count; i++)); do report $words --peers "$i/$count" $dump > "part-${words%% *}-$i"; done
    done
    for ((i = 1; i <= count; i++)); do cat "part-peers-$i"; done | by_place > peers-in-order
    check "$count shares of peers of $dump, by place, are the whole report" cmp whole-peers peers-in-order
    for name in tables churn peers match; do
      parts=(); for ((i = 1; i <= count; i++)); do
        parts+=("part-$name-$i"); of_share "part-$name-$i" "whole-$name" > "wanted"
        check "$name of share $i/$count of $dump is the whole report's" cmp wanted "part-$name-$i"
      done
      check "no peer of $name is in two of $count shares of $dump" nothing_twice "${parts[@]}"
      check "$count shares of $name of $dump, in the order of peers, are the whole report" cmp "whole-$name" <(by_peers peers-in-order "${parts[@]}")
    done
    for name in visibility seen; do
      check "$count shares of $name of $dump add up" cmp <(sort "whole-$name") <(for ((i = 1; i <= count; i++)); do cat "part-$name-$i"; done | summed)
    done
    check "origins of $dump follow from $count shares of seen" cmp <(cut -d'|' -f1 whole-origins | sort) <(for ((i = 1; i <= count; i++)); do cat "part-seen-$i"; done | origins_in)
    check "$count shares of faults of $dump are one list" cmp <(sort -u whole-faults) <(for ((i = 1; i <= count; i++)); do cat "part-faults-$i"; done | sort -u)
  done
done
echo "$passed passed, $failed failed"
[ "$failed" = 0 ] && [ "$passed" -gt 0 ]
