#!/usr/bin/env bash
# Runs the commands of README.md, docs/USAGE.md and docs/RECIPES.md and compares what each one writes with what stands below it there: commands stand in
# indented blocks, behind `$ `, and a block is run by one shell. Its files are those of examples/, under the names that the recipes give them, and are
# compressed here. Blocks of one page share a directory. Notes count only where the page has one below the command.
#   tests/recipes.sh PROGRAM
# Needs bash and coreutils; what needs sqlite3, bzip2, gzip, awk, jq, python3 or its pandas is skipped where that isn't installed, and
# named. The last line is `N passed, M failed`.
set -u
program=$(realpath "$1"); top=$(dirname "$(dirname "$(realpath "$0")")"); work=$(mktemp -d); trap 'rm -rf "$work"' EXIT
pages='README.md docs/USAGE.md docs/RECIPES.md'
mkdir "$work/bin" "$work/dumps" && ln -s "$program" "$work/bin/bgp_replay" && cd "$work/dumps" || exit 2
export PATH=$work/bin:$PATH LC_ALL=C
cp "$top/examples/sample.mrt" rib.mrt && cp "$top/examples/updates.mrt" "$top/examples/table_dump.mrt" . || exit 2
has() { case $1 in python3-*) python3 -c "import ${1#python3-}" > "$work/where" 2>&1 ;; *) command -v "$1" > "$work/where" ;; esac; }
if has gzip; then gzip -9nc rib.mrt > bview.20261122.0700.gz; gzip -9nc updates.mrt > updates.20261122.0705.gz; cp bview.20261122.0700.gz rib.gz; fi
if has bzip2; then bzip2 -c rib.mrt > rib.20261122.0700.bz2; bzip2 -c updates.mrt > updates.20261122.0700.bz2; fi
passed=0; failed=0

# A folder for each block of a page that begins with a command, with the commands as 1, 2, .. and what they write as 1.out, 2.out, ..
split_page() { # PAGE FOLDER
  awk -v to="$2" '
    /^    \$ / { if (!inside) { block++; number = 0; inside = 1; system("mkdir " to "/" block) }
                 name = to "/" block "/" ++number; print substr($0, 7) > name; printf "" > (name ".out"); next }
    inside && /^    / { print substr($0, 5) > (name ".out"); next }
    { inside = 0 }' "$1"
}

# Runs each command of a block, in one shell, into 1.has, 2.has, ..: what it writes, and behind that what it says on standard error.
run_block() { # FOLDER COUNT
  for ((i = 1; i <= $2; i++)); do
    left_out='^  note: '; grep -q "$left_out" "$1/$i.out" && left_out='^$'
    printf '{\n%s\n} > %q 2> %q < /dev/null\ngrep -v %q %q >> %q\n' "$(cat "$1/$i")" "$1/$i.has" "$1/$i.said" "$left_out" "$1/$i.said" "$1/$i.has"
  done > "$1/all"
  timeout 60 bash "$1/all"
}

try_block() { # PAGE FOLDER
  local count missing='' needed
  count=$(ls "$2" | grep -c '\.out$')
  for needed in 'sqlite3 sqlite3' 'bzcat bzip2' 'bz2 bzip2' 'zcat gzip' 'gz gzip' 'awk awk' 'jq jq' 'python3 python3' 'pandas python3-pandas'; do
    if cat "$2"/*[0-9] | grep -qw -- "${needed% *}" && ! has "${needed#* }"; then missing=${needed#* }; fi
  done
  if [ -n "$missing" ]; then echo "skipped: $missing isn't installed: $1: $(head -n 1 "$2/1")"; return; fi
  run_block "$2" "$count"
  for ((i = 1; i <= count; i++)); do
    if cmp -s "$2/$i.out" "$2/$i.has"; then passed=$((passed + 1)); continue; fi
    failed=$((failed + 1)); echo "wrong: $1: $(cat "$2/$i")"; diff "$2/$i.out" "$2/$i.has" 2>&1 | head -n 10 | sed 's/^/  /'
  done
}

for page in $pages; do
  name=$(basename "$page" .md); blocks=$work/$name.blocks
  mkdir "$blocks"; cp -r "$work/dumps" "$work/$name" && cd "$work/$name" || exit 2
  split_page "$top/$page" "$blocks"
  if [ -z "$(ls "$blocks")" ]; then failed=$((failed + 1)); echo "wrong: $page has no command"; fi
  for block in $(ls "$blocks" | sort -n); do try_block "$page" "$blocks/$block"; done
done
echo "$passed passed, $failed failed"
[ $failed = 0 ] && [ $passed -gt 0 ]
