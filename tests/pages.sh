#!/usr/bin/env bash
# Tries the tools that check pages, in a copy of the repository: what is there passes; each wrong name and each wrong
# row is named; and a page that isn't what a tool makes is refused, and made again.
#   tests/pages.sh
# Needs bash, python3, tar and coreutils. The last line is `N passed, M failed`.
set -u
top=$(dirname "$(dirname "$(realpath "$0")")"); work=$(mktemp -d); trap 'rm -rf "$work"' EXIT
export LC_ALL=C.UTF-8
passed=0; failed=0
right() { passed=$((passed + 1)); }
wrong() { failed=$((failed + 1)); echo "wrong: $1"; head -n 5 "$work/log" | sed 's/^/  /'; }
check() { local name=$1; shift; if "$@" > "$work/log" 2>&1; then right; else wrong "$name"; fi; }

copy=$work/copy; mkdir "$copy"
tar -C "$top" --exclude=.git --exclude=./bin --exclude=./dist --exclude=out --exclude=__pycache__ -cf - . | tar -C "$copy" -xf - || exit 2
made() { # TOOL PAGE..: pages that the tool makes, each without a line of what is made, in turn
  local tool=$1 page line; shift
  check "$tool: the pages as they are" python3 "$copy/tools/$tool" --check
  for page in "$@"; do
    cp "$copy/$page" "$work/before"
    line=$(grep -nm 1 '^| .--until TIME\|--until|.*return\|-l until \|--until\[\|^- .is_selected\|^ *.peer.: PEER' "$copy/$page" | cut -d : -f 1)
    check "$tool: a line of $page" sed -i "${line:-none}d" "$copy/$page"
    python3 "$copy/tools/$tool" --check > "$work/said" 2>&1; check "$tool: $page without a line" [ $? = 1 ]
    check "$tool: it names $page" grep -qF "$page" "$work/said"
    check "$tool: it makes $page" python3 "$copy/tools/$tool"; check "$tool: as it was: $page" cmp "$work/before" "$copy/$page"
  done
}
made options.py README.md docs/USAGE.md completions/bgp_replay.{bash,fish,zsh} python/bgp_replay/frames.py
made model_index.py docs/DEFINITIONS.md

names() { python3 "$copy/tools/names.py" --check > "$work/said" 2>&1; }
names; check 'the repository as it is: status' [ $? = 0 ]
check 'the repository as it is: nothing is said' cmp "$work/said" /dev/null

# what is planted, and what has to be said of it: a line is FILE:LINE: NAME, with what follows left out
wanted=()
plant() { # FILE TEXT [NAME..]: a text behind the last line, and the wrong names in it, which begin in its first line
  local file=$1 text=$2 line; shift 2
  line=$(($(wc -l < "$copy/$file") + 2)); printf '\n%s\n' "$text" >> "$copy/$file"
  for name in "$@"; do wanted+=("$file:$line: $name"); done
}
plant docs/MODEL.md 'The function `gone_away` is not there; `event_in`, `Units` and `--until` are.' gone_away
plant docs/MODEL.md 'Nor is `Units::gone`, while `Units::lend` is.' 'Units::gone'
plant docs/USAGE.md 'No option is `--gone`, and no command `bgp_replay gone rib.mrt`.' --gone 'bgp_replay gone rib.mrt'
plant docs/PROOFS.md 'No file is `mrt_body/specs/Gone.antt`, nor `tests/gone.sh`, while `mrt_body/specs/Units.antt` is.' mrt_body/specs/Gone.antt tests/gone.sh
plant docs/PROOFS.md 'No edit is `takes-what-is-gone`.' takes-what-is-gone
plant docs/PROOFS.md '| a claim | `run`: `promised`, `gone_clause`; `IsSummary`: `rounds`, `gone_field`; `adj_rib`: `one_route_per_prefix` |' \
  gone_clause gone_field
wanted+=("${wanted[-2]}" "${wanted[-1]}") # as no names, and as no parts
plant docs/PROOFS.md '| a claim | `mrt_frame`: `one_route_per_prefix`; `parse`: `gives.first`; `next`: `gives.gone`, `gives.cause` |' \
  one_route_per_prefix gives.first gives.gone gives.cause
plant README.md 'No target is `make gone`, and `rt gone` no command.' 'make gone' 'rt gone'
plant CONTRIBUTING.md $'A name may go on in the next line: `fn\n  gone_on`.' 'fn gone_on'
plant CONTRIBUTING.md $'An example names what it likes:\n\n    $ bgp_replay `gone_example`'
plant crates/mrt_frame/src/header.rt '// `gone_header` is in no crate, and `ChunkedMap` is in one above.' gone_header ChunkedMap
plant crates/mrt_frame/src/header.rt '// `ChunkedMap` of `chunked_map` is named with its crate, and `"gone_text"` is a text; `gone_local` is nothing.' gone_local
plant crates/mrt_frame/specs/Cuts.antt '-- no definition is `gone_cut`' gone_cut
row=$(grep -n '^| `run_io` |' "$copy/docs/ARCHITECTURE.md" | cut -d : -f 1)
sed -i "${row}s/run_io/gone_io/" "$copy/docs/ARCHITECTURE.md"
wanted+=('docs/ARCHITECTURE.md:1: run_io' 'docs/ARCHITECTURE.md:1: gone_io' "docs/ARCHITECTURE.md:$row: gone_io")
touch "$copy/crates/mrt_frame/src/unlisted.rt"; wanted+=('docs/ARCHITECTURE.md:1: crates/mrt_frame/src/unlisted.rt')
row=$(grep -n '^| `field.rt` | fields' "$copy/docs/ARCHITECTURE.md" | cut -d : -f 1)
sed -i "${row}a | \`field.rt\`, \`gone.rt\` | a second row |" "$copy/docs/ARCHITECTURE.md"; row=$((row + 1))
wanted+=("docs/ARCHITECTURE.md:$row: crates/mrt_frame/src/field.rt" "docs/ARCHITECTURE.md:$row: crates/mrt_frame/src/gone.rt")
wanted+=("docs/ARCHITECTURE.md:$row: gone.rt")
sed -i 's/^EXCEPTIONS = {$/&\n    "gone_exception": "a test",/; s/^AWAITED = {/&"README.md: gone_awaited": "a test",/' "$copy/tools/names.py"
wanted+=('tools/names.py: gone_exception' 'tools/names.py: README.md: gone_awaited')
names; check 'what is planted: status' [ $? = 1 ]
for line in "${wanted[@]}"; do check "it is named: $line" grep -qF -- "$line: " "$work/said"; done
check 'no more is named' [ "$(wc -l < "$work/said")" = "${#wanted[@]}" ]

python3 "$copy/tools/names.py" > "$work/said" 2>&1; check 'other arguments are refused' [ $? = 1 ]
echo "$passed passed, $failed failed"
[ $failed = 0 ] && [ $passed -gt 0 ]
