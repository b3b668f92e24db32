#!/usr/bin/env bash
# Tries what building says, records and refuses: with no toolchain; with a stand-in for the toolchain's command, in a
# copy of the build files beside small crates; the stamp; and programs that are not proved.
#   tests/build.sh
# Needs make, python3 and coreutils; what needs git is skipped where that isn't installed, and named. The last line is
# `N passed, M failed`.
set -u
top=$(dirname "$(dirname "$(realpath "$0")")"); work=$(mktemp -d); trap 'rm -rf "$work"' EXIT
cd "$top" || exit 2
unset MAKEFLAGS MAKELEVEL MFLAGS; export LC_ALL=C
passed=0; failed=0
right() { passed=$((passed + 1)); }
wrong() { failed=$((failed + 1)); echo "wrong: $1"; head -n 5 "$work/log" | sed "s|$work|..|g; s|$top|..|g; s/^/  /"; }
check() { local name=$1; shift; if "$@" > "$work/log" 2>&1; then right; else wrong "$name"; fi; }
refused() { ! "$@"; }
same() { [ "$1" = "$2" ] || { echo "$1"; return 1; }; }

# PATH without the toolchain's command: where a directory has it, links to what else it has.
bare=
IFS=: read -ra directories <<< "$PATH"
for directory in "${directories[@]}"; do
  if [ -e "$directory/rt" ]; then
    mkdir -p "$work/bare"; ln -s "$directory"/* "$work/bare" 2> "$work/log"; rm "$work/bare/rt"; directory=$work/bare
  fi
  bare+=${bare:+:}$directory
done
logic=$(sed -n 's/^TOOLCHAIN = "rattle-kit, logic \([0-9a-f]*\)"$/\1/p' tools/build.py)
check 'the logic is named' grep -qxE '[0-9a-f]{16}' <<< "$logic"
check 'README.md names the same logic' grep -q "logic.*$logic" README.md
if command -v rt > "$work/log"; then check 'the toolchain has that logic' grep -q "logic $logic" <(rt version); fi

# no toolchain
for target in all quick; do
  rm -rf "$work/top"; mkdir "$work/top"; cp -r Makefile tools crates.txt "$work/top"; mkdir -p "$work/top/crates/low"
  PATH=$bare make -s --no-print-directory -C "$work/top" $target > "$work/out" 2> "$work/said"; status=$?
  check "make $target with no toolchain: status" [ $status = 2 ]
  check "make $target with no toolchain: nothing but two lines" same "$(grep -v '^make: \*\*\*' "$work/said" | wc -l) $(wc -c < "$work/out")" '2 0'
  check "make $target with no toolchain: which one" grep -q "rt on PATH (rattle-kit, logic $logic)" <(sed -n 1p "$work/said")
  check "make $target with no toolchain: what works" grep -q 'Debian package and the tarball' <(sed -n 2p "$work/said")
  check "make $target with no toolchain: nothing is made" [ ! -e "$work/top/bin" ]
done
for words in proved quick; do
  PATH=$bare tools/build.py $words > "$work/out" 2> "$work/said"; check "tools/build.py $words with no toolchain: status" [ $? = 2 ]
done

# the stamp
padded() { printf '@build:%-120s@' "$1"; }
compiled=$(padded 'not recorded, built without make')
{ head -c 3000 /dev/urandom | tr -d @; printf %s "$compiled"; head -c 3000 /dev/urandom | tr -d @; } > "$work/one"
{ cat "$work/one"; printf %s "$compiled"; } > "$work/two"
{ head -c 3000 "$work/one" | tr -d @; } > "$work/none"
stamp() { tools/stamp.py "$@"; }
text='commit 0123abcd4567; proved with a toolchain'
check 'stamp' stamp --text "$text" "$work/one" "$work/stamped"
check 'stamp: the text' grep -qF "$(padded "$text")" "$work/stamped"
check 'stamp: it may be run' [ "$(stat -c %a "$work/stamped")" = 755 ]
start=$(grep -obaF '@build:' "$work/one" | cut -d : -f 1)
around() { head -c "$start" "$1"; tail -c +$((start + 129)) "$1"; }
check 'stamp: all else stays' cmp <(around "$work/one") <(around "$work/stamped")
check 'stamp: as long as before' [ "$(stat -c %s "$work/one")" = "$(stat -c %s "$work/stamped")" ]
longest=$(printf '%0120d' 0)
check 'stamp: 120 bytes fit' stamp --text "$longest" "$work/one" "$work/full"
check 'stamp: 120 bytes' grep -qF "@build:$longest@" "$work/full"
refuses() { # NAME WHY WORDS..
  local name=$1 why=$2; shift 2
  rm -f "$work/no"; stamp "$@" "$work/no" > "$work/out" 2> "$work/log"
  same $? 1 > "$work/out" && grep -q "$why" "$work/log" && [ ! -e "$work/no" ] && right || wrong "stamp refuses $name"
}
refuses '121 bytes' 'room for 120' --text "0$longest" "$work/one"
refuses 'a second stamp' 'stamped before' --text "$text" "$work/stamped"
refuses 'two regions' '2 times' --text "$text" "$work/two"
refuses 'no region' '0 times' --text "$text" "$work/none"
refuses 'a text with @' 'without @' --text 'a@b' "$work/one"
refuses 'two lines' 'one line' --text $'a\nb' "$work/one"
refuses 'no text' 'one line' --text '' "$work/one"
refuses 'a program that is not there' 'No such file' --text "$text" "$work/missing"

# a program that isn't proved
program_that_says() { # FILE LINE
  printf '#!/bin/sh\nprintf "bgp_replay 1.2.3\\n%%s\\n" "%s"\n' "$2" > "$1"; chmod 755 "$1"
}
program_that_says "$work/unproved" 'commit 0123abcd4567; (not proved)'
program_that_says "$work/proved" 'commit 0123abcd4567; proved with a toolchain'
printf '#!/bin/sh\nexit 1\n' > "$work/broken"; chmod 755 "$work/broken"
made() { make -s --no-print-directory "$@" DESTDIR="$work/root" PREFIX=/usr DIST="$work/dist"; }
for target in install dist deb; do
  for program in unproved broken; do
    made $target BINARY="$work/$program" > "$work/out" 2> "$work/log"; status=$?
    check "make $target of a program that is $program: status" [ $status = 2 ]
    check "make $target of a program that is $program: nothing is made" [ ! -e "$work/root" -a ! -e "$work/dist" ]
  done
  made $target BINARY="$work/unproved" > "$work/out" 2> "$work/said"
  check "make $target says why" grep -q 'is not proved.*neither installed nor packed' "$work/said"
done
for kind in tarball deb; do
  check "tools/pack.sh $kind refuses it too" refused tools/pack.sh $kind "$work/unproved" "$work/dist"
  check "tools/pack.sh $kind makes nothing" [ ! -e "$work/dist" ]
done
check 'a proved one is installed' made install BINARY="$work/proved"
check 'it is that one' cmp "$work/proved" "$work/root/usr/bin/bgp_replay"

# a build, with a stand-in for rt: `lib` and `run` prove seven functions, or as many as the file `functions` says, unless
# the crate has a file `done`; one with a file `wrong` isn't proved.
tree=$work/tree; mkdir -p "$work/rt" "$tree/crates"
cp -r Makefile tools CHANGELOG.md "$tree"
printf '%s\n' '# a comment: none' 'low may_abort=2:' 'apart: low' 'middle: low byteorder' 'bgp_replay: low middle clap # top' > "$tree/crates.txt"
for crate in low apart middle bgp_replay; do mkdir -p "$tree/crates/$crate/src"; echo "// $crate" > "$tree/crates/$crate/src/lib.rt"; done
cat > "$tree/program" <<END
#!/bin/bash
build='$compiled'
said=\${build:7:120}; printf 'bgp_replay 1.2.3\n%s\n' "\${said%"\${said##*[! ]}"}"
END
cat > "$work/rt/rt" <<'END'
#!/bin/bash
crate=$(basename "$PWD")
[ "$1" != version ] || { echo 'rattle-kit-0 logic 0123456789abcdef'; exit; }
echo "$crate $*" >> ../../calls
if [ -e wrong ]; then
  printf '%s\n' "fn $crate::well: proved" 'so far: 3 of 7 functions checked; the verdict comes last' \
    'src/lib.rt:2:5: error: the goal is open' "fn $crate::ill: not proved" 'logic=not-proved functions=7'
  exit 1
fi
[ "$1" != run ] || { mkdir -p out; cp ../../program out/bgp_replay; chmod 755 out/bgp_replay; }
[ ! -e done ] || exit 0
touch done
printf '%s\n' "rt: chose --jobs 4 for $crate" 'so far: 3 of 7 functions checked; the verdict comes last' "fn $crate::well: proved" \
  "logic=proved functions=$(cat functions 2> /dev/null || echo 7) sum=0123456789abcdef"
END
chmod 755 "$work/rt/rt" "$tree/program"; echo 1 > "$tree/crates/bgp_replay/functions"
build() { # TARGET: its output, with each time as 0:00, in `out`
  (cd "$tree" && rm -f calls && PATH=$work/rt:$PATH make -s --no-print-directory "$1") > "$work/raw" 2> "$work/said"; status=$?
  sed -E 's/\([0-9]+:[0-9]{2}\)/(0:00)/' "$work/raw" > "$work/out"
}
stamped='proved with rattle-kit-0 logic 0123456789abcdef'
build all
check 'make: status' [ $status = 0 ]
check 'make: a line for each crate, in order' diff "$work/out" - <<END
[1/3] low: proved 7 functions (0:00)
[2/3] middle: proved 7 functions (0:00)
[3/3] bgp_replay: proved 1 function (0:00)
bin/bgp_replay: commit not recorded; $stamped
END
check 'make: each crate below the program, once' diff "$tree/calls" <(printf '%s\n' 'low lib' 'middle lib' 'bgp_replay run -- --version')
check 'make: the log has what the toolchain said' [ "$(grep -c 'so far: 3 of 7' "$tree/bin/build.log")" = 3 ]
check 'the program prints what was recorded' diff <("$tree/bin/bgp_replay" --version) <(printf '%s\n' 'bgp_replay 1.2.3' "commit not recorded; $stamped")
build all
check 'make again: status' [ $status = 0 ]
check 'make again: all is unchanged' [ "$(grep -cE '^\[[123]/3\] [a-z_]+: unchanged$' "$work/out")" = 3 ]
build bin/bgp_replay
check 'make bin/bgp_replay: nothing to do' [ $status = 0 -a ! -s "$work/out" -a ! -e "$tree/calls" ]
sed -i '1a // changed' "$tree/crates/low/src/lib.rt"; touch -d '+2 seconds' "$tree/crates/low/src/lib.rt"; rm "$tree/crates/low/done"
build bin/bgp_replay
check 'make bin/bgp_replay: a changed crate' diff <(head -n 3 "$work/out") - <<END
[1/3] low: proved 7 functions (0:00)
[2/3] middle: unchanged
[3/3] bgp_replay: unchanged
END
cp "$tree/bin/bgp_replay" "$work/before"; touch "$tree/crates/middle/wrong"
build all
check 'a crate that fails: status' [ $status != 0 ]
check 'a crate that fails: its line' [ "$(sed -n 2p "$work/out")" = '[2/3] middle: not proved (0:00)' ]
check 'a crate that fails: why' grep -q '^  src/lib.rt:2:5: error: the goal is open$' "$work/out"
check 'a crate that fails: which function' grep -q '^  fn middle::ill: not proved$' "$work/out"
check 'a crate that fails: not what is well' refused grep -qE 'middle::well|so far' "$work/out"
check 'a crate that fails: where the log is' grep -q 'bin/build.log' "$work/out"
check 'a crate that fails: none above is built' diff "$tree/calls" <(printf '%s\n' 'low lib' 'middle lib')
check 'a crate that fails: the program stays' cmp "$work/before" "$tree/bin/bgp_replay"
rm "$tree/crates/middle/wrong"
sed -i 's/@build:/@Build:/' "$tree/program"; build all
check 'a program with no place for the stamp: status' [ $status != 0 ]
check 'a program with no place for the stamp: why' grep -q '0 times' "$work/said"
sed -i 's/@Build:/@build:/; s/said=/other=/' "$tree/program"; build all
check 'a program that prints something else: status' [ $status != 0 ]
check 'a program that prints something else: why' grep -q 'second line of --version' "$work/said"
check 'a program that prints something else: the program stays' cmp "$work/before" "$tree/bin/bgp_replay"
sed -i 's/other=/said=/' "$tree/program"

# on a terminal: one line, written anew
rm "$tree"/crates/*/done
(cd "$tree" && PATH=$work/rt:$PATH timeout 60 python3 -c 'import pty, sys; sys.exit(pty.spawn(["tools/build.py", "proved"]))') < /dev/null > "$work/terminal" 2>&1
check 'a terminal: how far a crate is' grep -q 'low: 3 of 7 functions' "$work/terminal"
check 'a terminal: written over' [ "$(tr '\r' '\n' < "$work/terminal" | grep -c 'low: proved 7 functions')" = 1 ]
check 'a terminal: one line for a crate' [ "$(grep -c 'low' "$work/terminal")" = 1 ]

# the commit
if command -v git > "$work/log"; then
  recorded() { build all; sed -n 's/^bin\/bgp_replay: //p' "$work/out"; }
  printf '%s\n' bin/ calls out/ done > "$tree/.gitignore"
  as_someone() { git -C "$tree" -c user.name=a -c user.email=a@b.invalid -c commit.gpgsign=false "$@"; }
  check 'a repository' as_someone init -q; check 'all is added' as_someone add -A; check 'a commit' as_someone commit -qm first
  at=$(git -C "$tree" rev-parse HEAD | cut -c 1-12)
  check 'the commit' same "$(recorded)" "commit $at; $stamped"
  echo more >> "$tree/CHANGELOG.md"; check 'a change outside crates' same "$(recorded)" "commit $at; $stamped"
  echo '// more' >> "$tree/crates/low/src/lib.rt"; check 'a changed crate' same "$(recorded)" "commit $at, changed; $stamped"
  as_someone checkout -q crates; check 'changed back' same "$(recorded)" "commit $at; $stamped"
  touch "$tree/crates/low/src/new.rt"; check 'a new file' same "$(recorded)" "commit $at, changed; $stamped"
  mv "$tree/.git" "$work/.git"; check 'a repository above' [ "$(git -C "$tree" rev-parse HEAD | cut -c 1-12)" = "$at" ]
  check 'a repository above: its commit is not recorded' same "$(recorded)" "commit not recorded; $stamped"
else
  echo "skipped: git isn't installed: the recorded commit"
fi

echo "$passed passed, $failed failed"
[ $failed = 0 ] && [ $passed -gt 0 ]
