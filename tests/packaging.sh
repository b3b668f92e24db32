#!/usr/bin/env bash
# Installs into an empty directory and tries the program, the manual page and the completions from there; makes the
# tarball and the Debian package, and tries what is in them; and compares versions, commands, options and keys among
# program, manual page, completions, docs/USAGE.md, CHANGELOG.md and `make help`.
#   tests/packaging.sh PROGRAM
# Needs make, tar, gzip and bash; man, strip, dpkg-deb, lintian, zsh and fish where they are installed: what needs one
# that isn't there is named, and not counted. The last line is `N passed, M failed`.
set -u
program=$(realpath "$1"); top=$(dirname "$(dirname "$(realpath "$0")")"); work=$(mktemp -d); trap 'rm -rf "$work"' EXIT
cd "$top" || exit 2
passed=0; failed=0
check() { # NAME COMMAND..
  local name=$1; shift
  if "$@" > "$work/log" 2>&1; then passed=$((passed + 1)); else failed=$((failed + 1)); echo "wrong: $name"; head -n 5 "$work/log" | sed "s|$work|..|g; s|$top|..|g; s/^/  /"; fi
}
has() { command -v "$1" > "$work/log" || { echo "not tried: $1 isn't installed"; return 1; }; }
made() { make -s --no-print-directory "$@" BINARY="$program"; }
same_report() { cmp <("$1" tables examples/sample.mrt) <("$program" tables examples/sample.mrt); }
files_below() { (cd "$1" && find . -type f | LC_ALL=C sort); }
documents_of() { { printf './%s\n' README.md CHANGELOG.md CONTRIBUTING.md "$@" docs/*.md docs/*.png examples/*; } | LC_ALL=C sort; } # OTHER..
lost_links() { # DIRECTORY: each link of a page to what isn't there
  (cd "$1" && find . -name '*.md' | while read -r page; do
    grep -oE '\]\([^)#]+' "$page" | sed 's/^](//' | grep -v '^[a-z]*:' | while read -r target; do
      [ -e "$(dirname "$page")/$target" ] || echo "$page: $target"
    done
  done)
}
linked() { # DIRECTORY: its pages have links, and all work
  lost_links "$1"; [ -z "$(lost_links "$1")" ] && [ "$(cat "$1"/*.md "$1"/docs/*.md | grep -cE '\]\([^)#]')" -ge 20 ]
}

# what program, manual page, completions and CHANGELOG.md say of one another
version=$("$program" --version | sed -n '1s/^bgp_replay //p')
check 'the version is a version' grep -qE '^[0-9]+\.[0-9]+\.[0-9]+$' <<< "$version"
check 'the first change is of this version' grep -qxE "## ${version//./\\.}( - [0-9]{4}-[0-9]{2}-[0-9]{2})?" <(grep -m 1 '^## ' CHANGELOG.md)
check 'the manual page is of this version' grep -q "^\.TH BGP_REPLAY 1 [0-9-]* \"bgp_replay $version\"" man/bgp_replay.1
"$program" --help > "$work/help"; commands=$(sed -n '/^Commands:/,/^$/s/^  \([a-z]*\) .*/\1/p' "$work/help" | grep -v '^help$')
check 'help names nine commands' [ "$(wc -w <<< "$commands")" = 9 ]
for command in $commands; do
  check "the manual page has $command" grep -q "^\.B $command$" man/bgp_replay.1
  for shell in bash zsh fish; do check "$shell completes $command" grep -qw -- "$command" completions/bgp_replay.$shell; done
  for option in $("$program" "$command" --help | grep -oE '(^|[ ,])--[a-z][a-z-]*' | tr -d ' ,' | sort -u); do
    check "the manual page has $option" grep -qF -- "$(sed 's/-/\\-/g' <<< "$option")" man/bgp_replay.1
    for shell in bash zsh; do check "$shell completes $option" grep -qF -- "$option" completions/bgp_replay.$shell; done
    check "fish completes $option" grep -qE -- "-l ${option#--}( |\$)" completions/bgp_replay.fish
  done
done
"$program" churn --summary --quiet examples/updates.mrt 2>&1 > "$work/none" | sed -n 's/^\(file 1 \)*\([a-z_]*\)[ a-zA-Z0-9_]*: .*/\2/p' | grep -vx file | sort -u > "$work/keys"
check '--summary has its keys' [ "$(wc -l < "$work/keys")" -ge 14 ]
while read -r key; do
  check "the manual page has the key $key" grep -qw -- "$key" <(sed -n '/^\.SH SUMMARY/,/^\.SH EXIT/p' man/bgp_replay.1)
  check "docs/USAGE.md has the key $key" grep -qE "^\| .*\`(file N )?$key( TYPE SUBTYPE)?\`" docs/USAGE.md
done < "$work/keys"
make -s --no-print-directory help > "$work/targets"
for target in $(sed -n 's/^\.PHONY: all help//p' Makefile); do check "make help names $target" grep -q "^make $target " "$work/targets"; done
for target in $(sed -n 's/^make \([a-z][a-z-]*\)  *.*/\1/p' "$work/targets"); do check "there is make $target" grep -q "^$target:" Makefile; done

# install
root=$work/root/usr
check 'make install' made install DESTDIR="$work/root" PREFIX=/usr
for file in bin/bgp_replay share/man/man1/bgp_replay.1 share/bash-completion/completions/bgp_replay share/zsh/site-functions/_bgp_replay \
  share/fish/vendor_completions.d/bgp_replay.fish; do
  check "$file is installed" [ -s "$root/$file" ]
done
documents=$root/share/doc/bgp_replay
for file in $(documents_of LICENSE); do check "$file is installed" cmp "$file" "$documents/$file"; done
check 'no other page is installed' [ "$(files_below "$documents")" = "$(documents_of LICENSE)" ]
check 'links in pages work' linked "$documents"
check 'a link that is lost is found' [ "$(mkdir "$work/lost" && printf '[a](docs/b.md) [c](d.md#e) [f](#g) [h](https://i.j)\n' > "$work/lost/d.md" && lost_links "$work/lost")" = './d.md: docs/b.md' ]
check 'the program runs from there' same_report "$root/bin/bgp_replay"
check 'the program is for all' [ "$(stat -c %a "$root/bin/bgp_replay")" = 755 ]
check 'it needs the C library alone' [ -z "$(ldd "$root/bin/bgp_replay" | grep -vE 'linux-vdso|libc\.so|ld-linux|libpthread|libm\.so|libgcc_s|libdl|statically')" ]

# the manual page
if has man; then
  check 'man finds the page' [ -n "$(MANPATH=$root/share/man man -w bgp_replay)" ]
  warned=$(LC_ALL=C.UTF-8 man --warnings -E UTF-8 -l -Tutf8 -Z "$root/share/man/man1/bgp_replay.1" 2>&1 > "$work/set"); check "man --warnings says nothing: $warned" [ -z "$warned" ]
  LC_ALL=C.UTF-8 MANWIDTH=80 man -l "$root/share/man/man1/bgp_replay.1" > "$work/page" 2> "$work/log"
  for word in NAME SYNOPSIS COMMANDS OPTIONS FAULTS SUMMARY 'EXIT STATUS' LIMITS EXAMPLES; do check "the page has $word" grep -q "^$word" "$work/page"; done
  for line in 'damaged: N' 'bad address: A' 'open failed: file N' 'read failed: file N' 'write failed' 'no memory' 'too many records'; do
    check "the page has $line" grep -q "${line// / *}" <(tr -s ' \n\302\240' ' ' < "$work/page" | sed 's/‐ //g; s/ad dress/address/')
  done
fi

# completions
completed() { # WORDS..: what bash offers for the last word
  bash --norc -c 'source "$1"; shift; COMP_WORDS=("$@"); COMP_CWORD=$(($# - 1)); _bgp_replay; printf "%s\n" "${COMPREPLY[@]}"' bash "$root/share/bash-completion/completions/bgp_replay" "$@" | LC_ALL=C sort | tr '\n' ' '
}
offers() { local wanted=$1; shift; echo "offered: $(completed "$@")"; [ "$(completed "$@")" = "$wanted" ]; }
check 'bash: a command' offers 'tables ' bgp_replay ta
check 'bash: all commands' offers '--help --version churn faults help history match origins peers seen tables visibility ' bgp_replay ''
check 'bash: an option' offers '--workers ' bgp_replay tables --wo
check 'bash: an option of match' offers '--address --addresses ' bgp_replay match --ad
check 'bash: none of match for tables' offers '--addresses ' bgp_replay tables --ad
check 'bash: attributes' offers 'originator otc ' bgp_replay tables --attributes o
check 'bash: a form' offers 'full short ' bgp_replay tables --addresses ''
check 'bash: a number' offers '64 ' bgp_replay tables --workers 6
check 'bash: a file' offers 'examples/sample.mrt ' bgp_replay tables examples/sam
if has zsh; then
  check 'zsh reads its completion' zsh -n "$root/share/zsh/site-functions/_bgp_replay"
  check 'zsh loads its completion' zsh -f -c "fpath=('$root/share/zsh/site-functions' \$fpath); autoload -Uz compinit; compinit -D -u; [[ \$_comps[bgp_replay] == _bgp_replay ]]"
fi
if has fish; then
  fish_offers() { HOME=$work XDG_CONFIG_HOME=$work/config fish --no-config -c "source '$root/share/fish/vendor_completions.d/bgp_replay.fish'; complete -C '$1'" 2>&1 | grep -qE -- "^$2([[:space:]]|\$)"; }
  check 'fish reads its completion' fish --no-execute "$root/share/fish/vendor_completions.d/bgp_replay.fish"
  check 'fish: a command' fish_offers 'bgp_replay ta' tables
  check 'fish: an option' fish_offers 'bgp_replay tables --wo' --workers
  check 'fish: an option of match' fish_offers 'bgp_replay match --ad' --address
  check 'fish: a file' fish_offers 'bgp_replay tables examples/sam' examples/sample.mrt
fi

# uninstall
check 'make uninstall' made uninstall DESTDIR="$work/root" PREFIX=/usr
check 'nothing is left' [ -z "$(files_below "$work/root")" ]

# what both packages have
stripped() { ! readelf -SW "$1" | grep -q '\.symtab'; }
has_strip=; if has strip && has readelf; then has_strip=1; fi
same_version() { cmp <("$1" --version) <("$program" --version); }
summed() { [ "$(wc -l < "$1/SHA256SUMS")" = 1 ] && (cd "$1" && sha256sum -c SHA256SUMS); }
later() { (umask 077; sleep 1.1; made "$@"); }
opened() { # PROGRAM
  check 'its program runs' same_report "$1"
  check 'its program is of this version' same_version "$1"
  [ -z "$has_strip" ] || check 'its program has no symbols' stripped "$1"
}

# the tarball
check 'make dist' made dist DIST="$work/dist"
tarball=$(cd "$work/dist" && ls -- *.tar.gz)
check 'its name has the version' grep -q "^bgp_replay-$version-.*\.tar\.gz$" <<< "$tarball"
check 'its sum stands beside it' summed "$work/dist"
check 'make dist once more' later dist DIST="$work/again"
check 'make dist: the same bytes' cmp "$work/dist/$tarball" "$work/again/$tarball"
check 'make dist of another date' env SOURCE_DATE_EPOCH=86400 make -s --no-print-directory dist DIST="$work/dated" BINARY="$program"
check 'make dist: the date is in it' grep -q '1970-01-02' <(TZ=UTC tar -tvzf "$work/dated/$tarball")
mkdir "$work/open"; check 'tar opens it' tar -xzf "$work/dist/$tarball" -C "$work/open"
open=$work/open/${tarball%.tar.gz}
opened "$open/bin/bgp_replay"
check 'it has a licence' grep -q '^MIT License' "$open/share/doc/bgp_replay/LICENSE"
check 'links in its pages work' linked "$open/share/doc/bgp_replay"
check 'its page is compressed' cmp <(gzip -dc "$open/share/man/man1/bgp_replay.1.gz") man/bgp_replay.1
check 'all may read it' [ -z "$(find "$open" ! -perm -a=r)" ]

# the Debian package
if has dpkg-deb; then
  check 'make deb' made deb DIST="$work/deb"
  package=$(cd "$work/deb" && ls -- *.deb); mkdir "$work/unpacked"
  check 'its name has the version' grep -q "^bgp-replay_${version}_.*\.deb$" <<< "$package"
  check 'its sum stands beside it' summed "$work/deb"
  check 'make deb once more' later deb DIST="$work/again"
  check 'make deb: the same bytes' cmp "$work/deb/$package" "$work/again/$package"
  check 'the sums of both packages' [ "$(cd "$work/again" && sha256sum -c SHA256SUMS | grep -c ': OK$')" = 2 ]
  check 'dpkg-deb opens it' dpkg-deb -x "$work/deb/$package" "$work/unpacked"
  check 'its version' [ "$(dpkg-deb -f "$work/deb/$package" Version)" = "$version" ]
  documents=$work/unpacked/usr/share/doc/bgp-replay
  opened "$work/unpacked/usr/bin/bgp_replay"
  check 'its page is compressed' cmp <(gzip -dc "$work/unpacked/usr/share/man/man1/bgp_replay.1.gz") man/bgp_replay.1
  check 'links in its pages work' linked "$documents"
  check 'it has pages, examples and no more' [ "$(files_below "$documents")" = "$(documents_of copyright changelog.gz)" ]
  for file in docs/USAGE.md CHANGELOG.md examples/*; do check "$file is packed" cmp "$file" "$documents/$file"; done
  check 'it says who holds the copyright' grep -q 'Ravmekos authors' "$documents/copyright"
  check 'all is of root' [ -z "$(dpkg-deb -c "$work/deb/$package" | grep -v ' root/root ')" ]
  gzip -dc "$documents/changelog.gz" > "$work/changelog"
  check 'its changelog begins with this version' [ "$(head -n 1 "$work/changelog")" = "bgp-replay ($version) unstable; urgency=medium" ]
  check 'its changelog has a date' grep -qE '^ -- .* <.*@.*>  [A-Z][a-z]{2}, [0-9]{2} [A-Z][a-z]{2} [0-9]{4} [0-9:]{8} \+0000$' "$work/changelog"
  check 'its changelog fits 80 columns' [ -z "$(grep -v '^ -- ' "$work/changelog" | LC_ALL=C.UTF-8 awk 'length > 80')" ]
  first_change=$(sed -n '/^## /,$ { s/^- //p }' CHANGELOG.md | head -n 1)
  check 'its changelog has the first change' grep -qF "  * ${first_change:0:40}" "$work/changelog"
  if has lintian; then check 'lintian finds no error' lintian --fail-on error "$work/deb/$package"; fi

  # that of the Python package, which is unpacked over the program's
  check 'make python-deb' made python-deb DIST="$work/python"
  package=python3-bgp-replay_${version}_all.deb; site=$work/unpacked/usr/lib/python3/dist-packages
  check 'python-deb: its sum stands beside it' summed "$work/python"
  check 'make python-deb once more' later python-deb DIST="$work/python-again"
  check 'make python-deb: the same bytes' cmp "$work/python/$package" "$work/python-again/$package"
  check 'python-deb needs the program of this version' grep -qF "bgp-replay (= $version)" <(dpkg-deb -f "$work/python/$package" Depends)
  check 'dpkg-deb opens the Python package' dpkg-deb -x "$work/python/$package" "$work/unpacked"
  for file in python/bgp_replay/*.py python/bgp_replay/page_parts/*; do check "$file is packed" cmp "$file" "$site/${file#python/}"; done
  check 'the Python package is of this version' grep -qx "Version: $version" "$site/bgp_replay-$version.dist-info/METADATA"
  check 'its page is compressed' cmp <(gzip -dc "$work/unpacked/usr/share/doc/python3-bgp-replay/PYTHON.md.gz") docs/PYTHON.md
  if has /usr/bin/python3 && /usr/bin/python3 -c 'import pandas' > "$work/log" 2>&1; then
    check 'it is imported, and finds the program' env -C "$work" PATH="$work/unpacked/usr/bin:$PATH" PYTHONPATH="$site" PYTHONDONTWRITEBYTECODE=1 \
      /usr/bin/python3 -c "import sys, bgp_replay; assert bgp_replay.__file__.startswith('$site') and len(bgp_replay.tables(sys.argv[1]))" "$top/examples/sample.mrt"
    if /usr/bin/python3 -c 'import jinja2' > "$work/log" 2>&1; then
      packed_page() { env -C "$work" PATH="$work/unpacked/usr/bin:$PATH" PYTHONPATH="$site" PYTHONDONTWRITEBYTECODE=1 /usr/bin/python3 -m bgp_replay \
        page --prefix 17.150.214.0/24+ "$top/examples/sample.mrt" -o "$work/page.html" && grep -q '^<title>What happened to 17' "$work/page.html"; }
      check 'it makes a page' packed_page
    else echo "not tried: jinja2 isn't installed"; fi
  else echo "not tried: pandas isn't installed"; fi
  if has lintian; then check 'lintian finds no error in it' lintian --fail-on error "$work/python/$package"; fi
fi

echo "$passed passed, $failed failed"
[ $failed = 0 ] && [ $passed -gt 0 ]
