#!/usr/bin/env bash
# Packs the program, its manual page, completions and documents, as `make install` lays them out: the same bytes from
# the same files. The program is stripped of symbols where `strip` is installed.
#   tools/pack.sh tarball|deb PROGRAM DIRECTORY
# Or the Python package of python/, which needs the program's Debian package of the same version:
#   tools/pack.sh python-deb PROGRAM DIRECTORY
# All is dated by SOURCE_DATE_EPOCH, or else by the commit, or else by the manual page. DIRECTORY/SHA256SUMS gets the
# sum of each package in DIRECTORY. Needs make, tar and gzip, and for `deb` python3 and dpkg-deb. The last line is the
# package's name. A program whose `--version` says `(not proved)` isn't packed: status 2.
set -eu
umask 022; export LC_ALL=C
kind=$1; program=$(realpath "$2"); to=$(realpath -m "$3")
cd "$(dirname "$(realpath "$0")")/.."
work=$(mktemp -d); trap 'rm -rf "$work"' EXIT
version=$("$program" --version | sed -n '1s/^bgp_replay //p')
[ -n "$version" ] || { echo "tools/pack.sh: $program has no version" >&2; exit 2; }

# A checkout of another project may surround an unpacked tarball.
is_ours() { [ -z "$(git rev-parse --show-prefix 2> "$work/none" || echo none)" ]; }
commit_time() { is_ours && git log -1 --format=%ct 2> "$work/none"; }
page_time() { date -u -d "$(sed -n 's/^\.TH [A-Z_]* 1 \([0-9-]*\) .*/\1/p' man/bgp_replay.1)" +%s; }
SOURCE_DATE_EPOCH=${SOURCE_DATE_EPOCH:-$(commit_time || page_time)}; export SOURCE_DATE_EPOCH

# Lays out all below $1, for the prefix $2, with a stripped program and compressed manual page.
stage() {
  cp "$program" "$work/bgp_replay"
  if command -v strip > "$work/none"; then strip "$work/bgp_replay"
  else echo "strip isn't installed: the program keeps its symbols" >&2; fi
  make -s --no-print-directory install DESTDIR="$1" PREFIX="$2" BINARY="$work/bgp_replay" || exit 2
  gzip -9n "$1$2/share/man/man1/bgp_replay.1"
}
sum_all() {
  (cd "$to" && find . -maxdepth 1 -type f \( -name '*.tar.gz' -o -name '*.deb' \) -printf '%f\0' | sort -z |
    xargs -0 sha256sum > SHA256SUMS)
}
date_all() { find "$1" -exec touch -h -d "@$SOURCE_DATE_EPOCH" {} +; }

pack_tarball() {
  local name=bgp_replay-$version-linux-$(uname -m)
  stage "$work/$name" ''
  tar -C "$work" --sort=name --mtime="@$SOURCE_DATE_EPOCH" --owner=0 --group=0 --numeric-owner --format=gnu -cf - "$name" |
    gzip -9n > "$work/packed"
  mkdir -p "$to"; mv "$work/packed" "$to/$name.tar.gz"; sum_all
  echo "$to/$name.tar.gz"
}

# The packages whose libraries the program is linked with: of the C library, the least version that has all its calls.
needed() {
  local version; version=$(grep -ao 'GLIBC_[0-9][0-9.]*' "$program" | sed 's/GLIBC_//' | sort -Vu | tail -n 1)
  printf 'libc6%s' "${version:+ (>= $version)}"
  if grep -aq 'libgcc_s\.so\.1' "$program"; then printf ', libgcc-s1'; fi
}

# The size on disk in blocks of 1 KiB, as dpkg-gencontrol counts them: what du says depends on the file system.
blocks() {
  find "$1" -mindepth 1 -printf '%y %s\n' |
    awk '$1 == "f" { count += int(($2 + 1023) / 1024) } $1 != "f" { count++ } END { print count }'
}

maintainer='Ravmekos maintainers <maintainers@users.noreply.ravmekos.example>'
copyright() {
  printf 'Format: https://www.debian.org/doc/packaging-manuals/copyright-format/1.0/\n\n'
  printf 'Files: *\nCopyright: 2026 the Ravmekos authors\nLicense: Expat\n'
  sed -n '/^Permission/,$ { s/^$/./; s/^/ /; p }' LICENSE
}

# Builds the package NAME of what is staged below $work/root, with the sums of its files.
build_deb() { # NAME
  (cd "$work/root" && find usr -type f -printf '%p\0' | sort -z | xargs -0 md5sum > DEBIAN/md5sums)
  date_all "$work/root"
  dpkg-deb --root-owner-group --build "$work/root" "$work/packed" > "$work/none"
  mkdir -p "$to"; mv "$work/packed" "$to/$1"; sum_all
  echo "$to/$1"
}

pack_deb() {
  local root=$work/root documents=$work/root/usr/share/doc/bgp-replay architecture
  architecture=$(dpkg --print-architecture)
  stage "$root" /usr
  mv "$root/usr/share/doc/bgp_replay" "$documents"
  mkdir "$root/usr/share/zsh/vendor-completions"
  mv "$root/usr/share/zsh/site-functions/_bgp_replay" "$root/usr/share/zsh/vendor-completions/_bgp_replay"
  rmdir "$root/usr/share/zsh/site-functions"
  copyright > "$documents/copyright"
  rm "$documents/LICENSE"
  tools/debian_changelog.py CHANGELOG.md bgp-replay "$maintainer" "$SOURCE_DATE_EPOCH" > "$documents/changelog"
  gzip -9n "$documents/changelog" # CHANGELOG.md is a page that README.md links to
  local size; size=$(blocks "$root")
  mkdir "$root/DEBIAN"
  cat > "$root/DEBIAN/control" <<END
Package: bgp-replay
Version: $version
Architecture: $architecture
Maintainer: $maintainer
Installed-Size: $size
Depends: $(needed)
Section: net
Priority: optional
Description: replay of MRT dumps of BGP route collectors
 bgp_replay reads MRT dumps (RFC 6396) of BGP route collectors, replays them
 into one routing table for each peer, and prints the tables, the prefixes'
 visibility and origins, churn, longest matches or the damaged records.
END
  build_deb "bgp-replay_${version}_$architecture.deb"
}

pack_python_deb() {
  local root=$work/root name=python3-bgp-replay size site documents
  site=$root/usr/lib/python3/dist-packages documents=$root/usr/share/doc/$name
  grep -qx "__version__ = \"$version\"" python/bgp_replay/__init__.py ||
    { echo "tools/pack.sh: python/bgp_replay isn't of version $version, which $program is of" >&2; exit 2; }
  install -d "$site/bgp_replay" "$site/bgp_replay-$version.dist-info" "$documents" "$root/DEBIAN"
  install -m 644 python/bgp_replay/*.py "$site/bgp_replay"
  install -d "$site/bgp_replay/page_parts"
  install -m 644 python/bgp_replay/page_parts/* "$site/bgp_replay/page_parts"
  printf 'Metadata-Version: 2.1\nName: bgp-replay\nVersion: %s\nRequires-Dist: numpy\nRequires-Dist: pandas\n' "$version" \
    > "$site/bgp_replay-$version.dist-info/METADATA"
  echo dpkg > "$site/bgp_replay-$version.dist-info/INSTALLER"
  install -m 644 docs/PYTHON.md "$documents"
  copyright > "$documents/copyright"
  tools/debian_changelog.py CHANGELOG.md $name "$maintainer" "$SOURCE_DATE_EPOCH" > "$documents/changelog"
  gzip -9n "$documents/changelog" "$documents/PYTHON.md"
  size=$(blocks "$root/usr")
  cat > "$root/DEBIAN/control" <<END
Package: $name
Version: $version
Architecture: all
Maintainer: $maintainer
Installed-Size: $size
Depends: python3 (>= 3.10), python3-numpy, python3-pandas, bgp-replay (= $version)
Recommends: python3-dask, python3-distributed, python3-jinja2, python3-matplotlib
Suggests: zstd
Section: python
Priority: optional
Description: replay of MRT dumps of BGP route collectors (Python 3)
 The reports of bgp_replay as pandas frames: tables, visibility, origins,
 churn, longest matches and damaged records, of plain or compressed dumps, of
 one collector or, on Dask, of many. What happened to a prefix is one HTML page
 to look at.
END
  printf '#!/bin/sh\nset -e\nif [ "$1" = configure ] && command -v py3compile > /dev/null; then py3compile -p %s; fi\n' $name > "$root/DEBIAN/postinst"
  printf '#!/bin/sh\nset -e\nif command -v py3clean > /dev/null; then py3clean -p %s; fi\n' $name > "$root/DEBIAN/prerm"
  chmod 755 "$root/DEBIAN/postinst" "$root/DEBIAN/prerm"
  build_deb "${name}_${version}_all.deb"
}

case $kind in
  tarball) pack_tarball ;;
  deb) pack_deb ;;
  python-deb) pack_python_deb ;;
  *) echo 'usage: tools/pack.sh tarball|deb|python-deb PROGRAM DIRECTORY' >&2; exit 2 ;;
esac
