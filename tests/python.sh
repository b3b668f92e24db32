#!/usr/bin/env bash
# Tries the Python package of python/ with Debian's libraries: frames beside the program's text, collectors on Dask,
# packed files, what goes wrong, pages of incidents in a browser without a window, and the examples of docs/PYTHON.md.
#   tests/python.sh PROGRAM
# Needs python3-pandas, python3-distributed, python3-jinja2, python3-matplotlib and python3-pytest, and for the pages
# chromium, chromium-driver and python3-selenium: what is missing is installed where this runs as root on Debian, and
# else named, and what needs it is skipped. PYTHON is the interpreter that has them (/usr/bin/python3). Needs cc, and
# tries zstd where it is installed. The last line is `N passed, M failed`, with `, K skipped` behind it if there are any.
set -u
program=$(realpath "$1"); top=$(dirname "$(dirname "$(realpath "$0")")"); work=$(mktemp -d); trap 'rm -rf "$work"' EXIT
python=${PYTHON:-/usr/bin/python3}
has() { "$python" -c "import $1" > "$work/log" 2>&1; }
missing() { for module in pandas distributed jinja2 matplotlib pytest; do has $module || printf 'python3-%s ' $module; done; }
no_browser() { # what is missing of it
  has selenium || printf 'python3-selenium '
  [ -x /usr/bin/chromium ] || printf 'chromium '
  [ -x /usr/bin/chromedriver ] || printf 'chromium-driver '
}
skip_all() {
  echo "skipped: $1"
  echo "0 passed, 0 failed, $(cat "$top"/python/tests/test_*.py | grep -c '^def test_') skipped"
  exit 0
}

[ -x "$python" ] || skip_all "there is no $python"
packages=$(missing); browser=$(no_browser)
if [ -n "$packages$browser" ] && [ "$(id -u)" = 0 ] && [ -e /etc/debian_version ] && [ "$python" = /usr/bin/python3 ]; then
  export DEBIAN_FRONTEND=noninteractive
  add() { [ $# = 0 ] || apt-get -qq install --no-install-recommends "$@" > "$work/apt" 2>&1 < /dev/null || tail -n 1 "$work/apt"; }
  apt-get -qq update > "$work/apt" 2>&1 < /dev/null || tail -n 1 "$work/apt"
  add $packages; add $browser  # the libraries are needed where there is no browser to install, too
  packages=$(missing); browser=$(no_browser)
fi
[ -z "$packages$browser" ] || echo "not installed: $packages$browser"
case $packages in *pandas*|*pytest*) skip_all "these tests need python3-pandas and python3-pytest" ;; esac

# Nothing is left behind: caches, settings and workers' files are below $work.
export PYTHONDONTWRITEBYTECODE=1 HOME=$work MPLCONFIGDIR=$work DASK_TEMPORARY_DIRECTORY=$work DASK_CONFIG=$work
export TMPDIR=$work BGP_REPLAY=$program
cd "$work" || exit 2
"$python" -m pytest -q -rs -p no:cacheprovider --basetemp="$work/t" --rootdir="$top/python" -c "$top/python/pyproject.toml" \
  "$top/python/tests" > "$work/out" 2>&1 < /dev/null
status=$?
count() { tail -n 1 "$work/out" | grep -oE "[0-9]+ $1" | grep -oE '[0-9]+'; }
passed=$(count passed); failed=$(count failed); errors=$(count error); skipped=$(count skipped)
failed=$((${failed:-0} + ${errors:-0}))
if [ $status != 0 ]; then
  [ $failed != 0 ] || failed=1
  grep -E '^(FAILED|ERROR|E  )' "$work/out" | head -n 40
fi
sed -n 's/^SKIPPED \[\([0-9]*\)\] [^ ]* \(.*\)/skipped: \1: \2/p' "$work/out"
echo "${passed:-0} passed, $failed failed${skipped:+, $skipped skipped}"
[ $failed = 0 ]
