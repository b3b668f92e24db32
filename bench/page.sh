#!/usr/bin/env bash
# Measures the page of drawn incidents: processor seconds of Python beside those of the program, bytes of the page, and
# in chromium, where it is installed with its driver and python3-selenium, seconds to load, and the median milliseconds of
# a step of the slider with all panels drawn, and of a filter.
#   bench/page.sh PROGRAM [PEERS EVENTS]..
# Defaults: 300 peers and 5,000 events; 1,000 peers and 60,000 events. Needs Debian's python3-pandas and python3-jinja2.
# PYTHON is the interpreter that has them (/usr/bin/python3).
set -eu
program=$(realpath "$1"); shift
here=$(dirname "$(realpath "$0")")
[ $# != 0 ] || set -- 300 5000 1000 60000
export BGP_REPLAY=$program PYTHONPATH=$here/../python:$here/../python/tests PYTHONDONTWRITEBYTECODE=1
"${PYTHON:-/usr/bin/python3}" "$here/page_bench.py" "$@"
