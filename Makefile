# The front door. `make` builds, `make run` replays the sample, `make check` passes every proof and test.
# `make help` lists all.
PREFIX ?= $(HOME)/.local
DESTDIR ?=
PROGRAM = bin/bgp_replay
QUICK = bin/quick/bgp_replay
BUILT = crates/bgp_replay/out/bgp_replay
# The program that is tried and packed: another one than the built one can be given, as make scripts BINARY=..
BINARY ?= $(PROGRAM)
ROOT = $(DESTDIR)$(PREFIX)
DIST ?= dist
DOCUMENTS = README.md CHANGELOG.md CONTRIBUTING.md LICENSE
PAGES = $(wildcard docs/*.md docs/*.png)
EXAMPLES = $(wildcard examples/*)
BUILDING = tools/build.py tools/stamp.py
SOURCES := $(shell find crates -type d \( -name out -o -name must-fail -o -name more-edits \) -prune -o -type f -print) crates.txt

# Only a proved crate is built, so a first build proves every crate below the program. Which crates have changed since is
# judged by the toolchain, and the commit is recorded anew.
all:
	@tools/build.py proved

$(PROGRAM): $(SOURCES) $(BUILDING)
	@tools/build.py proved

# The toolchain's trial build: no proof, and its checks left in.
quick: $(QUICK)

$(QUICK): $(SOURCES) $(BUILDING) tools/trial.py
	@tools/build.py quick

help:
	@echo 'make              builds bin/bgp_replay (a first build proves every crate below: up to an hour on 4 cores)'
	@echo 'make quick        builds bin/quick/bgp_replay in two minutes, with no proof: slower, and never installed or packed'
	@echo 'make run          replays the sample by `tables`'
	@echo 'make check        the gate: every proof, must-fail edit, test and run from nothing, make scripts, make quick-check and make python-check'
	@echo 'make verdict      each crate from nothing, with its tests'
	@echo 'make scripts      tries rows of dumps and reports, lines, notes and statuses, the packages, recipes, shares of the peers, packed dumps, what the build records and refuses, and that pages and comments name what there is'
	@echo 'make quick-check  builds that program, and tries it'
	@echo 'make python-check tries the Python package, with pandas, Dask and a browser (Debian packages that it installs as root)'
	@echo 'make page         makes bin/page.html, the page of an incident in the dumps of examples/, with pandas and Jinja2'
	@echo 'make refusals     fails each allocation, read, write and thread start in turn'
	@echo 'make growths      fails each allocation of the test programs that state what is left then'
	@echo 'make same         every number of workers and ring gives the same bytes'
	@echo 'make fuzz         replays damaged dumps (FILES=800 of them; SAMPLES=DIRECTORY adds dumps to damage)'
	@echo 'make gzip-drawn   unpacks drawn and damaged gzip files beside zlib (FILES=2000 of them)'
	@echo 'make maps         makes twenty million drawn calls of the prefix maps beside a plain list'
	@echo 'make edits        tries further wrong bodies of each crate: the check must refuse them'
	@echo 'make hostile      replays dumps that are costly to read, at a size and twice that size'
	@echo 'make bench        measures the program beside bgpdump and others'
	@echo 'make install      copies program, manual page, completions and documents to DESTDIR PREFIX (~/.local)'
	@echo 'make uninstall    removes these'
	@echo 'make dist         a tarball of them in dist/, and its sum in dist/SHA256SUMS'
	@echo 'make deb          a Debian package of them in dist/, and its sum in dist/SHA256SUMS'
	@echo 'make python-deb   a Debian package of the Python package in dist/, which needs that of the program'
	@echo 'make clean        removes what was built'

run: $(PROGRAM)
	$(PROGRAM) tables examples/sample.mrt

# How many checks of the gate run at once: one a processor, where there are 4 GB of memory for each. By itself `rt ci`
# counts with two to three times what they take, and leaves a processor idle.
CHECKS ?= $(shell awk -v processors=$$(nproc) '/^MemAvailable/ { n = int($$2 / 4e6); print n < 1 ? 1 : n < processors ? n : processors }' /proc/meminfo)

# The gate, and then what is quick, side by side, on the program that the gate built.
check:
	RT_JOBS=$(CHECKS) rt ci
	$(MAKE) --no-print-directory -j3 --output-sync=target scripts quick-check python-check BINARY='$(BUILT)'

verdict:
	rt all verdict

# What is installed and packed is proved.
proved: $(BINARY)
	@said=$$('$(abspath $(BINARY))' --version) || exit 2; case $$said in *'(not proved)'*) \
	  echo '$(BINARY) is not proved, as its --version says: it is neither installed nor packed' >&2; exit 2;; esac

# Program, manual page, completions and documents, below PREFIX. DESTDIR stands before it, for packages. The documents lie
# as they do here, so that the links in them work.
install: proved
	install -d '$(ROOT)/bin' '$(ROOT)/share/man/man1' '$(ROOT)/share/doc/bgp_replay/docs' '$(ROOT)/share/doc/bgp_replay/examples' \
	  '$(ROOT)/share/bash-completion/completions' '$(ROOT)/share/zsh/site-functions' '$(ROOT)/share/fish/vendor_completions.d'
	install -m 755 '$(BINARY)' '$(ROOT)/bin/bgp_replay'
	install -m 644 man/bgp_replay.1 '$(ROOT)/share/man/man1/bgp_replay.1'
	install -m 644 completions/bgp_replay.bash '$(ROOT)/share/bash-completion/completions/bgp_replay'
	install -m 644 completions/bgp_replay.zsh '$(ROOT)/share/zsh/site-functions/_bgp_replay'
	install -m 644 completions/bgp_replay.fish '$(ROOT)/share/fish/vendor_completions.d/bgp_replay.fish'
	install -m 644 $(DOCUMENTS) '$(ROOT)/share/doc/bgp_replay'
	install -m 644 $(PAGES) '$(ROOT)/share/doc/bgp_replay/docs'
	install -m 644 $(EXAMPLES) '$(ROOT)/share/doc/bgp_replay/examples'

uninstall:
	rm -f '$(ROOT)/bin/bgp_replay' '$(ROOT)/share/man/man1/bgp_replay.1' \
	  '$(ROOT)/share/bash-completion/completions/bgp_replay' '$(ROOT)/share/zsh/site-functions/_bgp_replay' \
	  '$(ROOT)/share/fish/vendor_completions.d/bgp_replay.fish'
	rm -rf '$(ROOT)/share/doc/bgp_replay'

# A tarball of bin/ and share/, and a Debian package: the same bytes from the same files.
dist: proved
	tools/pack.sh tarball '$(BINARY)' '$(DIST)'

deb: proved
	tools/pack.sh deb '$(BINARY)' '$(DIST)'

# The Python package is for the program of the same version.
python-deb: $(BINARY)
	tools/pack.sh python-deb '$(BINARY)' '$(DIST)'

# Rows, lines and statuses, packages, recipes, what the build records and refuses, pages that are made, and names: quick.
scripts: $(BINARY)
	tests/program.sh '$(BINARY)'
	tests/family.sh '$(BINARY)'
	tests/notes.sh '$(BINARY)'
	tests/packaging.sh '$(BINARY)'
	tests/recipes.sh '$(BINARY)'
	tests/shares.sh '$(BINARY)'
	tests/packed.sh '$(BINARY)'
	python3 tests/rows.py '$(BINARY)'
	python3 tests/fronts.py '$(BINARY)'
	python3 tests/history.py '$(BINARY)'
	python3 tests/attributes.py '$(BINARY)'
	python3 tests/json.py '$(BINARY)'
	python3 tests/choices.py '$(BINARY)'
	tests/build.sh
	python3 tools/model_index.py --check
	python3 tools/options.py --check
	python3 tools/names.py --check
	tests/pages.sh

# The trial build works, what it makes passes the recipes, and is neither installed nor packed.
quick-check: $(QUICK)
	tests/quick.sh $(QUICK)
	tests/recipes.sh $(QUICK)

# The Python package, on pandas and Dask, and the examples of its page.
python-check: $(BINARY)
	tests/python.sh '$(BINARY)'

# The page of what happened to a prefix in the dumps of examples/: one of their records is damaged, which is status 1.
PYTHON ?= /usr/bin/python3
page: $(BINARY)
	@mkdir -p bin; BGP_REPLAY='$(abspath $(BINARY))' PYTHONPATH=python PYTHONDONTWRITEBYTECODE=1 '$(PYTHON)' -m bgp_replay page \
	  --prefix 17.150.214.0/24+ examples/sample.mrt examples/updates.mrt -o bin/page.html || [ $$? = 1 ]
	@echo 'bin/page.html: open it in any browser'

# Each allocation, read, write and thread start of whole runs fails in turn, on the program as it is built.
refusals: $(BINARY)
	tests/refused_growths.sh '$(BINARY)'

# The wrong bodies that the gate doesn't try.
edits:
	tests/edits.sh

# Each allocation fails in turn, in the tests that state what a failed one leaves. The tests are proved and built first.
growths:
	for crate in prefix_tests update_tests record_tests table_tests lane_tests replay_tests; do (cd crates/$$crate && rt test) || exit 1; done
	tests/growths.sh

# Drawn calls of the prefix maps. The two crates are proved first, if they aren't yet.
maps:
	for crate in bgp_prefix chunked_map; do (cd crates/$$crate && rt check) || exit 1; done
	tests/maps.sh

same: $(BINARY)
	tests/same_bytes.sh '$(BINARY)'

fuzz: $(BINARY)
	tests/fuzz.sh '$(BINARY)' $(FILES)
	FAMILY=ipv6 tests/fuzz.sh '$(BINARY)' $(FILES)

# Files that zlib packs, whole and damaged, beside what zlib reads of them.
gzip-drawn: $(BINARY)
	python3 tests/gzip_drawn.py '$(BINARY)' $(FILES)

hostile: $(BINARY)
	tests/hostile.sh '$(BINARY)'

bench: $(PROGRAM)
	bench/run.sh $(PROGRAM)

clean:
	rm -rf bin dist bench/out crates/*/out

.PHONY: all help quick run check verdict quick-check python-check page edits install uninstall dist deb python-deb scripts refusals growths maps same fuzz gzip-drawn hostile bench clean
.PHONY: proved
