# rt is the command of the Rattle kit that the README names.
RT ?= rt
PROGRAM := crates/idn2/out/idn2
# Says that the program is proved as its sources stood: it has the time at which the proof began.
PROVED := out/proved
SOURCES := crates.txt crates/*/src crates/*/specs crates/*/proofs
PREFIX ?= /usr/local
# The name under which the program is installed. libidn2 has a program of the name idn2, too.
PROGRAM_NAME := idn2
# The version at the top of the changes. A test compares it with the program's.
VERSION := $(shell sed -n 's/^## //p' CHANGELOG.md | head -n 1)
# Where the archive goes.
DIST ?= dist
# As many crates side by side as there are processors, and 3 GB of free memory for each.
LANES ?= $(shell awk -v processors="$$(nproc)" '/MemAvailable/ { lanes = int($$2 / 3000000) } \
    END { print (lanes < 1 ? 1 : lanes < processors ? lanes : processors) }' /proc/meminfo)
# Whether the program is there, and nothing has changed since its proof began.
PROGRAM_IS_PROVED = test -x $(PROGRAM) && changed=$$(find $(SOURCES) -cnewer $(PROVED) 2> /dev/null) && test -z "$$changed"

.PHONY: all run test packages test-crate wrong-bodies install program-name dist check-tables bench conformance evaluator fuzz \
    class-table changed-answers clean

# Proves every function, and builds and tries the program: all of it, with the laws, as the gate does, and what passed is kept on
# the machine for the gate and for later runs. One job for each crate: a second one for the same crate takes a third more processor
# time, and saves a tenth by the clock.
all:
	@$(PROGRAM_IS_PROVED) || { mkdir -p $(dir $(PROVED)) && touch $(PROVED).begun && \
	    RT_JOBS=$(LANES) $(RT) ci && mv $(PROVED).begun $(PROVED); }

# The main job, the variants of a label under a table, in about a minute: by the program, if nothing has changed since its
# proof began, else by a build without any proof, which isn't kept.
run:
	@echo 'idn2 --variants tables/german.txt strasse'
	@if $(PROGRAM_IS_PROVED); then \
	    $(PROGRAM) --variants tables/german.txt strasse && echo proved; \
	else \
	    echo 'builds without a proof, for about a minute' >&2; \
	    (cd crates/idn2 && $(RT) try -- --variants '$(CURDIR)/tables/german.txt' strasse) && \
	        echo 'not proved yet: make proves it, in an hour'; \
	fi

# The gate: proves everything from nothing, tries the mutants, runs the programs and the tests.
test:
	RT=$(RT) LANES=$(LANES) tests/gate

# The Debian packages that tests use; without one of them the gate names what it skipped.
packages:
	apt-get update && DEBIAN_FRONTEND=noninteractive apt-get install -y --no-upgrade --no-install-recommends \
	    $$(sed 's/#.*//' tests/packages.txt)

# One crate while you work on it: proves what changed in it, tries its mutants, and runs the tests of what is called
# from outside, without proving these: make test-crate CRATE=idn_label
test-crate:
	@test -d 'crates/$(CRATE)/src' || { echo 'CRATE names no folder of crates/: make test-crate CRATE=idn_label' >&2; exit 2; }
	python3 tests/edits.py
	python3 tests/layers.py
	python3 tests/words.py
	cd crates/$(CRATE) && $(RT) check
	[ ! -d crates/$(CRATE)/must-fail ] || $(RT) must-fail $(CRATE)
	[ ! -d crates/$(CRATE)/planted ] || RT=$(RT) IS_PROVED=1 python3 tests/planted.py planted $(CRATE)
	for rows in label_rows table_rows idn2_rows; do (cd crates/$$rows && $(RT) try --test) || exit 1; done

# The mutants that the gate leaves out, of all crates or of those that CRATES names.
wrong-bodies: all
	RT=$(RT) LANES=$(LANES) IS_PROVED=1 python3 tests/planted.py wrong-bodies $(CRATES)

# The program, its manual page, its completions for bash, zsh and fish, and its tables, below $(DESTDIR)$(PREFIX), each under
# PROGRAM_NAME. And idn2-registry, one file that Python runs, with its page, its completions and its units for systemd.
BIN = $(DESTDIR)$(PREFIX)/bin/$(PROGRAM_NAME)
SHARE = $(DESTDIR)$(PREFIX)/share
PAGE = $(SHARE)/man/man1/$(PROGRAM_NAME).1
# Where the unit finds the program.
UNIT_PREFIX = $(abspath $(PREFIX))
FOR_BASH = $(SHARE)/bash-completion/completions/$(PROGRAM_NAME)
FOR_ZSH = $(SHARE)/zsh/site-functions/_$(PROGRAM_NAME)
FOR_FISH = $(SHARE)/fish/vendor_completions.d/$(PROGRAM_NAME).fish
install: program-name all
	install -D -m 755 $(PROGRAM) $(BIN)
	install -D -m 644 docs/idn2.1 $(PAGE)
	install -D -m 644 completions/idn2.bash $(FOR_BASH)
	install -D -m 644 completions/idn2.zsh $(FOR_ZSH)
	install -D -m 644 completions/idn2.fish $(FOR_FISH)
	find tables -name '*.txt' | xargs -I % install -D -m 644 % $(SHARE)/$(PROGRAM_NAME)/%
	sed -i $(IN_PAGE) $(PAGE)
	python3 registry/pack.py $(PROGRAM_NAME) $(DESTDIR)$(PREFIX)/bin/idn2-registry
	install -D -m 644 docs/idn2-registry.1 $(SHARE)/man/man1/idn2-registry.1
	install -D -m 644 completions/idn2-registry.bash $(SHARE)/bash-completion/completions/idn2-registry
	install -D -m 644 completions/idn2-registry.zsh $(SHARE)/zsh/site-functions/_idn2-registry
	install -D -m 644 completions/idn2-registry.fish $(SHARE)/fish/vendor_completions.d/idn2-registry.fish
	install -D -m 644 -t $(DESTDIR)$(PREFIX)/lib/systemd/system registry/systemd/idn2-registry.service registry/systemd/idn2-registry.socket
	sed -i -e 's|=/usr/local/bin/|=$(UNIT_PREFIX)/bin/|' $(DESTDIR)$(PREFIX)/lib/systemd/system/idn2-registry.service
	sed -i -e 's/^\(complete .*\) idn2$$/\1 $(PROGRAM_NAME)/' $(FOR_BASH)
	sed -i -e 's/^#compdef idn2$$/#compdef $(PROGRAM_NAME)/' $(FOR_ZSH)
	sed -i -e 's/^\( *complete -c\) idn2 /\1 $(PROGRAM_NAME) /' $(FOR_FISH)

# Where the manual page names the command: its title, its name, what begins with the command in bold, its tables, and
# examples. Messages begin with 'idn2: ' under each name.
ROFF_NAME = $(subst -,\\-,$(PROGRAM_NAME))
IN_PAGE = -e 's/^\.TH IDN2 /.TH \U$(ROFF_NAME)\E /' -e 's/^idn2 \\- /$(ROFF_NAME) \\- /' \
    -e 's/^\.B idn2\( \|$$\)/.B $(ROFF_NAME)\1/' -e 's|^\.I share/idn2/|.I share/$(ROFF_NAME)/|' \
    -e 's/^\(\$$\|.* |\) idn2 /\1 $(ROFF_NAME) /'

program-name:
	@echo '$(PROGRAM_NAME)' | grep -Eqx '[A-Za-z0-9][A-Za-z0-9._+-]*' || { echo 'PROGRAM_NAME is no file name' >&2; exit 2; }
	@test '$(PROGRAM_NAME)' != idn2-registry || { echo 'PROGRAM_NAME is the name of another program' >&2; exit 2; }

# One archive for servers without the kit: what is installed, the tables and their scripts, what an engineer reads, and
# check sums. Each path that these documents name is in it.
PACKED := idn2-$(VERSION)
# The version of the C library that the README names.
C_LIBRARY = $(shell sed -n 's/.*GNU C library, version \([0-9.]*\) or later.*/\1/p' README.md)
dist:
	rm -rf $(DIST)/$(PACKED)
	$(MAKE) --no-print-directory install DESTDIR= PREFIX=$(abspath $(DIST))/$(PACKED) UNIT_PREFIX=/usr/local
	@grep -ao 'GLIBC_[0-9][0-9.]*' $(PROGRAM) | sort -uV | tail -n 1 | grep -Fqx 'GLIBC_$(C_LIBRARY)' || \
	    { echo 'the program needs another C library than the README says: objdump -T $(PROGRAM)' >&2; exit 1; }
	find tables -name '*.txt' -o -name '*.py' | xargs -I % install -D -m 644 % $(DIST)/$(PACKED)/%
	install -D -m 644 -t $(DIST)/$(PACKED)/docs docs/GUIDE.md docs/LIBIDN2.md docs/JSON.md docs/answers.schema.json docs/NOTATION.md \
	    docs/PROFILE.md docs/GLOSSARY.md docs/idn2.1 docs/idn2-registry.1
	install -D -m 644 -t $(DIST)/$(PACKED)/docs/pictures docs/pictures/*.png
	install -m 644 -t $(DIST)/$(PACKED) CHANGELOG.md $(wildcard LICENSE* LICENCE* COPYING*)
	cd $(DIST)/$(PACKED) && find . -type f ! -name SHA256SUMS -printf '%P\n' | LC_ALL=C sort | xargs sha256sum > SHA256SUMS
	cd $(DIST) && tar --sort=name --mtime=@0 --owner=0 --group=0 --numeric-owner -cf - $(PACKED) | gzip -n > $(PACKED).tar.gz
	cd $(DIST) && sha256sum $(PACKED).tar.gz > $(PACKED).tar.gz.sha256
	rm -rf $(DIST)/$(PACKED)

# The gaps of the example tables and rulesets: none.
check-tables: all
	for table in tables/*.txt; do $(PROGRAM) --check-table $$table || exit 1; done
	for ruleset in tables/rulesets/*.txt; do $(PROGRAM) --check-ruleset $$ruleset || exit 1; done

# Times the program against libidn2's, and prints one table of ratios. Then what a million registered labels take, and
# what one of what a limit bounds takes at worst, what idn2-registry and its service take, and how XML is read.
bench: all
	python3 bench/bench.py
	python3 bench/collisions.py
	python3 bench/limits.py
	python3 bench/rulesets.py
	python3 bench/registry.py
	python3 bench/service.py
	python3 bench/xml.py

# Compares the program with libidn2, with a reference implementation of the rules and of the table notation, with Unicode's
# IDNA test file where IDNA_TEST_FILE names it, and, as the reference implementation, with an evaluator of RFC 7940, also on
# rulesets in XML; documents of XML with Python's expat; and publishes six thousand tables and reads them back.
conformance: all
	python3 conformance/compare.py
	python3 conformance/worked_rows.py
	python3 conformance/beside_evaluator.py --jobs $(LANES)
	python3 conformance/xml_beside_evaluator.py --jobs $(LANES)
	python3 conformance/xml_beside_expat.py
	python3 conformance/check_tables.py
	python3 conformance/idna_test.py
	python3 conformance/both_ways.py
	python3 conformance/published.py --jobs $(LANES)

# Compares what the program lists under the rulesets of a folder, in XML, with the answers of another evaluator of RFC 7940, which
# the folder has in answers.txt: make evaluator RULESETS=FOLDER
evaluator: all
	@test -f '$(RULESETS)/answers.txt' || { echo 'RULESETS names no folder with answers.txt: make evaluator RULESETS=FOLDER' >&2; exit 2; }
	python3 conformance/evaluator_answers.py '$(RULESETS)'

# Compares the program with a reference implementation of its rules on random input, for so many seconds: make fuzz SECONDS=600
SECONDS := 60
fuzz: all
	python3 conformance/fuzz.py --seconds $(SECONDS)

# For a new version of Unicode (docs/UNICODE.md): the tables of idn_class from the kit's; and the labels that another
# program answers otherwise: make changed-answers OLD=PROGRAM [LABELS=FILE] [MODE=register|lookup|decode] [STANDARD=--standard]
class-table:
	cd crates/idn_class_table && $(RT) run > stdout && cp stdout ../idn_class/src/class_table.rt

MODE := register
changed-answers:
	python3 conformance/changed_answers.py --mode $(MODE) $(STANDARD) $(OLD) $(PROGRAM) $(LABELS)

clean:
	rm -rf crates/*/out out dist
