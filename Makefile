# The commands of README.md and docs/contributing.md; `make help` lists them. They need Bash, GNU make, Python 3 and the toolchain's `rt` on the path.

SHELL := bash
.SHELLFLAGS := -eu -o pipefail -c

PROGRAM := crates/cnsbook/out/cnsbook
PAGE := crates/cnspage/out/cnspage
DRIVER := crates/cns_cases/out/cns_cases
OPENING := 2024-06-03

# Where `install` puts the programs and their manual pages, and a folder before it, as packages want one.
PREFIX ?= /usr/local
DESTDIR ?=
BIN = $(DESTDIR)$(PREFIX)/bin
MAN = $(DESTDIR)$(PREFIX)/share/man/man1
MANUAL := docs/man/cnsbook.1 docs/man/cnspage.1

CHROMIUM := chromium

PAGES := pages
SAMPLES := day week actions buy-in merger

# The crates that the program stands on, lowest first, and the program: those of crates.txt above its tests.
BUILT := $(shell sed -n '/^\# tests alone/q; s/^\([a-z_]*\):.*/\1/p' crates.txt)

CRATES :=

CRATE := cnsbook

FUZZ := --seconds 600

.PHONY: help run try cases build install uninstall check contracts sample compare test fuzz trials times bench pages

help:
	@grep -E '^# [a-z]+:' Makefile | sed 's/^# //'

# run: answers a file of records without a proof, in about a minute, as FILE=examples/day.csv OPEN=2024-06-03
#
# Replies alone are on standard output. The kit's remarks on a run that ended are dropped; what the program wrote to standard
# error is passed on.
run:
	@say() { echo "make run: $$1" >&2; }; \
	    if [ -z "$${FILE:-}" ] || [ -z "$${OPEN:-}" ]; then \
	        say 'give FILE, the file of records, and OPEN, its first day: make run FILE=examples/day.csv OPEN=2024-06-03'; \
	        exit 2; \
	    elif [ ! -r "$$FILE" ] || [ -d "$$FILE" ]; then \
	        say "FILE cannot be read: $$FILE"; exit 2; \
	    elif [[ ! $$OPEN =~ ^[0-9]{4}-[0-9]{2}-[0-9]{2}$$ ]] || ! date -u -d "$$OPEN" > /dev/null 2>&1; then \
	        say "OPEN is not a date in the form YYYY-MM-DD: $$OPEN"; exit 2; \
	    elif ! command -v rt > /dev/null; then \
	        say "the kit's command rt is not on the path"; exit 2; \
	    fi; \
	    log=$$(mktemp); trap 'rm -f "$$log"' EXIT; \
	    say 'building without a proof, which takes a minute or two ...'; \
	    status=0; (cd crates/cnsbook && rt try -- replay --open "$$OPEN") < "$$FILE" 2> "$$log" || status=$$?; \
	    case $$(tail -n 1 "$$log") in \
	        'run=ended '*) \
	            grep -vE '^(interpreter|checked|races): |^run=' "$$log" >&2 || true; \
	            say 'nothing was proved; make build proves and builds the program'; \
	            [ "$$status" = 0 ] || say "the program ended with status $$status";; \
	        'run=no-answer '*) \
	            sed -n 's/^checked: no-answer: /make run: no reply was written: /p' "$$log" >&2; \
	            say 'make build makes the program, which has no such limit';; \
	        *) cat "$$log" >&2;; \
	    esac; \
	    exit "$$status"

# try: plays the samples without a proof, in a minute and a half
try:
	@room=$$(mktemp -d); trap 'rm -rf "$$room"' EXIT; \
	    for name in $(SAMPLES); do \
	        cp examples/$$name.csv "$$room/$$name"; \
	        cp examples/$$name.replies "$$room/$$name.stdout"; \
	    done; \
	    echo "building without a proof, which takes a minute or two ..."; \
	    (cd crates/cnsbook && rt try --cases "$$room" -- replay --open $(OPENING)); \
	    echo "samples agree: $(SAMPLES). Nothing was proved; make build proves and builds"

# cases: plays the case files over both forms of positions without a proof, in a minute or two
cases:
	@cd crates/cns_cases; python3 ../../tests/cases.py rt try --; echo "Nothing was proved"

# build: proves every crate that the program stands on, and builds the program
build:
	@echo "Proves $(words $(BUILT)) crates, lowest first, each on up to 4 processors in up to 8 GB of memory:"; \
	    echo "in minutes or seconds where this machine has kept the work, in an hour or less from nothing."; \
	    number=0; log=$$(mktemp); trap 'rm -f "$$log"' EXIT; \
	    for crate in $(BUILT); do \
	        number=$$((number + 1)); begun=$$SECONDS; \
	        printf '[%s/%s] %s ...' "$$number" $(words $(BUILT)) "$$crate"; \
	        case $$crate in \
	            cnsbook) verb='run -- replay --open $(OPENING)';; \
	            cnspage) verb='run -- --open $(OPENING)';; \
	            *) verb=lib;; \
	        esac; \
	        (cd "crates/$$crate" && rt $$verb) < examples/day.csv > "$$log" 2>&1 || { echo; cat "$$log"; exit 1; }; \
	        echo " proved in $$((SECONDS - begun)) s"; \
	    done

# install: puts the proved programs and their manual pages under PREFIX (/usr/local), below DESTDIR where that is given
install:
	@for program in $(PROGRAM) $(PAGE); do \
	        [ -x "$$program" ] || { echo "make install: $$program is not there; run make build first" >&2; exit 1; }; \
	    done; \
	    install -d "$(BIN)" "$(MAN)"; \
	    install -m 755 $(PROGRAM) $(PAGE) "$(BIN)"; \
	    install -m 644 $(MANUAL) "$(MAN)"

# uninstall: takes away what install put there, by the same PREFIX and DESTDIR
uninstall:
	@rm -f "$(BIN)/cnsbook" "$(BIN)/cnspage" "$(MAN)/cnsbook.1" "$(MAN)/cnspage.1"

# check: proves one crate and those below it, as CRATE=cns_prices
check:
	@cd crates/$(CRATE) && rt check

# contracts: prints the public calls of a crate with their clauses, as CRATE=cns_prices
contracts:
	@python3 tests/contracts.py $(CRATE)

# sample: builds the program and replays the samples
sample: build compare

# compare: replays the samples with the program as it stands, and compares its replies with those kept beside them
compare:
	@for name in $(SAMPLES); do \
	    $(PROGRAM) replay --open $(OPENING) < examples/$$name.csv | diff examples/$$name.replies -; \
	done
	@echo "samples passed: $(SAMPLES)"

# test: the gate, then the programs by all scripts of tests, and the other commands; tells where the gate's processor time went
#
# What `build` proves and `times` runs is the gate itself, so the first is run for three crates alone, and the second is not.
# A command that builds takes the programs that the gate left.
test:
	@python3 tests/lemmas.py; \
	    python3 tests/times.py env RT_JOBS="$$(nproc)" rt ci; \
	    python3 tests/cases.py $(DRIVER); \
	    bash tests/pipe.sh $(PROGRAM); \
	    bash tests/status.sh $(PROGRAM); \
	    bash tests/refused.sh $(PROGRAM) $(DRIVER); \
	    bash tests/bytes.sh $(PROGRAM); \
	    bash tests/stack.sh $(PROGRAM); \
	    python3 tests/large.py $(PROGRAM) $(PAGE); \
	    bash tests/quoted.sh $(PROGRAM); \
	    python3 tests/ends.py $(PROGRAM) $(PAGE); \
	    python3 tests/fuzz.py --model; \
	    bash tests/page.sh $(PAGE); \
	    bash tests/folder.sh $(PAGE); \
	    bash tests/install.sh; \
	    bash tests/run.sh; \
	    python3 tests/trials.py --apply; \
	    python3 tests/documents.py $(PROGRAM) $(PAGE); \
	    $(MAKE) --no-print-directory -o build sample fuzz bench FUZZ="--seeds 1 320 --reach"; \
	    $(MAKE) --no-print-directory help > /dev/null; \
	    $(MAKE) --no-print-directory contracts CRATE="cns_prices cns_book" > /dev/null; \
	    $(MAKE) --no-print-directory check CRATE=cns_prices > /dev/null; \
	    $(MAKE) --no-print-directory build BUILT="cns_units cns_terms cns_prices"; \
	    $(MAKE) --no-print-directory trials CRATES=cns_prices; \
	    $(MAKE) --no-print-directory try; \
	    echo "the gate passed in $$((SECONDS / 60)) minutes; the line 'rt: ok' above says what it took from kept work"

# fuzz: random, directed and mutated streams of records, by the program as it is built and by a recomputation, for ten minutes
fuzz: build
	@python3 tests/fuzz.py $(PROGRAM) $(PAGE) $(FUZZ)

# trials: the further edits of each crate that the check must refuse; CRATES="cns_tree cns_feed" tries those of some crates
trials:
	@python3 tests/trials.py $(CRATES)

# times: the gate from nothing, and the processor minutes of each crate and part. A kit without the flag keeps no work.
times:
	@anew=$$(rt help 2>&1 | grep -o -m 1 -e --anew || true); \
	    python3 tests/times.py --csv bench/gate.csv env RT_JOBS="$$(nproc)" rt ci $$anew

# bench: records a second and bytes of memory a command, at 10^4, 10^5 and 10^6 records; milliseconds of single operations
bench: build
	@python3 bench/bench.py $(PROGRAM); python3 bench/operations.py $(PROGRAM)

# pages: draws a day, an account's day and a history of examples/week.csv by the built cnspage and Chromium, at 1280 and at 400
# pixels and on paper, into the folder PAGES=pages, and the picture of README.md anew
pages:
	@[ -x $(PAGE) ] || { echo "make pages: $(PAGE) is not there; run make build first" >&2; exit 1; }; \
	    mkdir -p $(PAGES); room=$$(mktemp -d); trap 'rm -rf "$$room"' EXIT; \
	    sandbox=; [ "$$(id -u)" != 0 ] || sandbox=--no-sandbox; \
	    draw() { $(CHROMIUM) --headless $$sandbox --disable-gpu --hide-scrollbars --user-data-dir="$$room/profile" "$$@" \
	        2> "$$room/log" || { cat "$$room/log" >&2; exit 1; }; }; \
	    while read -r name words; do \
	        page="$$(realpath $(PAGES))/$$name"; \
	        $(PAGE) --open $(OPENING) $$words < examples/week.csv > "$$page.html"; \
	        for width in 1280 400; do \
	            draw --window-size=$$width,1117 --screenshot="$$page-$$width.png" "file://$$page.html" < /dev/null; \
	        done; \
	        draw --no-pdf-header-footer --print-to-pdf="$$page.pdf" "file://$$page.html" < /dev/null; \
	    done <<< $$'day --day 2024-06-05\naccount --day 2024-06-04 --account 202\nhistory --account 303 --issue 594918104'; \
	    cp $(PAGES)/day-1280.png docs/day.png
