# `make help` lists what there is.
SCRIPT ?= examples/first_run.jsonl
PREFIX ?= /usr/local

.PHONY: help run program install test lint

help:
	@echo 'make run [SCRIPT=FILE]     runs a script; without a proved program it builds one unproved, in a minute or so'
	@echo 'make program               proves and builds the program to deploy, crates/ebl_cli/out/ebl_cli'
	@echo 'make install [PREFIX=DIR]  proves and builds it, and puts it at DIR/bin/ebl (DIR is $(PREFIX) otherwise)'
	@echo 'make test                  the gate: every proof, every edit that must fail, every test, the program'\''s runs'
	@echo 'make lint                  what the prover does not see: names in pages, heads of files, widths'
	@echo
	@echo 'tools/ebl WORD             runs the program with a word of its own (drive, canon, rehearse, --help, ..), and'
	@echo '                           ends with its exit; make ends with 2 whenever that is not 0'

run:
	@tools/ebl drive < "$(SCRIPT)"

program:
	@tools/make_program.py

install: program
	@mkdir -p "$(DESTDIR)$(PREFIX)/bin"
	@install -m 755 crates/ebl_cli/out/ebl_cli "$(DESTDIR)$(PREFIX)/bin/ebl"
	@echo "installed: $(DESTDIR)$(PREFIX)/bin/ebl"

# What the prover doesn't see, the gate, and then the program's examples, exits and random scripts, and threads.
test:
	@PYTHONPATH=tools python3 -c 'import program; program.need_toolchain()'
	@tools/lint.py
	rt ci
	@test -x crates/ebl_cli/out/ebl_cli || tools/make_program.py
	python3 tools/check_program.py
	python3 tools/random_scripts.py
	python3 tools/check_offices.py

lint:
	@tools/lint.py
