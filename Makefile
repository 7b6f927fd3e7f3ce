# make run FOLDER=examples/hello   builds what is missing, and runs the folder's scripts
# make check FOLDER=examples/hello builds what is missing, and says of each script whether it reads
# make test                        the gate: proves every crate, runs the tests and the programs
FOLDER ?= examples/hello
PROGRAM := crates/skynet_run/out/skynet_run
TOOLS := crates/skynet_tools/out/skynet_tools
SOURCES := $(shell find crates \( -path '*/out' -o -path '*/must-fail' \) -prune -o -type f ! -name README.md -print) crates.txt

run: $(PROGRAM)
	@$(PROGRAM) $(FOLDER)

check: $(TOOLS)
	@$(TOOLS) check $(FOLDER)

$(PROGRAM) $(TOOLS): $(SOURCES)
	@scripts/build $(notdir $@)

test:
	@rt ci

.PHONY: run check test
