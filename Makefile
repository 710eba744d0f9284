# ksparse needs the Rattle kit: its command `rt` on the PATH, or said as RT=/path/to/rt.
RT ?= rt
PREFIX ?= /usr/local
PYTHON ?= python3
export PYTHONDONTWRITEBYTECODE = 1

PROGRAM := build/ksparse
WORKBENCH := build/workbench
FLOWS := build/flows
# Names with spaces, which a program's own run reads, are none for make.
SOURCES := $(shell find crates crates.txt HANDLES -name out -prune -o -type f ! -name '* *' -print)

.PHONY: all run test edits believe names docs costs bench bench-parsing fuzz rows forms compare headers shimmed drivers smoke install clean kit

all: $(PROGRAM)

kit:
	@command -v $(RT) >/dev/null 2>&1 || { \
	  echo "make: no command '$(RT)': put the folder bin of the Rattle kit on the PATH, or say make RT=/path/to/rt" >&2; \
	  exit 1; }

# Only a proved program is built, so this proves each crate that it stands on first.
$(PROGRAM): $(SOURCES) | kit
	$(PYTHON) scripts/build.py $(RT) ksparse_cli /dev/null
	mkdir -p build
	cp crates/ksparse_cli/out/ksparse_cli $@

# Calls that no command makes yet, for bench alone.
$(WORKBENCH): $(SOURCES) | kit
	$(PYTHON) scripts/build.py $(RT) workbench_cli if_value /dev/null
	mkdir -p build
	cp crates/workbench_cli/out/workbench_cli $@

# The walk over control flow graphs, which no command makes yet: build/flows FILE
$(FLOWS): $(SOURCES) | kit
	$(PYTHON) scripts/build.py $(RT) flows /dev/null
	mkdir -p build
	cp crates/flows/out/flows $@

# The types of a file's expressions, for developers: build/types FILE
build/types: $(SOURCES) | kit
	$(PYTHON) scripts/build.py $(RT) expression_types_cli /dev/null
	mkdir -p build
	cp crates/expression_types_cli/out/expression_types_cli $@

# The flows of a file's functions, for developers: build/lowered FILE
build/lowered: $(SOURCES) | kit
	$(PYTHON) scripts/build.py $(RT) lowered_cli /dev/null
	mkdir -p build
	cp crates/lowered_cli/out/lowered_cli $@

# How a file is read, for developers: build/trees FILE
build/trees: $(SOURCES) | kit
	$(PYTHON) scripts/build.py $(RT) trees_cli /dev/null
	mkdir -p build
	cp crates/trees_cli/out/trees_cli $@

# The example has a warning, so the status of the check is 1.
run: $(PROGRAM)
	cd examples && ../$(PROGRAM) user_pointer.c; test $$? -eq 1

# The gate, a plain rt ci; then the docs, and uses of the programs that it built.
test: | kit
	@$(PYTHON) scripts/gate.py $(RT)

# The wrong programs that the gate doesn't try, of one crate or of all: make edits CRATE=NAME
edits: | kit
	$(PYTHON) scripts/edits.py $(RT) $(CRATE)

# What the clauses of the top call rest on, or one of them: make believe CLAUSE=NAME
believe:
	@$(PYTHON) scripts/believe.py $(CLAUSE)

names:
	@$(PYTHON) scripts/names.py

# Rows of the grammar that no fixture and no case chooses
forms:
	@$(PYTHON) scripts/unchosen_rows.py

docs:
	@$(PYTHON) scripts/docs.py

# What each crate costs the gate, and what is above its budget. Nothing that an earlier run proved is used.
costs: | kit
	$(PYTHON) scripts/costs.py $(RT)

# All, or the calls of some families: make bench FAMILIES=macros
bench: $(PROGRAM) $(WORKBENCH) $(FLOWS)
	$(PYTHON) scripts/bench.py $(PROGRAM) $(WORKBENCH) $(FLOWS) $(FAMILIES)

# The families of parsing and of judging at four sizes, as rows of a table.
bench-parsing: $(PROGRAM)
	$(PYTHON) scripts/bench_parsing.py $(PROGRAM)

fuzz: $(PROGRAM) $(WORKBENCH) $(FLOWS) build/trees build/types
	$(PYTHON) scripts/fuzz.py $(PROGRAM) $(WORKBENCH) $(FLOWS) build/trees build/types

# Worked rows over what fuzz compares the programs with.
PREPROCESSED := aggregates_assertions aggregates_attributes aggregates_enumerators aggregates_initializers aggregates_members aggregates_tags aggregates_typeof an_include_directory attributes_of_all_names attributes_refused checks_through_macros checks_through_macros_of_headers command_lines declarations_bodies declarations_in_blocks declarations_members declarations_name_classes declarations_nested_functions declarations_parameters declarations_redeclared declarations_specifiers declarations_type_names expansion_arguments expansion_changing_names expansion_hidden_names expansion_limits expansion_of_kernel_macros expansion_pasting expansion_strings expressions_casts expressions_literals expressions_names expressions_of_all_levels expressions_refused header_names include_limits include_limits_of_headers includes kernel_headers keywords option_words order_at_one_token parsed_names parsed_units parsing_limits preprocessed_text preprocessed_text_of_headers statements_and_labels statements_and_scopes statements_that_are_parsed statements_of_all_kinds statements_of_contexts statements_refused syntax_errors undefined_names undefined_names_of_headers unsupported_forms unsupported_words whole_files

rows:
	$(PYTHON) scripts/preprocessing_rows.py $$(grep -lE '^[$$] (workbench|trees)' crates/cases/data/*.txt) $(PREPROCESSED:%=crates/cases/data/%.txt)
	$(PYTHON) scripts/control_paths.py
	$(PYTHON) scripts/judged_rows.py crates/fixtures/data crates/cases/data/judged_*.txt crates/cases/data/contexts_*.txt crates/cases/data/types_of_*.txt

# What gcc says of expressions, and of structures and unions, beside the committed examples; and the memory that it makes of initializers.
compare:
	$(PYTHON) scripts/constants.py
	$(PYTHON) scripts/layouts.py
	$(PYTHON) scripts/initializers.py $(PROGRAM)

# Files of a kernel tree, preprocessed by the program and by the compiler: make headers LINUX=/path/to/a/tree FILES="lib/ctype.c"
headers: $(PROGRAM)
	$(PYTHON) scripts/headers.py $(PROGRAM) $(LINUX) $(FILES)

# Files of a kernel tree, checked through the shim of examples/: make shimmed LINUX=/path/to/a/tree, and FILES="lib/sort.c" for others than its own
shimmed: $(PROGRAM)
	$(PYTHON) scripts/through_shim.py $(PROGRAM) $(LINUX) $(FILES)

# The drivers of examples/, through their shim.
drivers: $(PROGRAM)
	$(PYTHON) scripts/drivers.py $(PROGRAM)

smoke: $(PROGRAM) $(FLOWS) $(WORKBENCH)
	$(PYTHON) scripts/smoke.py $(PROGRAM)
	$(PYTHON) scripts/smoke_cc.py $(PROGRAM)
	$(PYTHON) scripts/smoke_large.py $(FLOWS) $(WORKBENCH) $(PROGRAM)

install: $(PROGRAM)
	install -D -m 755 $(PROGRAM) $(DESTDIR)$(PREFIX)/bin/ksparse
	install -D -m 755 bin/ksparse-cc $(DESTDIR)$(PREFIX)/bin/ksparse-cc
	install -D -m 644 man/ksparse.1 $(DESTDIR)$(PREFIX)/share/man/man1/ksparse.1
	install -D -m 644 man/ksparse-cc.1 $(DESTDIR)$(PREFIX)/share/man/man1/ksparse-cc.1

clean:
	rm -rf build crates/*/out
