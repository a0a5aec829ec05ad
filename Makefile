# The commands: run, test, bench, and the parts that the gate is made of.
LIB = target/staticlib/libbanthewig.a
# The crates that the archive is proved over, without the kit's own, and itself.
PROVED := $(notdir $(wildcard $(addprefix crates/,$(shell sed -n 's/^banthewig\( [^:]*\)\{0,1\}: *//p' crates.txt) banthewig)))
SOURCES := crates.txt $(shell find crates -name out -prune -o \( -name '*.rt' -o -name '*.antt' \) -print)
OUT = target/extra
# The gate gives WERROR=-Werror: elsewhere a newer compiler's warnings stop nothing.
WERROR =
CFLAGS = -std=c11 -O2 -Wall -Wextra -pedantic $(WERROR) -Iinclude
# make's own default is g++
ifeq ($(origin CXX),default)
CXX = c++
endif

# The controller's core, by the name that compilers have for it: controller/build lists them.
CPU = cortex-m4
MODULE = target/controller/module.ll

.PHONY: run test bench archive model tester example firmware header controller controller-test

# Runs the C host on a bundled program and log.
run: $(OUT)/host
	@echo "The host plays the firmware: it runs a program, makes a log's swaps in it, steps the result and lists the panel."
	@echo "Refusals below 'now calls that must be refused' are meant to happen."
	$(OUT)/host examples/samples/p.prg examples/samples/p.log

# The gate. It gives WERROR itself.
test:
	.ci/run

# On x86-64, and on the M4 where QEMU and its compiler are there.
bench: archive
	sh bench/run
	@missing=$$(controller/test needs); if [ -n "$$missing" ]; then \
		echo "bench: nothing is counted on the M4: missing" $$missing; \
	else $(MAKE) --no-print-directory controller CPU=cortex-m4 && sh bench/run_controller; fi

# Proves the entries over the proved crates, writes the archive, for every x86-64 processor, and copies it to its place.
archive:
	@mkdir -p $(OUT) $(dir $(LIB))
	@(cd crates/banthewig && rt lib --cpu x86-64) >$(OUT)/staticlib.log 2>&1 || { cat $(OUT)/staticlib.log; exit 1; }
	@cp crates/banthewig/out/libbanthewig.a $(LIB)

$(LIB): $(SOURCES)
	@echo "Proving the library's $(words $(PROVED)) crates ($(PROVED)) and writing $(LIB):"
	@echo "some minutes, with nothing to see meanwhile. Once it is built, this is not done again."
	@$(MAKE) --no-print-directory archive

# The library for the controller: the module of the proved archive, kept and shown to be it, is converted and compiled.
controller: $(MODULE)
	@controller/build archive $(CPU)

$(MODULE): $(LIB)
	@echo "Keeping the module of $(LIB) (under a minute):"
	@controller/build module

# That library in QEMU, against the x86-64 one and against the tester's rules. Needs what `controller/test needs` names.
controller-test: $(MODULE)
	controller/test build && controller/test cases && controller/test wrong && controller/test examples && \
		controller/test replay && controller/test wrong-replay && controller/test firmware

# The library against the Rust model. The model is a crate of its own, so that it cannot name the comparison.
model: $(LIB)
	@mkdir -p $(OUT)
	rustc --edition 2021 -O -D warnings --crate-type rlib --crate-name model -o $(OUT)/libmodel.rlib model/machine/lib.rs
	rustc --edition 2021 -O -D warnings -o $(OUT)/model model/compare/main.rs --extern model=$(OUT)/libmodel.rlib \
		-L native=target/staticlib -l static=banthewig
	$(OUT)/model

# The tester: its rules are a crate of their own, so that they cannot name the comparison. It loads shared libraries: the proved
# archive's objects, plain C as a second reading, faulty archives.
RUST = rustc --edition 2021 -O -D warnings
SHARED = $(CC) -shared -fPIC

$(OUT)/librules.rlib: $(wildcard tester/rules/*.rs)
	@mkdir -p $(OUT)
	$(RUST) --crate-type rlib --crate-name rules -o $@ tester/rules/lib.rs

$(OUT)/tester: $(wildcard tester/compare/*.rs) $(OUT)/librules.rlib
	$(RUST) -o $@ tester/compare/main.rs --extern rules=$(OUT)/librules.rlib

$(OUT)/libbanthewig.so: $(LIB)
	@mkdir -p $(OUT)
	$(SHARED) -o $@ -Wl,--whole-archive $(LIB) -Wl,--no-whole-archive

$(OUT)/libplain.so: $(wildcard tester/plain/*) include/banthewig.h
	@mkdir -p $(OUT)
	$(SHARED) -std=c11 -O2 -Iinclude -Itester/plain -o $@ tester/plain/plain*.c

$(OUT)/rows.txt: tools/cases tools/cases.txt tools/lines.py
	@mkdir -p $(OUT)
	tools/cases --rows $@

# The library and plain C against the tester's rules, then every fault that must be noticed.
tester: $(OUT)/tester $(OUT)/libbanthewig.so $(OUT)/libplain.so $(OUT)/rows.txt
	tools/notice

$(OUT)/%: examples/%.c include/banthewig.h include/banthewig_words.h $(LIB)
	@mkdir -p $(OUT)
	$(CC) $(CFLAGS) -o $@ $< $(LIB)

# The headers, in C and C++: alone, edits of them that must be refused, and linked with the archive.
header: $(LIB)
	CC="$(CC)" CXX="$(CXX)" LIB="$(LIB)" tools/header

# README's program is examples/first.c (blank lines aside); the C examples on every sample against what they must print.
example: $(OUT)/first $(OUT)/knitrun $(OUT)/knitswap $(OUT)/host header
	awk '/^## / { on = /first C program/ } on && sub(/^    /, "") && !/^cc /' README.md >$(OUT)/readme.c
	grep . examples/first.c | diff - $(OUT)/readme.c
	$(OUT)/first | diff examples/expected/first.out -
	LC_ALL=C; for f in examples/samples/*.prg examples/samples/none.prg; do $(OUT)/knitrun $$f; done >$(OUT)/knitrun.out
	diff examples/expected/knitrun.out $(OUT)/knitrun.out
	for f in none p past tied torn; do $(OUT)/knitswap examples/samples/p.prg examples/samples/$$f.log; done >$(OUT)/knitswap.out
	diff examples/expected/knitswap.out $(OUT)/knitswap.out
	while read p l n; do $(OUT)/host $$p $$l $$n; echo "exit $$?"; done <examples/expected/host.runs >$(OUT)/host.out
	diff examples/expected/host.out $(OUT)/host.out

# The calls as firmware makes them, against what they must print. A line 'firmware ..' of firmware.out is a run.
firmware: $(OUT)/firmware
	sed -n 's/^firmware //p' examples/expected/firmware.out | while read -r words; do \
		echo "firmware $$words"; $(OUT)/firmware $$words; echo "exit $$?"; done >$(OUT)/firmware.out
	diff examples/expected/firmware.out $(OUT)/firmware.out
