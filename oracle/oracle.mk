# The Rust as oracle: built with rustc alone, compared with the C library. See oracle/README.md.

RUSTC ?= rustc
ORACLE ?= target/oracle
ORACLE_SRC ?= oracle
CALLS ?= 100000
WINDOWS ?= 100000
SEED ?= 1

ORACLE_OPT ?= 3
RUST = MAKEFLAGS= $(RUSTC) --edition 2021 -C opt-level=$(ORACLE_OPT) -C codegen-units=1 -L $(ORACLE)
RLIB = $(RUST) -C overflow-checks=on --crate-type rlib --out-dir $(ORACLE)
SHIMS = critical_section embassy_time embassy_sync embassy_futures embedded_hal embedded_hal_async embassy_hal_internal
SHIM_LIBS = $(SHIMS:%=$(ORACLE)/lib%.rlib)
CHIP_LIBS = $(ORACLE)/libchip0.rlib $(ORACLE)/libchip1.rlib $(ORACLE)/libchip2.rlib $(ORACLE)/libchip3.rlib
EXTERNS = $(foreach crate,record $(SHIMS),--extern $(crate)=$(ORACLE)/lib$(crate).rlib)
REORDERED_LIBS = $(ORACLE)/libreordered2.rlib $(ORACLE)/libreordered3.rlib
CHIPS = $(foreach crate,chip0 chip1 chip2 chip3 reordered2 reordered3,--extern $(crate)=$(ORACLE)/lib$(crate).rlib)
CARRIED = $(wildcard $(ORACLE_SRC)/carried/src/*.rs $(ORACLE_SRC)/carried/src/i2c/*.rs)
HAL = $(wildcard $(ORACLE_SRC)/hal/*.rs) $(CARRIED)
UNFAULTED = $(wildcard oracle/hal/*.rs oracle/carried/src/*.rs oracle/carried/src/i2c/*.rs)
PROGRAM = $(wildcard oracle/program/*.rs)

FLAGS_0 =
FLAGS_1 = --cfg i2c_v3
FLAGS_2 = --cfg ch32v4
FLAGS_3 = --cfg i2c_v3 --cfg ch32v4

$(ORACLE)/librecord.rlib: oracle/record/lib.rs oracle/record/call.rs
	@mkdir -p $(ORACLE)
	$(RLIB) --crate-name record $<

$(ORACLE)/libcritical_section.rlib: $(ORACLE)/librecord.rlib
$(ORACLE)/libcritical_section.rlib: SHIM_EXTERN = --extern record=$(ORACLE)/librecord.rlib
$(ORACLE)/libembedded_hal_async.rlib: $(ORACLE)/libembedded_hal.rlib
$(ORACLE)/libembedded_hal_async.rlib: SHIM_EXTERN = --extern embedded_hal=$(ORACLE)/libembedded_hal.rlib

$(SHIM_LIBS): $(ORACLE)/lib%.rlib: oracle/shims/%.rs
	@mkdir -p $(ORACLE)
	$(RLIB) $(SHIM_EXTERN) --crate-name $* $<

$(CHIP_LIBS): $(ORACLE)/libchip%.rlib: $(ORACLE)/librecord.rlib $(SHIM_LIBS) $(HAL)
	$(RLIB) $(EXTERNS) --cfg 'feature="embassy"' $(FLAGS_$*) --crate-name chip$* $(ORACLE_SRC)/hal/lib.rs

# The Rust in the port's order of errors, from a copy of the carried files, never from faulted ones. REORDER: the patches of the copy.
REORDER ?= oracle/reordered.patch
$(REORDERED_LIBS): $(ORACLE)/libreordered%.rlib: $(REORDER) $(ORACLE)/librecord.rlib $(SHIM_LIBS) $(UNFAULTED)
	@rm -rf $(ORACLE)/reordered$* && mkdir -p $(ORACLE)/reordered$* && cp -r oracle/hal oracle/carried $(ORACLE)/reordered$*
	@for edit in $(REORDER); do patch -s -p1 -d $(ORACLE)/reordered$* < $$edit || exit 1; done
	$(RLIB) $(EXTERNS) --cfg 'feature="embassy"' $(FLAGS_$*) --crate-name reordered$* $(ORACLE)/reordered$*/hal/lib.rs

$(ORACLE)/liboracle.rlib: $(ORACLE)/librecord.rlib $(PROGRAM)
	$(RLIB) --extern record=$(ORACLE)/librecord.rlib --crate-name oracle oracle/program/lib.rs

# The library's ends as the Rust's.
$(ORACLE)/as_the_rust.o: oracle/as_the_rust.c oracle/as_the_rust.h
	@mkdir -p $(ORACLE)
	$(CC) -std=c99 -O2 -Wall -Wextra -c -o $@ $<

# A program over the four chips, in both orders; some are linked with the C library.
ALL_CHIPS = $(CHIP_LIBS) $(REORDERED_LIBS)
BIN = $(RUST) --extern record=$(ORACLE)/librecord.rlib --extern oracle=$(ORACLE)/liboracle.rlib $(CHIPS) -C link-arg=$(ORACLE)/as_the_rust.o

$(ORACLE)/oracle: $(ORACLE)/liboracle.rlib $(ALL_CHIPS) $(ORACLE)/as_the_rust.o
	$(BIN) --crate-name oracle_program -o $@ oracle/program/oracle.rs

$(ORACLE)/compare: $(ORACLE)/liboracle.rlib $(ALL_CHIPS) $(ORACLE)/as_the_rust.o $(CH32_LIB)
	$(BIN) -C link-arg=$(CH32_LIB) --crate-name compare -o $@ oracle/program/compare.rs

$(ORACLE)/speed: $(ORACLE)/liboracle.rlib $(ALL_CHIPS) $(ORACLE)/as_the_rust.o $(CH32_LIB)
	$(BIN) -C link-arg=$(CH32_LIB) --crate-name speed -o $@ oracle/program/speed.rs

.PHONY: speed compare compare-faults sample oracle-check replay-c compare-bench

# The carried Rust and the C library on the same calls: CALLS of each entry on each chip. On ch32v4 the reordered Rust too.
# WINDOWS speed windows beside brute force. Then the support card, by a count of its own.
compare: $(ORACLE)/compare
	$(ORACLE)/compare $(SEED) $(CALLS)
	$(ORACLE)/compare windows $(SEED) $(WINDOWS)
	python3 oracle/card.py

# Instructions and time for each access, the C library beside the Rust. Needs valgrind.
speed: $(ORACLE)/speed
	$(ORACLE)/speed

# The comparison has to find each planted fault: an edit of a copy of the carried Rust.
FAULTS = $(wildcard oracle/faults/*.patch)
FAULT_RESULTS = $(FAULTS:oracle/faults/%.patch=$(ORACLE)/faults/%/result)

$(FAULT_RESULTS): $(ORACLE)/faults/%/result: oracle/faults/%.patch $(HAL) $(ORACLE)/liboracle.rlib $(SHIM_LIBS) $(REORDERED_LIBS) $(ORACLE)/as_the_rust.o $(CH32_LIB)
	@rm -rf $(@D) && mkdir -p $(@D)/src && cp -r oracle/hal oracle/carried $(@D)/src
	@cp -p $(ORACLE)/librecord.rlib $(ORACLE)/liboracle.rlib $(SHIM_LIBS) $(REORDERED_LIBS) $(ORACLE)/as_the_rust.o $(@D)
	@patch -s -p1 -d $(@D)/src < $<
	@$(MAKE) -s --no-print-directory ORACLE=$(@D) ORACLE_SRC=$(@D)/src ORACLE_OPT=0 $(@D)/compare > $(@D)/log 2>&1
	@$(@D)/compare until $(SEED) $(CALLS) > $@.new; echo "$*: $$(cat $@.new)"
	@rm -rf $(@D)/src $(@D)/*.rlib $(@D)/compare && mv $@.new $@

# Faults in the reordered copy: edits of it behind reordered.patch.
REORDERED_FAULTS = $(wildcard oracle/faults/reordered/*.patch)
REORDERED_RESULTS = $(REORDERED_FAULTS:oracle/faults/reordered/%.patch=$(ORACLE)/reordered-faults/%/result)

$(REORDERED_RESULTS): $(ORACLE)/reordered-faults/%/result: oracle/faults/reordered/%.patch $(ALL_CHIPS) $(ORACLE)/liboracle.rlib $(ORACLE)/as_the_rust.o $(CH32_LIB)
	@rm -rf $(@D) && mkdir -p $(@D)
	@cp -p $(ORACLE)/librecord.rlib $(ORACLE)/liboracle.rlib $(SHIM_LIBS) $(CHIP_LIBS) $(ORACLE)/as_the_rust.o $(@D)
	@$(MAKE) -s --no-print-directory ORACLE=$(@D) ORACLE_OPT=0 REORDER='$(REORDER) $<' $(@D)/compare > $(@D)/log 2>&1
	@$(@D)/compare until $(SEED) $(CALLS) > $@.new; echo "reordered, $*: $$(cat $@.new)"
	@rm -rf $(@D)/reordered2 $(@D)/reordered3 $(@D)/*.rlib $(@D)/compare && mv $@.new $@

# Faults in the library, by functions that the linker puts before its own.
LIBRARY_FAULTS = $(shell sed -n 's/^\#ifdef FAULT_//p' oracle/faults/library.c)
LIBRARY_RESULTS = $(LIBRARY_FAULTS:%=$(ORACLE)/library-faults/%/result)
WRAPPED = $(shell grep -o '^uint64_t __wrap_ch32_i2c_[a-z_]*' oracle/faults/library.c | sed 's/.*__wrap_ch32_i2c_//')
WRAPS = $(WRAPPED:%=-C link-arg=-Wl,--wrap=ch32_i2c_%)

$(LIBRARY_RESULTS): $(ORACLE)/library-faults/%/result: oracle/faults/library.c $(ORACLE)/liboracle.rlib $(ALL_CHIPS) $(ORACLE)/as_the_rust.o $(CH32_LIB)
	@mkdir -p $(@D) && $(CC) -O1 -DFAULT_$* -c -o $(@D)/fault.o $<
	@$(BIN) -C link-arg=$(@D)/fault.o $(WRAPS) -C link-arg=$(CH32_LIB) --crate-name compare -o $(@D)/compare oracle/program/compare.rs
	@$(@D)/compare until $(SEED) $(CALLS) > $@.new; echo "library, $*: $$(cat $@.new)"
	@rm -f $(@D)/compare && mv $@.new $@

# The faults in the Rust have to be found beside the library, those in the copy by the comparison with it.
compare-faults: $(FAULT_RESULTS) $(LIBRARY_RESULTS) $(REORDERED_RESULTS)
	@grep -L '^found' $^; test -z "$$(grep -L '^found' $^)"
	@! grep -l 'the reordered Rust' $(FAULT_RESULTS)
	@grep -L 'the reordered Rust' $(REORDERED_RESULTS); test -z "$$(grep -L 'the reordered Rust' $(REORDERED_RESULTS))"
	@echo "$(words $(FAULTS)) faults planted in the Rust, $(words $(LIBRARY_FAULTS)) in the library and $(words $(REORDERED_FAULTS)) in the reordered Rust, all found"

# The stored sample, chosen anew.
SAMPLE ?= crates/replay/data/sample.bin
SAMPLE_DETAIL ?= ways
sample: $(ORACLE)/oracle
	$(ORACLE)/oracle sample $(SAMPLE) $(SEED) 3000 $(SAMPLE_DETAIL)

# The stored sample, run by a C program.
CH32_INCLUDE ?= include
$(ORACLE)/replay: oracle/replay.c $(ORACLE)/as_the_rust.o $(CH32_LIB)
	@mkdir -p $(ORACLE)
	$(CC) -std=c99 -O2 -Wall -Wextra -I$(CH32_INCLUDE) -o $@ $^

replay-c: $(ORACLE)/replay
	$(ORACLE)/replay $(SAMPLE)

# The bench program BENCH on random transactions, beside the Rust in the port's order, and as the Rust's beside the unchanged one.
BENCH ?= target/bin/bench
compare-bench: $(ORACLE)/oracle $(BENCH)
	@rm -rf $(ORACLE)/bench && $(ORACLE)/oracle bench-cases $(ORACLE)/bench $(SEED) 2000
	@for case in $(ORACLE)/bench/*.in; do $(BENCH) < $$case > $${case%.in}.got || exit 1; done
	@$(ORACLE)/oracle bench-compare $(ORACLE)/bench

# The oracle by itself: the carried files are the originals where these are at hand, document 01's example, the sample, both orders of errors,
# and what the Rust does where the port refuses with 10 to 12 and 17.
ORIGINALS ?= ../shared/docs/src
oracle-check: $(ORACLE)/oracle
	@for file in i2c.rs i2c/slave.rs time.rs; do \
	  if [ -e $(ORIGINALS)/$$file ]; then cmp $(ORIGINALS)/$$file oracle/carried/src/$$file; fi || exit 1; \
	done
	$(ORACLE)/oracle bench < oracle/example.txt | cmp - oracle/example.expected
	$(ORACLE)/oracle check $(SAMPLE)
	$(ORACLE)/oracle document
	$(ORACLE)/oracle orders
	$(ORACLE)/oracle panics $(SEED) 20000
	$(ORACLE)/oracle reserved $(SEED) 20000
