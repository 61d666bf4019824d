# Archives for the chips, made from the module that `make lib` kept; see docs/FIRMWARE.md. The kit and python3 are all that this needs.
MODULE = target/module
MODULE_TEXT = $(MODULE)/module.ll
MODULE_CHECKED = $(MODULE)/checked
RV32 = target/rv32
RV32_TARGETS = rv32imac rv32imafc rv32ec
THUMB_TARGETS = cortex-m3
VARIANTS = fast small
archives = $(foreach t,$(1),$(foreach v,$(VARIANTS),$(RV32)/$(t)/libch32_i2c_$(v).a))

.PHONY: lib-fast rv32 thumb rv32-check rv32-test rv32-compare rv32-compare-now rv32-courses rv32-faults rv32-faults-now rv32-measure rv32-figures

FIRMWARE = target/firmware/ch32v203c8.elf target/firmware/ch32v003.elf

rv32: $(call archives,$(RV32_TARGETS)) $(FIRMWARE)
thumb: $(call archives,$(THUMB_TARGETS))

$(MODULE_TEXT): $(CH32_ARCHIVE)
	@$$(rv32/kit)/clang -S -emit-llvm -Xclang -disable-llvm-passes -x ir $(MODULE)/module.bc -o $@

# What the change of the text rests on: the module is what was proved, and may be compiled with pointers of 4 bytes.
$(MODULE_CHECKED): $(MODULE_TEXT) rv32/same_code rv32/object_here rv32/pointers.py rv32/forms.py
	@rv32/same_code $(MODULE_TEXT) $(MODULE)/words $(CH32_ARCHIVE)
	@python3 -B rv32/pointers.py $(MODULE_TEXT)
	@touch $@

# These checks have to refuse the faults that are planted.
rv32-check: $(MODULE_CHECKED)
	@rv32/refused $(MODULE_TEXT) $(MODULE)/words $(CH32_ARCHIVE)

$(call archives,$(RV32_TARGETS) $(THUMB_TARGETS)): $(RV32)/%.a: $(MODULE_CHECKED) rv32/archive rv32/machine rv32/to32.py include/ch32_i2c.h
	@rv32/archive $(MODULE_TEXT) $@ $(word 1,$(subst /libch32_i2c_, ,$*)) $(word 2,$(subst /libch32_i2c_, ,$*))
	@echo "$@"

# A first firmware: init and a write-read of a sensor.
target/firmware/ch32v203c8.elf: $(RV32)/rv32imac/libch32_i2c_fast.a
target/firmware/ch32v003.elf: $(RV32)/rv32ec/libch32_i2c_small.a
$(FIRMWARE): target/firmware/%.elf: $(wildcard examples/firmware/*) $(wildcard include/*.h)
	@examples/firmware/link $* $(filter %.a,$^) $@

# The rest needs the packages that rv32/missing names; where they are missing it says so, and that nothing was run.

rv32-test: rv32 $(C_OUT)/test_ch32_i2c
	@rv32/test

# The comparison with the Rust, which runs on x86-64, and the library on RV32: a program that has the library's functions as calls through a mailbox.
# RV32_CALLS of each entry on each of four chips, and RV32_WINDOWS speed windows. Another archive: RV32_LIB, with MARCH and MABI in the environment for
# another core.
RV32_CALLS ?= 25000
RV32_WINDOWS ?= 20000
RV32_LIB ?= $(RV32)/rv32imac/libch32_i2c_fast.a
$(RV32)/mailbox.a: rv32/mailbox_host.c rv32/mailbox.h include/ch32_i2c.h
	@mkdir -p $(RV32)
	@$(CC) -std=gnu99 -O2 -Wall -Wextra -Werror -Iinclude -c $< -o $(RV32)/mailbox_host.o
	@rm -f $@ && $(AR) rcs $@ $(RV32)/mailbox_host.o

$(RV32)/compare: $(ORACLE)/liboracle.rlib $(ALL_CHIPS) $(ORACLE)/as_the_rust.o $(RV32)/mailbox.a $(wildcard oracle/program/*.rs)
	@$(BIN) -C link-arg=$(RV32)/mailbox.a --crate-name compare -o $@ oracle/program/compare.rs

rv32-compare rv32-faults:
	@missing=$$(rv32/missing $(RUSTC)); if [ -n "$$missing" ]; then echo "RV32: NOT COMPARED, missing $$missing"; else $(MAKE) --no-print-directory $@-now; fi

# The calls that are measured, rv32/courses.h, have to be those of `make speed`; `make rv32-courses` writes them anew.
rv32-compare-now: rv32 $(RV32)/compare $(ORACLE)/speed
	@$(ORACLE)/speed courses | cmp - rv32/courses.h
	@rv32/compare $(RV32)/compare $(RV32_LIB) $(SEED) $(RV32_CALLS)
	@rv32/compare $(RV32)/compare $(RV32_LIB) windows $(SEED) $(RV32_WINDOWS)

rv32-courses: $(ORACLE)/speed
	@$(ORACLE)/speed courses > $(RV32)/courses.h && cp $(RV32)/courses.h rv32/courses.h

# Faults around the library on RV32 have to be found.
rv32-faults-now: rv32 $(RV32)/compare
	@rv32/find_faults $(RV32)/compare $(RV32_LIB)

# Flash, stack and instructions, held to rv32/figures.txt. `make rv32-figures` writes that file anew.
rv32-measure: rv32
	@missing=$$(rv32/missing); if [ -n "$$missing" ]; then echo "RV32: NOT MEASURED, missing $$missing"; else python3 -B rv32/measure.py --check rv32/figures.txt; fi

rv32-figures: rv32
	@python3 -B rv32/measure.py > $(RV32)/figures.txt && cp $(RV32)/figures.txt rv32/figures.txt

# For x86-64 too, the module with everything inlined: faster and larger than the kit's own archive, which `make lib` gives.
LIB_FAST = target/x86_64/libch32_i2c_fast.a
lib-fast: $(LIB_FAST)

$(LIB_FAST): $(MODULE_CHECKED)
	@mkdir -p $(@D)
	@rv32/object_here $(MODULE_TEXT) $(MODULE)/words $(@D)/ch32_i2c.o -mllvm -inline-threshold=10000
	@rm -f $@ && $$(rv32/kit)/llvm-ar rcs $@ $(@D)/ch32_i2c.o
	@echo "$@"
