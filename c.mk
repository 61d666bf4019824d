# The C side: library, headers, test, demonstration. CH32_LIB is the archive that the programs are linked with; C_LAYOUT what the test may
# know of the block.
CRATE_FILES = $(shell find crates crates.txt -name out -prune -o -type f -print)
CH32_ARCHIVE = target/staticlib/libch32_i2c.a
CH32_LIB ?= $(CH32_ARCHIVE)
C_LAYOUT ?= layout.h
C_OUT = target/c
C_WARN = -pedantic -Wall -Wextra -Werror -Iinclude
C_STRICT = -std=c99 $(C_WARN)
C_FLAGS = $(C_STRICT) -O2 -g

.PHONY: lib ctest headers demo demo-check

# One proof run gives the archive for x86-64 and the module that it was compiled from, of which the archives for the chips are made (rv32/).
lib: $(CH32_ARCHIVE)

$(CH32_ARCHIVE): $(CRATE_FILES)
	rv32/keep_module target/module
	@mkdir -p $(@D) && cp crates/ch32_i2c_c/out/libch32_i2c_c.a $@

# Both headers by themselves, as strict C99 and, where there is a compiler for it, as C++; the examples of docs/USING.md.
headers:
	@mkdir -p $(C_OUT)
	@for h in ch32_i2c.h ch32_i2c_blocking.h; do \
	  echo "#include \"$$h\"" | $(CC) -x c $(C_STRICT) -Wconversion -fsyntax-only - || exit 1; \
	  if $(CC) -x c++ -fsyntax-only /dev/null 2>/dev/null; then \
	    echo "#include \"$$h\"" | $(CC) -x c++ -std=c++11 $(C_WARN) -fsyntax-only - || exit 1; \
	  fi; \
	done
	@rm -f $(C_OUT)/using*.c
	@awk -v out=$(C_OUT)/using '/^```c$$/ {n++; file = out n ".c"; next} /^```/ {file = ""} file {print > file}' docs/USING.md
	@for f in $(C_OUT)/using*.c; do $(CC) $(C_FLAGS) -Wconversion -c $$f -o $(C_OUT)/using.o || exit 1; done

TEST_SOURCES = $(wildcard tests/c/*.c)

$(C_OUT)/test_ch32_i2c: $(TEST_SOURCES) $(wildcard tests/c/*.h) $(wildcard include/*.h) $(CH32_LIB)
	@mkdir -p $(C_OUT)
	$(CC) $(C_FLAGS) -DLAYOUT='"$(C_LAYOUT)"' $(TEST_SOURCES) $(CH32_LIB) -o $@

ctest: headers $(C_OUT)/test_ch32_i2c
	$(C_OUT)/test_ch32_i2c

DEMO_SOURCES = $(wildcard demo/*.c)

$(C_OUT)/demo: $(DEMO_SOURCES) demo/port.h demo/sim.h $(wildcard include/*.h) $(CH32_LIB)
	@mkdir -p $(C_OUT)
	$(CC) $(C_FLAGS) $(DEMO_SOURCES) $(CH32_LIB) -o $@

# Prints what happens on the wire, and writes it as a waveform.
demo: $(C_OUT)/demo
	@$(C_OUT)/demo $(C_OUT)/demo.vcd

# The same, held to what it has to print: every byte on the wire, every count of accesses. Then the waveform is read back.
demo-check: $(C_OUT)/demo
	@$(C_OUT)/demo $(C_OUT)/demo.vcd > $(C_OUT)/demo.txt || { cat $(C_OUT)/demo.txt; exit 1; }
	@diff demo/expected.txt $(C_OUT)/demo.txt
	@tail -n 1 $(C_OUT)/demo.txt
	@python3 demo/check_vcd.py $(C_OUT)/demo.vcd $(C_OUT)/demo.txt
