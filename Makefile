# `make test` is the gate: every proof, every edit that must be refused, every Rattle program, then the C programs on the library. Its last
# line is rt's verdict.
.PHONY: test

test:
	@MAKE="$(MAKE)" tests/gate

include c.mk
include bench.mk
include oracle/oracle.mk
include rv32/rv32.mk
