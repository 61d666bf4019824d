# The bench program of document 01, on edge inputs; `compare-bench` has random transactions beside the Rust.
.PHONY: bench-check

target/bin/bench: $(CRATE_FILES)
	cd crates/bench && rt run < /dev/null
	@mkdir -p $(@D) && cp crates/bench/out/bench $@

bench-check: target/bin/bench
	@python3 tests/bench/edges.py target/bin/bench
