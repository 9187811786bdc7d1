# make        prove every layer and build what a host needs
# make test   all checking; the last line is rt's own 'N passed, 0 failed'
# make soak   random comparisons with the Rust: make soak SECONDS=600 SEED=1
# make bench  Pelisafu beside the original and CRoaring: ratios with their targets, growth, instructions
# make bench-docs  the same, and its tables into docs/BENCHMARKS.md
.PHONY: all test soak bench bench-docs clean

SECONDS = 60
SEED = 1

all:
	rt all check
	@mkdir -p dist
	cd crates/pelisafu && rt lib --cpu x86-64
	cd crates/lister && rt run < stdin | cmp - stdout
	cp crates/pelisafu/out/libpelisafu.a include/pelisafu.h dist/
	cp crates/lister/out/lister dist/lister
	dist/lister < tests/listing/sample.bin

test:
	@tests/run

soak:
	differential/run soak $(SECONDS) $(SEED)
	fuzz/run 30 $(SEED)

bench:
	differential/run bench
	@if [ -x dist/lister ]; then tests/listing/bench; else echo "the listing is left out: dist/lister is not built"; fi

bench-docs:
	differential/bench-into-docs

clean:
	rm -rf crates/*/out dist differential/target fuzz/target rust/pelisafu/target
