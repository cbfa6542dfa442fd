# `make run` prints the sheet of the sample day; `make test` is the gate; `make archive` builds what C programs link;
# `make bench` compares instructions with plain Rust.
.PHONY: run test archive bench

run:
	@tests/programs daysheet
	@target/bin/daysheet < examples/sample.day

test:
	@.ci/run

archive:
	@mkdir -p target
	@tests/archive > target/make-archive.log 2>&1 || { tail -n 30 target/make-archive.log; exit 1; }

bench:
	@tests/programs floorplan daysheet pace
	@bench/run
