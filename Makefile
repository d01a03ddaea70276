# `make run` tries the program on an example, compiled without its proofs; `make build` proves and builds it to
# crates/ixpm/out/ixpm; `make test` is the gate.
.PHONY: run build test

run:
	@echo "The program is compiled without its proofs; 'make build' proves it." >&2
	@cd crates/ixpm && cat ../../examples/exchange.txt ../../examples/exchange.route | rt try -- fate

build:
	@cd crates/ixpm && rt run -- --version

test:
	@rt ci
