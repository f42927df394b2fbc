# demo: proves and builds the programs `plan` and `gate`, and runs them on small examples
# test: proves and tests everything, but for proofs of the same files that it passed on this machine before
# bench: times the seals beside OpenSSL and plain C

.PHONY: demo test bench

demo:
	cd crates/plan && rt run -- check ../../examples/first/settings > /dev/null
	cd crates/gate && rt run -- ../../examples/first/settings < /dev/null > /dev/null
	@echo "plan show examples/first/settings says:"
	@crates/plan/out/plan show examples/first/settings
	@echo "gate examples/first/settings, with this input:"
	@cut -c 1-72 examples/first/input
	@echo "says:"
	@crates/gate/out/gate examples/first/settings < examples/first/input

test:
	.ci/run

bench:
	$(MAKE) -C host/bench bench
