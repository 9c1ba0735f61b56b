# make run: the main job on a sample.  make test: every proof and every test.  make bench: how fast it is.
.PHONY: run test bench

run:
	@python3 outside/run.py

test:
	@python3 outside/gate.py

bench:
	@python3 outside/bench.py
