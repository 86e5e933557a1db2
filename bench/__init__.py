"""The benchmarks, which `make bench` runs: how long the programs take beside others on the same bytes."""
