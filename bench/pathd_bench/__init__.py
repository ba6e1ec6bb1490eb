"""What the benchmarks of this repository are made of, which bench/pathd-bench runs by name."""
