"""The independent model of `pathd`, written from docs/PROTOCOL.md,
docs/STORE.md and docs/CLI.md alone. It imports nothing of the tools that compare the program with
it."""
