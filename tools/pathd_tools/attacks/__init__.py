"""Attacks on the built program from outside; docs/RELIABILITY.md says what each tries."""
