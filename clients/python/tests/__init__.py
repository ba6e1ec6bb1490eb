"""Tests of the client: `python -m unittest` in the folder above.

They need no server. Where the variable PATHD names the built program, those of `test_pathd` run it.
"""
