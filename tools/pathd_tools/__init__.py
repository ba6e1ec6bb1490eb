"""The tools of this repository, which tools/pathd-tools runs by name."""
from pathlib import Path

TOP = Path(__file__).resolve().parents[2]
