#!/usr/bin/env python3
"""Are the stored cases, and what they must give, still what the independent program prints?"""
import sys

from cases import CRATES, files

bad = 0
for name, content in files().items():
    stored = CRATES / name
    if not stored.exists() or stored.read_bytes() != content:
        print(f"crates/{name} is not what the independent program prints: run tests/vectors/cases.py and look at the difference")
        bad += 1
print(f"{len(files()) - bad} passed, {bad} failed")
sys.exit(1 if bad else 0)
