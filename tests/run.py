#!/usr/bin/env python3
"""run.py TESTS TOP [K/N]: run the unit tests below the folder TESTS, modules being named from TOP.

With K/N only the K-th of N parts, K from 1: N such runs beside each other run each module once. The last line is 'N passed, M
failed'. A test that is skipped has not run, and counts as failed.
"""
import sys
import unittest


def main(tests: str, top: str, part: str = "1/1") -> int:
    sys.path.insert(0, top)
    k, n = map(int, part.split("/"))
    modules = list(unittest.defaultTestLoader.discover(tests, top_level_dir=top))
    suite = unittest.TestSuite(modules[k - 1 :: n])
    result = unittest.TextTestRunner(stream=sys.stdout, verbosity=1).run(suite)
    bad = len(result.failures) + len(result.errors) + len(result.skipped) + len(result.unexpectedSuccesses)
    print(f"{max(result.testsRun - bad, 0)} passed, {bad} failed")
    return 1 if bad or not result.testsRun else 0


if __name__ == "__main__":
    sys.exit(main(*sys.argv[1:]))
