"""G1 and G2, run by the independent program: what each number of the gossip setting makes of a payload."""

import unittest

import settings
from scope import calls


class Settings(settings.Settings, unittest.TestCase):
    program = calls


if __name__ == "__main__":
    unittest.main()
