"""G1 and G2, run by the shipped library, each call compared with the independent program."""
import unittest

from both import Both
import settings


class Settings(settings.Settings, unittest.TestCase):
    program = Both()


if __name__ == "__main__":
    unittest.main()
