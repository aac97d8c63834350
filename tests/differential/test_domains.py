"""L6 to L8, L22, L23, W11, W12 and C20, run by the shipped library: each call is compared with the independent program."""
import unittest

from both import Both
import domains


class Domains(domains.Domains, unittest.TestCase):
    program = Both()


if __name__ == "__main__":
    unittest.main()
