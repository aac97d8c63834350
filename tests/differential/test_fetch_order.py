"""C11: the order of fetching does not matter, run by the shipped library, each call compared with the independent program."""
import unittest

from both import Both
import orders
from probe import SEED


class EachPremise(orders.EachPremise, unittest.TestCase):
    program = Both()


class AnyOrder(orders.AnyOrder, unittest.TestCase):
    program = Both()
    seed = SEED


if __name__ == "__main__":
    unittest.main()
