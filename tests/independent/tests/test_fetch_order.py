"""C11: the order of fetching does not matter, run by the independent program; and why each premise is needed."""

import unittest

import orders
from scope import calls


class EachPremise(orders.EachPremise, unittest.TestCase):
    program = calls


class AnyOrder(orders.AnyOrder, unittest.TestCase):
    program = calls


if __name__ == "__main__":
    unittest.main()
