"""The whole calls, each under its own name: what another program that is to be compared has as well.

T13 `check`, T14 `entry_numbers`, T16 `convert`, U1 `process`, A1 `recommend`, A6 `target_key`, A12 `quick`, W1 the two
writers, W11 `display`, O1 `lint`.
"""

from scope.conversion import convert
from scope.displaying import display
from scope.linting import lint
from scope.processing import process
from scope.recommending import quick, recommend, target_key
from scope.table import check, entry_numbers
from scope.writing import write_autocrypt, write_gossip

__all__ = ["check", "convert", "display", "entry_numbers", "lint", "process", "quick", "recommend", "target_key",
           "write_autocrypt", "write_gossip"]
