"""The independent program and its case generator, importable from the differential tests."""
import sys
from pathlib import Path

sys.path.insert(0, str(Path(__file__).resolve().parents[1] / "independent"))

from cases import Cases  # noqa: E402,F401
