"""What all tests share. They run on the installed wheel; the last line counts them, a skipped test as failed."""

import sys
from pathlib import Path

import pytest

ROOT = Path(__file__).resolve().parents[2]
sys.path.insert(0, str(ROOT / "tests" / "independent"))

from commands import INBOX, answer  # noqa: E402  needs that path

# Threads that never wait would else keep each call waiting 5 ms for the interpreter as it returns.
sys.setswitchinterval(1e-4)


@pytest.hookimpl(trylast=True)
def pytest_unconfigure(config):
    reporter = config.pluginmanager.get_plugin("terminalreporter")
    if reporter is not None:
        passed = len(reporter.stats.get("passed", []))
        failed = sum(len(reporter.stats.get(kind, [])) for kind in ("failed", "error", "skipped", "xfailed", "xpassed"))
        print(f"{passed} passed, {failed} failed")


@pytest.fixture
def table_file(tmp_path):
    """The path of a table file that is not there yet."""
    return tmp_path / "correspondents.table"


@pytest.fixture
def imported(table_file):
    """The path of a table file into which the example was imported."""
    answer("import", INBOX, "--table", table_file)
    return table_file
