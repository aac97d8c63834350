"""The snippets of docs/GUIDE.md, run one after the other as one session; the block behind one says what it prints."""

import contextlib
import io
import re

from letters import ROOT

GUIDE = (ROOT / "docs" / "GUIDE.md").read_text()
SNIPPET = re.compile(r"^```python\n(.*?)^```\n(?:\n```text\n(.*?)^```$)?", re.MULTILINE | re.DOTALL)


def test_snippets(tmp_path, monkeypatch):
    monkeypatch.chdir(tmp_path)
    session = {"__name__": "guide"}
    snippets = SNIPPET.findall(GUIDE)
    assert len(snippets) == GUIDE.count("```python")
    assert len(snippets) >= 10
    for code, expected in snippets:
        printed = io.StringIO()
        with contextlib.redirect_stdout(printed):
            exec(compile(code, "docs/GUIDE.md", "exec"), session)
        assert printed.getvalue() == expected, code


def test_every_refusal_has_its_row():
    rows = GUIDE.split("## What to do for each refusal", 1)[1]
    numbers = [int(number) for row in re.findall(r"^\| ([\d, ]+) \|", rows, re.MULTILINE) for number in row.split(",")]
    assert numbers == list(range(1, 13))
