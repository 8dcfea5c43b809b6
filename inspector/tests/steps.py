"""The steps that ./dev pages writes are those of docs/REFUSALS.md, also a new one: steps.py."""
import importlib.machinery
import importlib.util
import json
import sys
from pathlib import Path

TOP = Path(__file__).resolve().parents[2]
sys.path.insert(0, str(TOP / "scripts"))
loader = importlib.machinery.SourceFileLoader("pages", str(TOP / "scripts" / "pages"))
pages = importlib.util.module_from_spec(importlib.util.spec_from_loader("pages", loader))
loader.exec_module(pages)
page = (TOP / "docs" / "REFUSALS.md").read_text()
assert json.loads(pages.steps(page)) == json.loads((TOP / "python" / "garvoeng" / "steps.json").read_text())
row = "| 13 | `UserNotVerified` |"
assert row in page
more = json.loads(pages.steps(page.replace(row, f"| 40 | `Newer` | it is newer | It is newer. | 7.2 | Wait. |\n{row}")))["sign-in"]
at = [step["name"] for step in more].index("Newer")
assert [more[at]["code"], more[at]["text"], more[at]["advice"], more[at + 1]["name"]] == ["W40", "it is newer", "Wait.", "UserNotVerified"]
assert "it is newer" in more[at]["asks"]
