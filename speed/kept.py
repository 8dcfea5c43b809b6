"""The figures that are kept: speed/figures.json, of which `./dev pages` writes README's tables, docs/FIGURES.md and its chart.
kept.py PART < FIGURES keeps an object of JSON."""
import datetime
import json
import os
import sys
from pathlib import Path

FILE = Path(__file__).resolve().parent / "figures.json"


def machine():
    """What the figures were taken on, and what else ran there."""
    lines = Path("/proc/cpuinfo").read_text().splitlines()
    model = next((line.split(":")[1].strip() for line in lines if line.startswith("model name")), "a processor without a name")
    return {"processor": model, "cores": os.cpu_count(), "load": round(os.getloadavg()[0], 1),
            "day": datetime.date.today().isoformat()}


def read():
    return json.loads(FILE.read_text()) if FILE.exists() else {}


def keep(part, **figures):
    """Puts figures of a part in the place of those of its last run."""
    kept = read()
    kept[part] = {**kept.get(part, {}), **figures, "taken": machine()}
    FILE.write_text(json.dumps(kept, indent=1, ensure_ascii=False, sort_keys=True) + "\n")


if __name__ == "__main__":
    keep(sys.argv[1], **json.load(sys.stdin))
