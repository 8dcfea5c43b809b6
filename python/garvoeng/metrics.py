"""The result of `StoredServer.status`, as text for Prometheus."""
from __future__ import annotations

from typing import Any, Dict, List, Mapping

_GAUGES = {"credentials": ("credentials", 1), "last_commit_microseconds": ("last_commit_seconds", 1_000_000)}
"""For each member of the status, its metric and its divisor."""
_COUNTERS = ("commits", "lost_log_lines", "sign_ins", "registrations")
_BY_STEP = ("sign_ins_refused", "registrations_refused")


def _metric(name: str, kind: str, samples: Mapping[str, Any]) -> List[str]:
    """A metric with its samples, each with its labels."""
    return [f"# TYPE garvoeng_{name} {kind}", *(f"garvoeng_{name}{labels} {value}" for labels, value in samples.items())]


def prometheus(status: Dict[str, Any]) -> str:
    """Formats a status as text for Prometheus, version 0.0.4. Names begin with `garvoeng_`, counters end in `_total`, and refusals have the
    label `step`, such as `W14`."""
    lines = _metric("info", "gauge", {f'{{version="{status["version"]}"}}': 1})
    for member, (name, unit) in _GAUGES.items():
        lines += _metric(name, "gauge", {"": status[member] / unit if unit > 1 else status[member]})
    for member in _COUNTERS:
        lines += _metric(f"{member}_total", "counter", {"": status[member]})
    for member in _BY_STEP:
        lines += _metric(f"{member}_total", "counter", {f'{{step="{step}"}}': count for step, count in status[member].items()})
    return "\n".join(lines) + "\n"
