"""Limits how often a visitor may ask, by the address of the request."""
from __future__ import annotations

import ipaddress
import math
import threading
import time
from collections import OrderedDict
from typing import Callable, Optional, Tuple

from .errors import BadInput


class RateLimit:
    """A token bucket for each address: `burst` requests at once, and `rate` a second from then on. An IPv6 address counts by its first 64
    bits, which belong to one visitor. This machine's own addresses, and requests without one, are not limited: they come from a proxy,
    which has limits of its own. At most `addresses` are kept, in this process; the one that asked longest ago is forgotten.
    """

    def __init__(self, rate: float = 5.0, burst: int = 50, *, addresses: int = 10_000, clock: Callable[[], float] = time.monotonic) -> None:
        for value, what in ((rate, "rate"), (burst, "burst"), (addresses, "addresses")):
            if isinstance(value, bool) or not isinstance(value, (int, float)) or not 0 < value < math.inf:
                raise BadInput(f"{what} is a number above 0: not {value!r}")
        if burst < 1:
            raise BadInput(f"burst is 1 or more, since each request takes one: not {burst!r}")
        self.rate, self.burst, self.addresses = rate, burst, addresses
        self._clock = clock
        self._lock = threading.Lock()
        # The tokens that an address had, and when.
        self._had: OrderedDict[str, Tuple[float, float]] = OrderedDict()

    def __call__(self, address: Optional[str]) -> int:
        """Counts a request. Returns how many seconds the address has to wait, 0 if it may ask now."""
        name = _counted(address)
        if name is None:
            return 0
        with self._lock:
            now = self._clock()
            tokens, then = self._had.pop(name, (float(self.burst), now))
            tokens = min(self.burst, tokens + max(0.0, now - then) * self.rate)
            is_free = tokens >= 1
            self._had[name] = tokens - 1 if is_free else tokens, now
            if len(self._had) > self.addresses:
                self._had.popitem(last=False)
        return 0 if is_free else math.ceil((1 - tokens) / self.rate)


def _counted(address: Optional[str]) -> Optional[str]:
    """What an address counts as; None if it is not limited."""
    try:
        one = ipaddress.ip_address((address or "").split("%")[0])
    except ValueError:
        # A host's own name for a visitor counts as it is; a Unix socket has none.
        return address or None
    if isinstance(one, ipaddress.IPv6Address):
        one = one.ipv4_mapped or one
    if one.is_loopback:
        return None
    return str(one) if isinstance(one, ipaddress.IPv4Address) else str(ipaddress.ip_network((one, 64), strict=False))
