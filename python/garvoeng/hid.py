"""The security keys of this machine, on Linux, found by python-fido2."""
from __future__ import annotations

import os
import select
from importlib import import_module
from typing import Any, List, Optional

REPORT = 64
"""The size of a packet in bytes."""


def is_ready(file: int, seconds: float) -> bool:
    """Whether a file has something to read, or has ended, within this many seconds."""
    waiting = select.poll()
    waiting.register(file, select.POLLIN)
    return bool(waiting.poll(max(seconds, 0) * 1000))


class HidMissing(ImportError):
    """python-fido2, which finds the keys, is not installed."""

    def __init__(self) -> None:
        super().__init__("python-fido2 is missing: pip install fido2, or apt install python3-fido2")


class SecurityKey:
    """A USB security key that `security_keys` found. The first `write` or `read` opens it, for one process at a time as far as other
    processes respect that; leaving its `with`, or `close`, releases it. Raises OSError if the key is gone or may not be opened."""

    def __init__(self, descriptor: Any, name: Optional[str] = None) -> None:
        self._descriptor = descriptor
        self._connection: Any = None
        self.path = os.fsdecode(descriptor.path)
        """Such as `/dev/hidraw3`."""
        self.vendor: int = descriptor.vid
        """The vendor's USB number."""
        self.product: int = descriptor.pid
        """The USB number of the product."""
        self.name = name
        """The name of the key, if the system reports one."""

    def _opened(self) -> Any:
        if self._connection is None:
            self._connection = import_module("fido2.hid").open_connection(self._descriptor)
        return self._connection

    def write(self, packet: bytes) -> None:
        """Writes a packet of 64 bytes."""
        self._opened().write_packet(bytes(packet))

    def read(self, timeout: float) -> bytes:
        """Returns the next packet. Raises TimeoutError if none comes within `timeout` seconds."""
        connection = self._opened()
        if not is_ready(connection.handle, timeout):
            raise TimeoutError("the key sent nothing")
        return bytes(connection.read_packet())

    def close(self) -> None:
        """Releases the key; the next `write` opens it again."""
        connection, self._connection = self._connection, None
        if connection is not None:
            connection.close()

    def __enter__(self) -> "SecurityKey":
        return self

    def __exit__(self, *_: Any) -> None:
        self.close()

    def __repr__(self) -> str:
        return f"<SecurityKey {self.path} {self.vendor:04x}:{self.product:04x} {self.name or ''}>"


def _name_of(path: str) -> Optional[str]:
    """What the system reports of a hidraw device."""
    try:
        with open(f"/sys/class/hidraw/{os.path.basename(path)}/device/uevent", encoding="utf-8", errors="replace") as told:
            return next((line[9:].strip() for line in told if line.startswith("HID_NAME=")), None)
    except OSError:
        return None


def security_keys() -> List[SecurityKey]:
    """The security keys that this user may open, in order of their paths. A key that the system's rules (udev) give to another user alone
    is left out, and so is one whose packets are not 64 bytes long. Raises `HidMissing` without python-fido2, 0.9 or later."""
    try:
        descriptors = import_module("fido2.hid").list_descriptors()
    except ImportError:
        raise HidMissing() from None
    found = [one for one in descriptors if (one.report_size_in, one.report_size_out) == (REPORT, REPORT)]
    return sorted((SecurityKey(one, _name_of(os.fsdecode(one.path))) for one in found), key=lambda key: key.path)
