"""A storage in the memory of one process: for tests, and as an example for writing your own."""
from __future__ import annotations

import threading
import time
from dataclasses import replace
from typing import Dict, List, Optional, Sequence

from .keeping import OpenSession
from .records import KeptCredential


class MemoryStore:
    """A `Store` in the memory of this process, which ends with it."""

    def __init__(self) -> None:
        self._lock = threading.RLock()
        self._sessions: Dict[str, OpenSession] = {}
        self._rows: Dict[bytes, KeptCredential] = {}

    def begin(self, session: OpenSession) -> None:
        """Adds a session. Deletes those that have ended, up to the first that has not."""
        with self._lock:
            while self._sessions and next(iter(self._sessions.values())).ends_at <= time.time():
                del self._sessions[next(iter(self._sessions))]
            self._sessions[session.number] = session

    def session(self, number: str) -> Optional[OpenSession]:
        return self._sessions.get(number)

    def register(self, number: str, row: KeptCredential) -> int:
        with self._lock:
            if number not in self._sessions:
                return 1
            if row.id in self._rows:
                return 15
            del self._sessions[number]
            self._rows[row.id] = row
            return 0

    def sign_in(self, number: str, row: KeptCredential, sign_count: int) -> int:
        with self._lock:
            if number not in self._sessions:
                return 1
            stored = self._rows.get(row.id)
            if stored is None or stored.retired or stored.sign_count != sign_count:
                return 15
            del self._sessions[number]
            self._rows[row.id] = row
            return 0

    def abandon(self, number: str) -> bool:
        with self._lock:
            return self._sessions.pop(number, None) is not None

    def row(self, credential: bytes) -> Optional[KeptCredential]:
        return self._rows.get(credential)

    def rows(self, user: Optional[bytes]) -> Sequence[KeptCredential]:
        with self._lock:
            return [row for row in self._rows.values() if user in (None, row.user)]

    def _owned(self, credential: bytes, user: Optional[bytes]) -> Optional[KeptCredential]:
        row = self._rows.get(credential)
        return row if row is not None and user in (None, row.user) else None

    def _end(self, user: bytes, kinds: Sequence[str]) -> None:
        for session in [one for one in self._sessions.values() if one.user == user and one.kind in kinds]:
            del self._sessions[session.number]

    def retire(self, credential: bytes, user: Optional[bytes]) -> bool:
        with self._lock:
            row = self._owned(credential, user)
            if row is None or row.retired:
                return False
            self._rows[credential] = replace(row, retired=True)
            self._end(row.user, ["registration"])
            return True

    def retire_all(self, user: bytes) -> int:
        with self._lock:
            self._end(user, ["registration"])
            return sum([self.retire(row.id, user) for row in self.rows(user)])

    def delete(self, credential: bytes, user: Optional[bytes]) -> bool:
        with self._lock:
            row = self._owned(credential, user)
            if row is None:
                return False
            del self._rows[credential]
            self._end(row.user, ["registration"])
            return True

    def erase(self, user: bytes) -> int:
        with self._lock:
            self._end(user, ["registration", "sign_in"])
            erased: List[bool] = [self.delete(row.id, user) for row in self.rows(user)]
            return len(erased)
