"""The program `passkey client`, which runs beside this process and answers each line of JSON with one line."""
from __future__ import annotations

import itertools
import json
import os
import subprocess
import time
from subprocess import PIPE
from typing import Any, Dict, List, Sequence

from . import forms
from .broker import MAX_LINE
from .errors import BadInput
from .hid import is_ready

PACKET = 64
"""The size of a packet in bytes (CTAP 2.1, section 11.2.4)."""
MAX_ANSWER = 1 << 20
"""The longest answer, in bytes."""
ANSWER_SECONDS = 10.0
"""How many seconds the program may take for an answer."""


class ClientFailed(Exception):
    """The program could not be started, ended before it answered, did not answer in time, or gave an answer that can't be read. The key may
    or may not have done what it was asked. The next call starts the program again."""


def no_answer() -> ClientFailed:
    """The error for an answer without the members or values of its kind."""
    return ClientFailed("the program answered what is no answer")


def packets_of(answer: Dict[str, Any]) -> List[bytes]:
    """The packets to write to the key."""
    sent = answer.get("send", [])
    try:
        packets = [forms.from_text(one, "send") for one in sent]
    except (BadInput, TypeError):
        raise no_answer() from None
    if not isinstance(sent, list) or any(len(packet) != PACKET for packet in packets):
        raise no_answer()
    return packets


class Program:
    """A run of the program. Only one thread at a time calls it."""

    def __init__(self, words: Sequence[str]) -> None:
        try:
            self.process = subprocess.Popen(words, stdin=PIPE, stdout=PIPE, stderr=PIPE, bufsize=0, start_new_session=True)
        except OSError as error:
            raise ClientFailed(f"the program can't be started: {error}") from None
        assert self.process.stdin and self.process.stdout and self.process.stderr
        self.stdin, self.stdout, self.stderr = self.process.stdin, self.process.stdout, self.process.stderr
        self.numbers = itertools.count(1)
        self.unread = b""
        self.has_ended = False

    def ask(self, act: str, **members: Any) -> Dict[str, Any]:
        """Returns the answer to a line. Any failure ends the program, so that no answer is ever taken for another line's. Raises
        `ClientFailed`, and `BadInput` for a value that is not a line."""
        number = next(self.numbers)
        try:
            line = json.dumps({"id": number, "act": act, **members}, allow_nan=False).encode() + b"\n"
        except (TypeError, ValueError, RecursionError):
            raise BadInput(f"{act} is not made of JSON values") from None
        if len(line) > MAX_LINE:
            raise BadInput(f"{act} has more than {MAX_LINE:,} bytes")
        if self.has_ended:
            raise ClientFailed("the program has ended")
        try:
            self._write(line)
            return self._answer(number)
        except BaseException:
            self.end(0)
            raise

    def _write(self, line: bytes) -> None:
        try:
            while line:
                line = line[self.stdin.write(line) or 0:]
        except OSError:
            raise self._ended() from None

    def _answer(self, number: int) -> Dict[str, Any]:
        try:
            answer = json.loads(self._line())
        except (ValueError, RecursionError):
            raise no_answer() from None
        if not isinstance(answer, dict) or answer.pop("id", None) not in (number, None) or not isinstance(answer.get("state"), str):
            raise no_answer()
        return answer

    def _line(self) -> bytes:
        until = time.monotonic() + ANSWER_SECONDS
        while b"\n" not in self.unread:
            if not is_ready(self.stdout.fileno(), until - time.monotonic()):
                raise ClientFailed(f"the program did not answer in {ANSWER_SECONDS:g} seconds")
            data = os.read(self.stdout.fileno(), 65_536)
            if not data:
                raise self._ended()
            self.unread += data
            if len(self.unread) > MAX_ANSWER:
                raise no_answer()
        line, _, self.unread = self.unread.partition(b"\n")
        if self.unread:
            raise no_answer()
        return line

    def _ended(self) -> ClientFailed:
        """The failure; its cause is the program's last message, if any."""
        told = os.read(self.stderr.fileno(), 4_096) if is_ready(self.stderr.fileno(), 1) else b""
        said = told.decode(errors="replace").strip().splitlines()
        return ClientFailed(": ".join(["the program ended before it answered", *said[-1:]]))

    def is_running(self) -> bool:
        return not self.has_ended and self.process.poll() is None

    def end(self, timeout: float = 2.0) -> None:
        """Ends the program's input, which ends the program; after `timeout` seconds it is killed."""
        self.has_ended = True
        try:
            self.stdin.close()
        except OSError:
            pass
        try:
            self.process.wait(timeout)
        except subprocess.TimeoutExpired:
            self.process.kill()
            self.process.wait()
        self.stdout.close()
        self.stderr.close()
