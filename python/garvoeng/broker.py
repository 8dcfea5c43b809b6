"""One run of the proved program for several processes: a broker runs the program and listens on a Unix socket of its user. It passes lines
from each connected process to the program, and each answer to the process that asked: the program answers in the order of the lines."""
from __future__ import annotations

import fcntl
import hashlib
import json
import os
import select
import socket
import stat
import struct
import subprocess
import sys
import tempfile
import time
from collections import deque
from contextlib import contextmanager
from pathlib import Path
from queue import SimpleQueue
from typing import Deque, Dict, Generator, Iterator, Optional, Sequence, Tuple

MAX_LINE = 65_536
"""The longest line that the program takes, in bytes."""
MAX_PATH = 107
"""The longest path of a socket, in bytes (unix(7))."""
IDLE = 2.0
"""How many seconds a broker stays when nobody is connected."""
STUCK = 2.0
"""How many seconds a process may take to read its answers."""
STARTING = 30.0
"""How many seconds a broker may take to listen."""
ENDING = 30.0
"""How many seconds the program may take to close its file."""
_NOTE = b"!"
"""Comes before a line from standard error. An answer begins with a brace."""


def _folder() -> Path:
    """The user's own folder for sockets, which nobody else can enter."""
    base = os.environ.get("XDG_RUNTIME_DIR")
    folder = Path(base, "garvoeng") if base else Path(tempfile.gettempdir(), f"garvoeng-{os.geteuid()}")
    folder.mkdir(mode=0o700, exist_ok=True)
    found = os.lstat(folder)
    if not stat.S_ISDIR(found.st_mode) or found.st_uid != os.geteuid() or found.st_mode & 0o077:
        raise OSError(f"{folder} is not this user's alone")
    return folder


def path_of(words: Sequence[str]) -> Path:
    """The socket for a program with these words, the last of which is its file."""
    told = "\0".join([*words[:-1], os.path.realpath(words[-1])])
    path = _folder() / hashlib.sha256(told.encode("utf-8", "surrogateescape")).hexdigest()[:32]
    if len(os.fsencode(path)) > MAX_PATH:
        raise OSError(f"the path {path} is longer than a socket's, {MAX_PATH} bytes: name a shorter folder in XDG_RUNTIME_DIR")
    return path


@contextmanager
def _locked(path: Path) -> Iterator[None]:
    """Holds a lock, so that nobody else starts or ends a broker of this socket."""
    with open(path.with_suffix(".lock"), "wb") as lock:
        fcntl.flock(lock, fcntl.LOCK_EX)
        yield


def _user_of(peer: socket.socket) -> int:
    return int(struct.unpack("3i", peer.getsockopt(socket.SOL_SOCKET, socket.SO_PEERCRED, 12))[1])


def _connected(path: Path) -> Optional[socket.socket]:
    made = socket.socket(socket.AF_UNIX)
    try:
        made.connect(str(path))
    except OSError:
        made.close()
        return None
    if _user_of(made) != os.geteuid():
        made.close()
        raise OSError("the socket is another user's")
    return made


class Connection:
    """A connection to a broker, which is started if there is none. It has the members of `subprocess.Popen` that are used here."""

    def __init__(self, words: Sequence[str], timeout: float = 30.0) -> None:
        path = path_of(words)
        found = _connected(path)
        if found is None:
            with _locked(path):
                found = _connected(path) or self._started(path, words, timeout)
        self._socket = found
        self._notes: "SimpleQueue[Optional[bytes]]" = SimpleQueue()
        self._has_ended = False
        self.stdin = found.makefile("wb")
        self.stdout: "Generator[bytes, None, None]" = self._answers()
        self.stderr: Iterator[bytes] = iter(self._notes.get, None)

    @staticmethod
    def _started(path: Path, words: Sequence[str], timeout: float) -> socket.socket:
        package = str(Path(__file__).resolve().parents[1])
        command = "import sys; sys.path.insert(0, sys.argv.pop(1)); from garvoeng.broker import main; main()"
        started = subprocess.Popen([sys.executable, "-c", command, package, str(path), str(timeout), *words], stdin=subprocess.DEVNULL,
                                   stdout=subprocess.DEVNULL, stderr=subprocess.DEVNULL, start_new_session=True)
        until = time.monotonic() + STARTING
        while time.monotonic() < until and started.poll() is None:
            found = _connected(path)
            if found is not None:
                return found
            time.sleep(0.01)
        raise OSError("the broker did not start")

    def _answers(self) -> "Generator[bytes, None, None]":
        try:
            for line in self._socket.makefile("rb"):
                if line.startswith(_NOTE):
                    self._notes.put(line[1:])
                else:
                    yield line
        except OSError:
            pass
        finally:
            self._has_ended = True
            self._notes.put(None)

    def poll(self) -> Optional[int]:
        return 0 if self._has_ended else None

    def kill(self) -> None:
        """Ends the connection, but not the program, which others share."""
        try:
            self._socket.shutdown(socket.SHUT_RDWR)
        except OSError:
            pass

    def wait(self, timeout: Optional[float] = None) -> int:
        self.kill()
        return 0

    def forget(self) -> None:
        """In a child process: closes the child's copy of the handle. The parent's stays open."""
        handle = self._socket.detach()
        if handle >= 0:
            os.close(handle)


class _Broker:
    def __init__(self, path: Path, words: Sequence[str], timeout: float = 30.0) -> None:
        self.path, self.timeout, self.is_killed = path, timeout, False
        path.unlink(missing_ok=True)
        self.listening = socket.socket(socket.AF_UNIX)
        before = os.umask(0o177)
        try:
            self.listening.bind(str(path))
        finally:
            os.umask(before)
        self.listening.listen(128)
        self.program = subprocess.Popen(words, stdin=subprocess.PIPE, stdout=subprocess.PIPE, stderr=subprocess.PIPE)
        assert self.program.stdin and self.program.stdout and self.program.stderr
        self.stdin, self.stdout, self.stderr = (pipe.fileno() for pipe in (self.program.stdin, self.program.stdout, self.program.stderr))
        os.set_blocking(self.stdin, False)
        self.peers: Dict[socket.socket, bytes] = {}
        self.unwritten, self.answered = b"", b""
        self.asked: Deque[Tuple[socket.socket, float]] = deque()
        self.notes: Deque[bytes] = deque(maxlen=8)

    def _accept(self) -> None:
        peer, _ = self.listening.accept()
        if _user_of(peer) != os.geteuid():
            peer.close()
            return
        peer.settimeout(STUCK)
        self.peers[peer] = b""
        for note in list(self.notes):
            self._tell(peer, note)

    def _drop(self, peer: socket.socket) -> None:
        if self.peers.pop(peer, None) is not None:
            peer.close()

    def _tell(self, peer: socket.socket, line: bytes) -> None:
        """Sends bytes. Skips a connection that has gone, and closes one that does not read."""
        if peer in self.peers:
            try:
                peer.sendall(line)
            except OSError:
                self._drop(peer)

    def _hear(self, peer: socket.socket) -> None:
        """Reads whole lines. A connection that sends anything else is closed."""
        try:
            data = peer.recv(65_536)
        except OSError:
            data = b""
        *lines, self.peers[peer] = (self.peers[peer] + data).split(b"\n")
        for line in lines:
            if line.startswith(b"{") and len(line) < MAX_LINE:
                self.asked.append((peer, time.monotonic()))
                self.unwritten += line + b"\n"
            else:
                data = b""
        if not data or len(self.peers[peer]) >= MAX_LINE:
            self._drop(peer)

    def _tell_all(self, note: bytes) -> None:
        for peer in list(self.peers):
            self._tell(peer, _NOTE + note + b"\n")

    def _note(self) -> None:
        for line in os.read(self.stderr, 65_536).splitlines():
            self.notes.append(_NOTE + line + b"\n")
            self._tell_all(line)

    def _is_silent(self) -> bool:
        """Whether the oldest line has waited too long. The program is killed then, since it may not end by itself."""
        if not self.asked or time.monotonic() - self.asked[0][1] <= self.timeout:
            return False
        self._tell_all(b"the program did not answer in %g seconds" % self.timeout)
        self._kill()
        return True

    def _kill(self) -> None:
        self.is_killed = True
        self.program.kill()

    def _answer(self) -> bool:
        """Passes answers to the connections. Returns false if the program has ended or failed, and so has to be started anew."""
        data = os.read(self.stdout, 65_536)
        *lines, self.answered = (self.answered + data).split(b"\n")
        failed = not data
        for line in lines:
            self._tell(self.asked.popleft()[0], line + b"\n")
            failed = failed or (b'"failed"' in line and "failed" in json.loads(line))
        return not failed

    def _serve(self) -> bool:
        """Returns true once nobody is left, or false if the program has to be started anew."""
        idle = time.monotonic()
        while True:
            writing = [self.stdin] if self.unwritten else []
            ready, writable, _ = select.select([self.listening, self.stdout, self.stderr, *self.peers], writing, [], 0.5)
            if self.stderr in ready:
                self._note()
            if self.stdout in ready:
                if not self._answer():
                    return False
            elif self._is_silent():
                return False
            if self.listening in ready:
                self._accept()
            for peer in ready:
                if isinstance(peer, socket.socket) and peer in self.peers:
                    self._hear(peer)
            if writable:
                self.unwritten = self.unwritten[os.write(self.stdin, self.unwritten):]
            if self.peers or self.asked:
                idle = time.monotonic()
            elif time.monotonic() - idle > IDLE:
                return True

    def _is_left(self) -> bool:
        """Whether nobody connected before the socket was gone. Anyone who connected in between is served."""
        gone = self.path.with_suffix(".gone")
        self.path.rename(gone)
        if select.select([self.listening], [], [], 0)[0]:
            gone.rename(self.path)
            return False
        gone.unlink()
        return True

    def _served(self) -> bool:
        try:
            return self._serve()
        except (OSError, IndexError, ValueError):
            return False

    def run(self) -> None:
        """Runs until the program ends. Nobody starts another broker until the program has closed its file."""
        while True:
            nobody = self._served()
            with _locked(self.path):
                if nobody and not self._is_left():
                    continue
                self._end(nobody)
                return

    def _rest(self) -> bytes:
        """The program's last messages. A program that does not end in time is killed; one that it has started may hold its pipes."""
        for _ in range(2):
            try:
                return self.program.communicate(timeout=STUCK if self.is_killed else ENDING)[1]
            except subprocess.TimeoutExpired:
                self._kill()
        return b""

    def _end(self, nobody: bool) -> None:
        while not nobody and select.select([self.listening], [], [], 0)[0]:
            self._accept()
        self.listening.close()
        for line in self._rest().splitlines():
            self._tell_all(line)
        for peer in list(self.peers):
            self._drop(peer)


def main() -> None:
    """The broker: SOCKET TIMEOUT PROGRAM WORDS .."""
    _Broker(Path(sys.argv[1]), sys.argv[3:], float(sys.argv[2])).run()
