"""A relying party whose credentials are kept in a SQLite file by the proved program `site_program`, which runs beside this process and
answers lines of JSON. A session is a text that the program has sealed and that the visitor keeps."""
from __future__ import annotations

import itertools
import json
import logging
import math
import os
import subprocess
import threading
from collections import deque
from subprocess import PIPE
from typing import Any, Deque, Dict, List, Mapping, Optional, Sequence, Tuple, Union
from weakref import WeakSet

from . import answers, forms, limits, options
from .answers import Verify, in_thread
from .broker import MAX_LINE, Connection
from .errors import BadInput, Refused
from .library import EDDSA, ES256, RS256
from .metrics import prometheus
from .options import Ids, Requirement
from .records import Credential, KeptCredential, Registered, SignedIn
from .server import verify_of


_log = logging.getLogger("garvoeng")
_ELIGIBLE = 0x08
"""The flag BE: a sign-in whose flag differs from the row's is refused with W16."""
_ENDING = 5.0
"""How many seconds to wait for the last messages of a program that has ended."""


class StoreFailed(Exception):
    """The program could not be started, ended before it answered, or its disk or memory failed: the operation may or may not be done. The
    text has the cause that the program reported. The next call starts the program again, and it goes on with the site in the file."""


def _extensions(accepted: Mapping[str, Any]) -> bytes:
    return forms.from_text(accepted["extensions"] or "", "extensions")


def _parts(row: Mapping[str, Any]) -> Tuple[bytes, bytes, int, bytes, bytes, int, bool, bool]:
    return (forms.from_text(row["credential"], "credential"), forms.from_text(row["user"], "user"),
            row["algorithm"], forms.from_text(row["x"], "x"), forms.from_text(row["y"], "y"),
            row["sign_count"], row["eligible"], row["retired"])


def _kept(row: Mapping[str, Any]) -> KeptCredential:
    aaguid = row["aaguid"]
    return KeptCredential(*_parts(row), forms.transports_in(row["transports"]),
                          None if aaguid is None else forms.from_text(aaguid, "aaguid"), None, row["created_at"], row["used_at"])


def _named(credential: bytes) -> str:
    return forms.to_text(limits.check_id(credential, "credential"))


def _handed_on(raw_id: bytes, **parts: Optional[bytes]) -> Dict[str, Any]:
    """A response with these members alone."""
    identity = forms.to_text(raw_id)
    return {"id": identity, "rawId": identity, "type": "public-key",
            "response": {name: forms.to_text(value) for name, value in parts.items() if value is not None}}


def _answer(line: bytes, number: int) -> Dict[str, Any]:
    """The answer to the line with this number. The answer to a line that the program could not read has no number."""
    answer = json.loads(line)
    if not line.endswith(b"\n") or not isinstance(answer, dict) or answer.pop("id", 0) not in (number, None):
        raise ValueError
    return answer


class _Process:
    """A run of the program. Each line has a number, and the answers come in the order of the lines."""

    def __init__(self, words: Sequence[str], shared: bool, timeout: float) -> None:
        self.process: Union["subprocess.Popen[bytes]", Connection]
        try:
            self.process = Connection(words, timeout) if shared else subprocess.Popen(words, stdin=PIPE, stdout=PIPE, stderr=PIPE)
        except OSError as error:
            raise StoreFailed(f"the program can't be started: {error}") from None
        self.writing = threading.Lock()
        self.changed = threading.Condition()
        self.numbers = itertools.count(1)
        self.asked: Deque[int] = deque()
        self.waiting: Dict[int, Optional[Dict[str, Any]]] = {}
        self.is_killed = False
        self.has_ended = False
        self.said: Deque[str] = deque(maxlen=8)
        self.hearing = threading.Thread(target=self._hear, daemon=True)
        self.reading = threading.Thread(target=self._read, daemon=True)
        self.hearing.start()
        self.reading.start()

    def _read(self) -> None:
        """Gives each answer to the call that asked, up to the first that is not an answer."""
        assert self.process.stdout is not None
        try:
            for line in self.process.stdout:
                with self.changed:
                    number = self.asked.popleft()
                    answer = _answer(line, number)
                    if number in self.waiting:
                        self.waiting[number] = answer
                        self.changed.notify_all()
        except (IndexError, ValueError):
            _log.error("the program answered what is no answer")
        finally:
            self._kill()
            # This also holds for a connection: it ends the notes.
            self.process.stdout.close()
            self.hearing.join(_ENDING)
            with self.changed:
                self.has_ended = True
                self.changed.notify_all()

    def _hear(self) -> None:
        assert self.process.stderr is not None
        for line in self.process.stderr:
            text = line.decode(errors="replace").strip()
            if text:
                self.said.append(text)
                _log.warning("%s", text)

    def _kill(self) -> None:
        self.is_killed = True
        self.process.kill()

    def _failed(self, what: str) -> StoreFailed:
        return StoreFailed(": ".join([what, *list(self.said)[-1:]]))

    def _write(self, number: int, line: bytes) -> None:
        """Counts a line and writes it. If it can't be written whole, the program is ended, so that no line is answered in another's
        place."""
        assert self.process.stdin is not None
        try:
            self.asked.append(number)
            self.process.stdin.write(line)
            self.process.stdin.flush()
        except BaseException:
            self._kill()
            raise

    def ask(self, act: str, members: Mapping[str, Any], timeout: float) -> Dict[str, Any]:
        number = next(self.numbers)
        line = json.dumps({"id": number, "act": act, **members}, allow_nan=False).encode() + b"\n"
        if len(line) > MAX_LINE:
            raise BadInput("the line is too long")
        self.waiting[number] = None
        try:
            with self.writing:
                self._write(number, line)
            with self.changed:
                answered = self.changed.wait_for(lambda: self.waiting[number] is not None or self.has_ended, timeout)
        except (OSError, ValueError):
            self.reading.join(timeout)
            raise self._failed("the program has ended") from None
        finally:
            answer = self.waiting.pop(number)
        if answer is not None:
            return answer
        if answered:
            raise self._failed("the program ended before it answered")
        self._kill()
        raise StoreFailed(f"the program did not answer in {timeout:g} seconds")

    def is_running(self) -> bool:
        return not self.is_killed and self.process.poll() is None

    def forget(self) -> None:
        """In a child of the process that has it: drops what belongs to the parent."""
        if isinstance(self.process, Connection):
            self.process.forget()
            return
        self.process.returncode = 0
        for pipe in (self.process.stdin, self.process.stdout, self.process.stderr):
            assert pipe is not None
            # A thread that the child does not have may hold the buffer's lock.
            getattr(pipe, "raw").close()

    def end(self, timeout: float) -> int:
        """Ends the input, which makes the program close its file. Returns its status. A program that has not ended in time is killed."""
        assert self.process.stdin is not None
        if self.writing.acquire(timeout=timeout):
            try:
                self.process.stdin.close()
            except OSError:
                pass
            finally:
                self.writing.release()
        status = self._waited(timeout)
        if status is None:
            self._kill()
            status = self._waited(timeout)
        self.reading.join(timeout)
        return -1 if status is None else status

    def _waited(self, timeout: float) -> Optional[int]:
        """The status, or None if the program did not end in time."""
        try:
            return self.process.wait(timeout)
        except subprocess.TimeoutExpired:
            return None


_servers: "WeakSet[StoredServer]" = WeakSet()


def _forked() -> None:
    """In a child process: each server connects anew, or starts its own program."""
    for server in list(_servers):
        server._forked()


if hasattr(os, "register_at_fork"):
    os.register_at_fork(after_in_child=_forked)


class StoredServer:
    """A relying party over the file of the proved program, which one process may use at a time.

    `program` is the path of the program, `file` the path of the SQLite file, which is made if it is missing, unless `existing` is true.
    Keep `known` elsewhere: if you pass it as `at_least`, any copy of the file that lacks the last change is refused. With `wary` each
    commit flushes twice, for disks that may leave any bytes of a write that is cut off. Any thread may call. If the program has ended, the
    next call starts it again; a program that does not answer in `timeout` seconds is ended. A session expires `lifetime` seconds after it
    began, also if the program ended meanwhile. `max_credentials` is the greatest number of credentials; both are from 1 to 1,000,000. With
    `log` the program logs each refusal, and with `log="all"` also each acceptance and each error, to the logger `garvoeng` of `logging`.
    With `shared`, which is for Linux, all processes of this user that name the same file and the same parameters share one program, through
    a Unix socket that nobody else can open; it ends two seconds after the last of them, and the `timeout` of the process that started it
    holds for it. `verify(algorithm, x, y, message, signature)`
    returns whether a signature is valid; by default `cryptography` checks it.
    """

    def __init__(self, program: str, file: str, rp_id: str, origins: Sequence[str], rp_name: Optional[str] = None, *,
                 accept_none: bool = True, accept_self: bool = True, profile: str = "level3", top_origins: Sequence[str] = (),
                 max_credentials: int = 1_000_000, existing: bool = False, at_least: int = 0, wary: bool = False,
                 log: Union[bool, str] = False, lifetime: int = 300, timeout: float = 30.0,
                 shared: bool = False, verify: Optional[Verify] = None) -> None:
        self.origins, self.top_origins = limits.check_party(rp_id, origins), limits.check_top_origins(top_origins)
        limits.check_profile(profile)
        limits.check_attestation(accept_none, accept_self)
        for flag, what in ((existing, "existing"), (wary, "wary"), (shared, "shared")):
            limits.check_flag(flag, what)
        if log is not True and log is not False and log not in ("refusals", "all"):
            raise BadInput(f"log is True, False, \"refusals\" or \"all\": not {log!r}")
        program, file = limits.check_path(program, "program"), limits.check_path(file, "file")
        limits.check_whole(max_credentials, "max_credentials", 1, 1_000_000)
        limits.check_whole(limits.check_lifetime(lifetime), "lifetime", 1, 1_000_000)
        limits.check_whole(at_least, "at_least", 0)
        if isinstance(timeout, bool) or not isinstance(timeout, (int, float)) or not 0 < timeout < math.inf:
            raise BadInput(f"timeout is a number of seconds above 0: not {timeout!r}")
        limits.check_text(rp_id if rp_name is None else rp_name, "rp_name")
        attestation = "any" if accept_none and accept_self else "none" if accept_none else "self"
        self._words = [program, f"--rp-id={rp_id}", f"--rp-name={rp_id if rp_name is None else rp_name}",
                       "--profile", profile, "--attestation", attestation,
                       f"--max-credentials={max_credentials}", f"--expire={lifetime}",
                       *(f"--origin={origin}" for origin in self.origins),
                       *(f"--top-origin={origin}" for origin in self.top_origins),
                       *(["--existing"] if existing else []),
                       *([f"--at-least={at_least}"] if at_least else []),
                       *(["--wary"] if wary else []),
                       *([f"--log={'refusals' if log is True else log}"] if log else []),
                       "--", file]
        self._most_listed = limits.MAX_STRICT_LIST if profile == "strict" else limits.MAX_LIST
        self.verify = verify_of(verify)
        self.timeout = timeout
        self.shared = shared
        self._starting = threading.Lock()
        self._process: Optional[_Process] = None
        self._telling = threading.Lock()
        self._known = at_least
        _servers.add(self)

    # ---- the program

    def _forked(self) -> None:
        process, self._process, self._starting, self._telling = self._process, None, threading.Lock(), threading.Lock()
        if process is not None:
            process.forget()

    def _running(self) -> _Process:
        with self._starting:
            if self._process is not None and not self._process.is_running():
                self._process.end(self.timeout)
                self._process = None
            if self._process is None:
                self._process = _Process(self._words, self.shared, self.timeout)
            return self._process

    def _ask(self, act: str, **members: Any) -> Dict[str, Any]:
        process = self._running()
        answer = process.ask(act, {name: value for name, value in members.items() if value is not None}, self.timeout)
        if "error" in answer:
            raise BadInput(answer["error"])
        if "failed" in answer:
            process.end(self.timeout)
            raise StoreFailed(answer["failed"])
        with self._telling:
            self._known = max(self._known, answer.get("known", 0))
        return answer

    @property
    def known(self) -> int:
        """The number for `at_least`, which refuses copies of the file that lack the last change that this process knows of. `status` also
        has it."""
        return self._known

    def close(self) -> None:
        """Ends the program, which closes its file. A later call starts it again."""
        with self._starting:
            process, self._process = self._process, None
        if process is not None:
            was_running = process.is_running()
            if process.end(self.timeout) != 0 and was_running:
                raise StoreFailed("the program could not close its file")

    def __enter__(self) -> "StoredServer":
        return self

    def __exit__(self, kind: Optional[type], *_: Any) -> None:
        try:
            self.close()
        except StoreFailed:
            if kind is None:
                raise

    def _listed(self, ids: Ids, what: str) -> List[str]:
        return [forms.to_text(one) for one in options.ids_of(ids, what, self._most_listed)]

    def _finish(self, act: str, session: Optional[str], response: Dict[str, Any], **more: Any) -> Tuple[Dict[str, Any], Dict[str, Any]]:
        """What was accepted, and what was verified for it. The program gives the signature to verify. It gets the signature back if it is
        valid, and otherwise False, so that its log has the refusal."""
        text, asked = forms.sealed(session), {}
        answer = self._ask(act, session=text, response=response, **more)
        if "verify" in answer:
            asked = answer["verify"]
            parts = (forms.from_text(asked[name], name) for name in ("x", "y", "message", "signature"))
            is_valid = answers.is_true("verify", answers.waiting(self.verify)(asked["algorithm"], *parts))
            answer = self._ask(act, session=text, response=response, verified=asked if is_valid else False, **more)
        if "refused" in answer:
            raise Refused(act == "finish_registration", answer["refused"]["number"], answer["refused"]["text"])
        # A sign-in is accepted for a signature that was verified here, and for nothing else.
        if "accepted" not in answer or not (asked or act == "finish_registration"):
            raise StoreFailed("the program's answer is not a verdict")
        return answer["accepted"], asked

    # ---- registration

    def register_begin(self, user: bytes, user_name: str, display_name: Optional[str] = None, *, exclude: Optional[Ids] = None,
                       user_verification: Requirement = False, resident_key: Requirement = True,
                       algorithms: Sequence[int] = (ES256, EDDSA, RS256), authenticator_attachment: Optional[str] = None,
                       attestation: str = "none", conditional: bool = False, timeout: Optional[int] = None, hints: Sequence[str] = (),
                       extensions: Optional[Mapping[str, Any]] = None) -> Tuple[Dict[str, Any], str]:
        """Returns PublicKeyCredentialCreationOptionsJSON for the page, and the session, a text that only this visitor may have.

        The parameters are as in `Server.register_begin`; `exclude` has 64 at most, in the profile `strict` 8, and by default has the
        account's own.
        """
        handle = limits.check_user(user)
        named = options.user_entity(handle, user_name, display_name)
        verification = options.user_verification_of(user_verification)
        more = options.of_creation(verification, resident_key, authenticator_attachment, attestation, timeout, hints, extensions)
        how = {"algorithms": list(limits.check_algorithms(algorithms)), "conditional": limits.check_flag(conditional, "conditional"),
               "attestation": attestation != "none"}
        listed = options.fitting(self._own(handle), self._most_listed) if exclude is None else exclude
        answer = self._ask("begin_registration", user=named["id"], user_name=user_name, display_name=display_name,
                           exclude=self._listed(listed, "exclude"), user_verification=verification == "required", **how)
        return {**answer["options"], **more}, answer["session"]

    async def register_begin_async(self, user: bytes, user_name: str, display_name: Optional[str] = None,
                                   **how: Any) -> Tuple[Dict[str, Any], str]:
        """The same, awaited: a thread of the loop waits for the program's answer. If the wait is cancelled, the operation may or may not be
        done."""
        return await in_thread(self.register_begin, user, user_name, display_name, **how)

    def register_complete(self, session: Optional[str], response: Mapping[str, Any]) -> Registered:
        """Returns the registration of a RegistrationResponseJSON: the credential, which is in the file, and what is known of it. In the
        profile `level3`, `format` is `none` if no attestation was asked for. Raises `Refused` with the first step that the response does
        not pass (the first step of all is that the session is open), and `BadInput` if it is not in the form of JSON."""
        text = limits.check_session(session)
        raw_id, client_data, attestation_object = forms.registration_parts(response)
        transports = forms.transports_in(response["response"].get("transports"))
        made, _ = self._finish("finish_registration", text, _handed_on(
            raw_id, attestationObject=attestation_object, clientDataJSON=client_data), transports=list(transports))
        return Registered(Credential(*_parts(made), transports), forms.from_text(made["aaguid"], "aaguid"), made["format"],
                          made["user_verified"], made["backed_up"], made["flags"], _extensions(made))

    async def register_complete_async(self, session: Optional[str], response: Mapping[str, Any]) -> Registered:
        """The same, awaited like `register_begin_async`."""
        return await in_thread(self.register_complete, session, response)

    # ---- sign-in

    def authenticate_begin(self, *, user: Optional[bytes] = None, allow: Optional[Ids] = None, user_verification: Requirement = False,
                           timeout: Optional[int] = None, hints: Sequence[str] = (),
                           extensions: Optional[Mapping[str, Any]] = None) -> Tuple[Dict[str, Any], str]:
        """Returns PublicKeyCredentialRequestOptionsJSON for the page, and the session, a text that only this visitor may have.

        The parameters are as in `Server.authenticate_begin`; `allow` has the limits of `exclude` in `register_begin`. If it is not given,
        and the account is known, its passkeys are listed; if there are too many, any passkey that the browser finds may answer; it has to
        be the account's.
        """
        handle = None if user is None else limits.check_user(user)
        verification = options.user_verification_of(user_verification)
        more = options.of_request(verification, timeout, hints, extensions)
        own = self._own(handle) if allow is None and handle is not None else []
        listed = options.allowed(own, self._most_listed) if allow is None else allow
        answer = self._ask("begin_sign_in", user=None if handle is None else forms.to_text(handle), allow=self._listed(listed, "allow"),
                           user_verification=verification == "required")
        return {**answer["options"], **more}, answer["session"]

    async def authenticate_begin_async(self, **how: Any) -> Tuple[Dict[str, Any], str]:
        """The same, awaited like `register_begin_async`."""
        return await in_thread(self.authenticate_begin, **how)

    def authenticate_complete(self, session: Optional[str], response: Mapping[str, Any]) -> SignedIn:
        """Returns who signed in with an AuthenticationResponseJSON. The counter is in the file, and the session closed. Raises like
        `register_complete`."""
        text = limits.check_session(session)
        raw_id, client_data, data, signature, user = forms.sign_in_parts(response)
        who, asked = self._finish("finish_sign_in", text, _handed_on(
            raw_id, userHandle=user, authenticatorData=data, signature=signature, clientDataJSON=client_data))
        identity, handle = forms.from_text(who["credential"], "credential"), forms.from_text(who["user"], "user")
        # If the credential was deleted meanwhile, its transports are gone.
        told = [row.transports for row in self.rows(handle) if row.id == identity] or [()]
        credential = Credential(identity, handle, asked["algorithm"], forms.from_text(asked["x"], "x"), forms.from_text(asked["y"], "y"),
                                who["sign_count"], bool(who["flags"] & _ELIGIBLE), False, told[0])
        return SignedIn(credential, None, who["backed_up"], who["user_verified"], who["flags"], _extensions(who))

    async def authenticate_complete_async(self, session: Optional[str], response: Mapping[str, Any]) -> SignedIn:
        """The same, awaited like `register_begin_async`."""
        return await in_thread(self.authenticate_complete, session, response)

    # ---- sessions and credentials

    def _is_of(self, credential: bytes, user: Optional[bytes]) -> bool:
        """Whether a user has the credential; true if no user is given. Its user never changes, except by its deletion."""
        return user is None or any(row.id == credential for row in self.rows(user))

    def retire(self, credential: bytes, *, user: Optional[bytes] = None) -> bool:
        """Retires a credential: it can't sign in any more, and its id stays taken. Returns whether it could until now. Its user's open
        registrations end. With `user`, a credential of another account is left as it is."""
        name = _named(credential)
        return self._is_of(credential, user) and bool(self._ask("retire", credential=name)["retired"])

    def delete(self, credential: bytes, *, user: Optional[bytes] = None) -> bool:
        """Forgets a credential; anybody may register its id again. Returns whether it was there. Its user's open registrations end. `user`
        is as in `retire`."""
        name = _named(credential)
        return self._is_of(credential, user) and bool(self._ask("delete", credential=name)["deleted"])

    def retire_all(self, user: bytes) -> int:
        """Retires all of a user's credentials, and ends the user's open registrations. Returns how many could sign in until now."""
        return int(self._ask("retire_all", user=forms.to_text(limits.check_user(user)))["retired_all"])

    def erase(self, user: bytes) -> int:
        """Forgets a user's credentials at once, and ends the user's open registrations. Returns how many there were."""
        return int(self._ask("erase", user=forms.to_text(limits.check_user(user)))["erased"])

    def abandon(self, session: Optional[str]) -> bool:
        """Ends a session. Returns whether it was open."""
        return bool(self._ask("abandon", session=forms.sealed(limits.check_session(session)))["abandoned"])

    def rows(self, user: Optional[bytes] = None) -> List[KeptCredential]:
        """The credentials of a user, or all, in order of registration, with what is known of each."""
        answer = self._ask("rows", user=None if user is None else forms.to_text(limits.check_user(user)))
        return [_kept(row) for row in answer["rows"]]

    def _own(self, user: bytes) -> List[KeptCredential]:
        """A user's passkeys that may sign in."""
        return [row for row in self.rows(user) if not row.retired]

    # ---- the program's own

    def status(self) -> Dict[str, Any]:
        """The state of the site, for a health check and for metrics: `version`, `credentials`, `next_session`, and since the program's
        start `commits`, `last_commit_microseconds`, the accepted `sign_ins` and `registrations`, by step `sign_ins_refused` and
        `registrations_refused`, and the `lost_log_lines` that could not be written. `known` is as in `StoredServer.known`."""
        answer = self._ask("status")
        return {**answer["status"], "known": answer["known"]}

    def metrics(self) -> str:
        """`status` in the text format of Prometheus, version 0.0.4, for a response with the content type `text/plain; version=0.0.4`. Names
        begin with `garvoeng_`, counters end in `_total`, and refusals have the label `step`."""
        return prometheus(self.status())

    def backup(self, path: str) -> None:
        """Copies the file to an unused path on the program's machine: the copy is a whole file of one moment, and is on the disk when this
        returns. Other calls wait meanwhile. Raises `BadInput` if it can't be made; then there is none."""
        self._ask("backup", path=path)
