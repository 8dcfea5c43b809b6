"""A client of security keys: registers and signs in with a USB key, and with its PIN if it has one (WebAuthn Level 2, section 5.1; CTAP
2.1). The program `passkey client`, which runs beside this process, writes the requests to the key and reads its replies.

    with Client(security_keys()[0], "https://example.com", pin=lambda retries, wrong: getpass()) as client:
        response = client.create(options)

`python -m garvoeng.client --help` does the same at a terminal.
"""
from __future__ import annotations

import os
import threading
import time
import unicodedata
from typing import Any, Callable, Dict, List, Mapping, Optional, Protocol, Sequence, Tuple, Union

from . import client_host, forms
from .client_program import PACKET, ClientFailed, Program, no_answer, packets_of
from .errors import BadInput
from .hid import HidMissing, SecurityKey, security_keys

__all__ = ["Client", "ClientFailed", "ClientRefused", "HidMissing", "Key", "KeyLost", "SecurityKey", "security_keys"]

CANCEL_SECONDS = 2.0
"""How many seconds a key may take to confirm that it gave up."""
_LOOKS = 0.1
"""How often, in seconds, a wait for the key checks whether it was cancelled."""
_BUILT_IN_FAILED = (0x36, 0x3C, 0x3F)
"""The statuses of a key whose own verification failed, so that a PIN is needed (CTAP 2.1, section 8.2)."""

Pin = Callable[[Optional[int], bool], Optional[str]]
"""Returns the user's PIN, or None if the user gives none. Its parameters are how many attempts the key has left, if the key says so, and
whether a PIN was just refused."""
Choose = Callable[[List[Dict[str, Any]]], Optional[int]]
"""Returns the position of one of several credentials, from 0, or None. Each has `id`, `user_id`, `user_name` and `display_name`, which are
None if the key does not report them."""


class Key(Protocol):
    """A key that exchanges CTAPHID packets (CTAP 2.1, section 11.2). Either call raises OSError if the key is gone."""

    def write(self, packet: bytes) -> Any:
        """Sends a packet of 64 bytes to the key."""

    def read(self, timeout: float) -> bytes:
        """Returns the key's next packet. Raises TimeoutError if none comes within `timeout` seconds."""


class ClientRefused(Exception):
    """The key, the client or the user refused: `name` gives the reason in one word, `text` in a sentence.

    Before anything is sent: `bad_origin`, `rp_id_not_of_origin`, `unfit` (no key can be asked for these options). By the user: `cancelled`,
    `timeout`, `pin_needed`, `choice_needed`. PINs: `pin_blocked` (the key has to be reset), `power_cycle` (it has to be plugged in anew),
    `pin_not_set`, `pin_already_set`, `pin_not_offered`, `pin_too_short`, `pin_too_long`, `pin_ends_in_zero`, `pin_invalid`. What the key
    lacks or cannot take: `u2f_only`, `no_verification`, `no_protocol`, `option_not_offered`, `list_too_long`, `id_too_long`,
    `message_too_long`. What the key sent: `status` (it refused with `status`, a byte of CTAP 2.1, section 8.2: 0x19, it has a credential of
    the excluded; 0x27, the user declined; 0x2E, it has no credential for this), `not_readable`, `bad_point`, `bad_token`, `device_error`,
    `channel_dead`, `too_many_replies`. The host: `memory`, `bad_answer`. For names other than `status`, `status` is None, except for a
    `cancelled` that the key reported by itself."""

    def __init__(self, name: str, text: str, status: Optional[int] = None) -> None:
        self.name, self.text, self.status = name, text, status
        super().__init__(f"{name}: {text}")

    def __reduce__(self) -> Tuple[Any, ...]:
        return type(self), (self.name, self.text, self.status)


class KeyLost(Exception):
    """The key was pulled out, can't be opened, or does not use packets of 64 bytes. The operation may or may not have been completed."""


def _pin_of(pin: Any) -> str:
    """A PIN in the form NFC (CTAP 2.1, section 6.5.1)."""
    if not isinstance(pin, str):
        raise BadInput("a PIN is a text")
    made = unicodedata.normalize("NFC", pin)
    if any(0xD800 <= ord(one) < 0xE000 for one in made):
        raise BadInput("a PIN is a text of Unicode")
    return made


class Client:
    """A client for one key and the pages of one origin, such as `https://example.com`.

    `program` is the path of `passkey-client`, or the words that run it. `pin(retries, wrong)` asks the user for the PIN: `retries` is how
    many attempts the key has left, or None, and `wrong` says whether a PIN was just refused; without it an act that needs a PIN is refused
    as `pin_needed`. `touch()` is called each time the user has to touch the key. `choose(credentials)` returns the position, from 0, of the
    credential to use; each has `id`, `user_id`, `user_name` and `display_name`. Without it several credentials are refused as
    `choice_needed`. If a callback returns None, the call is refused as `cancelled`. All three are called in the caller's thread.

    If `built_in` is false, the key's own verification, such as a fingerprint reader, is not used; otherwise, if it fails, the client asks
    for the PIN. A call waits for the key for `timeout` seconds in all, and no longer than the options' `timeout`, which is in milliseconds;
    then the key has to give up, and the call is refused as `timeout`. The time that the user takes for a PIN or a choice does not count.

    Calls from several threads run one after another. The key is lent: the client does not close it. PINs are sent to the program and kept
    nowhere; no exception has one in its text.

    Each call raises `ClientRefused`, `KeyLost`, `ClientFailed`, and `BadInput` for a value that is not JSON or is longer than 65,536 bytes.
    Ctrl-C makes the key give up, and then raises KeyboardInterrupt.
    """

    def __init__(self, key: Key, origin: str, *, program: Union[str, Sequence[str]] = "passkey-client", pin: Optional[Pin] = None,
                 touch: Optional[Callable[[], Any]] = None, choose: Optional[Choose] = None, built_in: bool = True,
                 timeout: float = 60.0) -> None:
        self.key = key
        self.origin = origin
        self.timeout = timeout
        self.built_in = built_in
        self._words = [program] if isinstance(program, str) else list(program)
        self._pin, self._touch, self._choose = pin, touch, choose
        self._program: Optional[Program] = None
        self._using = threading.Lock()
        self._speaking = threading.RLock()
        self._forget()

    def _forget(self) -> None:
        """Resets what is known of a call."""
        self._channel = b""
        self._is_under_way = False
        self._gives_up: Optional[str] = None
        self._failure: Optional[Exception] = None
        self._is_waiting = False
        self._is_touched = False
        self._until = 0.0

    # ---- what is asked

    def create(self, options: Mapping[str, Any]) -> Dict[str, Any]:
        """Registers. Takes PublicKeyCredentialCreationOptionsJSON and returns the RegistrationResponseJSON for the site (WebAuthn Level 3,
        section 5.1)."""
        return self._ceremony("register", options)

    def get(self, options: Mapping[str, Any]) -> Dict[str, Any]:
        """Signs in. Takes PublicKeyCredentialRequestOptionsJSON and returns the AuthenticationResponseJSON for the site."""
        return self._ceremony("sign_in", options)

    def information(self) -> Dict[str, Any]:
        """What the key reports of itself (CTAP 2.1, section 6.4): `versions`, `extensions`, `aaguid`, `options`, `max_message` in bytes,
        `protocols`, `max_credentials_in_list`, `max_credential_id_length` in bytes, `transports`, `algorithms`, `min_pin_length` in code
        points, `firmware_version` and `remaining_credentials`; None for what it does not report."""
        told = self._called("information", "information")
        return {name: value for name, value in told.items() if name not in ("state", "send")}

    def set_pin(self, new: str) -> None:
        """Sets the first PIN of a key without one: at least the key's `min_pin_length` code points, or 4, and at most 63 bytes of UTF-8."""
        self._called("set_pin", "pin_set", new_pin=_pin_of(new))

    def change_pin(self, new: str) -> None:
        """Changes a key's PIN; the lengths are as in `set_pin`. `pin` is asked for the old one."""
        self._called("change_pin", "pin_set", new_pin=_pin_of(new))

    def cancel(self) -> None:
        """Makes the key, from another thread, give up the operation under way. The call ends as `cancelled`, or with its answer if this
        came first. Does nothing if none is under way."""
        self._give_up("cancelled")

    def close(self) -> None:
        """Ends the program. A later call starts it again."""
        with self._using, self._speaking:
            program, self._program = self._program, None
            if program is not None:
                program.end()

    def __enter__(self) -> "Client":
        return self

    def __exit__(self, *_: Any) -> None:
        self.close()

    # ---- a call

    def _ceremony(self, act: str, options: Mapping[str, Any]) -> Dict[str, Any]:
        if not isinstance(options, Mapping):
            raise BadInput("options are an object of JSON")
        wanted: Dict[str, Any] = {"origin": self.origin, "options": dict(options)}
        limit: Any = options.get("timeout")
        seconds = min(limit, 1_000_000_000) / 1000 if type(limit) in (int, float) else self.timeout
        state = "registered" if act == "register" else "signed_in"
        try:
            answer = self._called(act, state, seconds, built_in=self.built_in, **wanted)
        except ClientRefused as refused:
            if not self.built_in or self._pin is None or refused.status not in _BUILT_IN_FAILED:
                raise
            answer = self._called_by_pin(refused, act, state, seconds, **wanted)
        response = answer.get("response")
        if not isinstance(response, dict):
            raise no_answer()
        return response

    def _called_by_pin(self, refused: ClientRefused, act: str, *how: Any, **members: Any) -> Dict[str, Any]:
        """Repeats the act with the PIN. A key without one stays refused as before."""
        try:
            return self._called(act, *how, built_in=False, **members)
        except ClientRefused as again:
            raise refused if again.name == "no_verification" else again from None

    def _called(self, act: str, state: str, seconds: Optional[float] = None, **members: Any) -> Dict[str, Any]:
        """The last answer of an act that is in this state."""
        with self._using:
            try:
                self._begin(min(self.timeout if seconds is None else seconds, self.timeout))
                answer = self._say(act, nonce=forms.to_text(os.urandom(8)), **members)
                while answer["state"] != state:
                    answer = self._next(answer)
                return answer
            except ClientRefused:
                raise
            except BaseException:
                self._let_go()
                raise
            finally:
                self._is_under_way = False

    def _begin(self, seconds: float) -> None:
        with self._speaking:
            self._forget()
            if self._program is not None and not self._program.is_running():
                self._program.end(0)
                self._program = None
            if self._program is None:
                self._program = Program(self._words)
            self._until = time.monotonic() + seconds
            self._is_under_way = True

    def _next(self, answer: Dict[str, Any]) -> Dict[str, Any]:
        """One more step."""
        state = answer["state"]
        if state in ("waits", "touch"):
            self._tell_touch(state == "touch")
            return self._heard()
        self._is_touched = False
        before = time.monotonic()
        act, members = self._answered(state, answer)
        if state != "asks":
            self._until += time.monotonic() - before
        if self._gives_up is not None:
            raise self._given_up()
        return self._say(act, **members)

    def _answered(self, state: str, answer: Dict[str, Any]) -> Tuple[str, Dict[str, Any]]:
        """What this host and its user reply to the program."""
        if state == "needs_pin":
            return "pin", {"pin": self._asked_pin(answer)}
        if state == "asks":
            return "computed", {"bytes": self._computed(answer)}
        if state == "choose":
            return "choose", {"number": self._chosen(answer)}
        raise no_answer()

    # ---- lines and packets

    def _say(self, act: str, **members: Any) -> Dict[str, Any]:
        """Sends a line, and writes the packets of its answer to the key. Raises the refusal if the answer is one."""
        with self._speaking:
            if self._failure is not None:
                raise self._failure
            assert self._program is not None
            answer = self._program.ask(act, **members)
            packets = packets_of(answer)
            self._is_waiting = answer["state"] in ("waits", "touch")
            self._write(packets)
        if answer["state"] == "refused":
            raise self._refusal(answer)
        if answer["state"] == "error":
            raise BadInput(str(answer.get("text"))) if "nonce" in members else ClientFailed(f"the program: {answer.get('text')}")
        if self._gives_up is not None and packets and act != "cancel":
            self._say("cancel")
        return answer

    def _write(self, packets: Sequence[bytes]) -> None:
        for packet in packets:
            self._channel = packet[:4]
            try:
                self.key.write(packet)
            except OSError as error:
                raise KeyLost(f"the key is gone: {error}") from None

    def _refusal(self, answer: Dict[str, Any]) -> ClientRefused:
        if answer.get("name") == "cancelled" and self._gives_up is not None:
            return self._given_up()
        return ClientRefused(str(answer.get("name")), str(answer.get("text")), answer.get("status"))

    def _heard(self) -> Dict[str, Any]:
        """What the program replies to the key's next packet."""
        while True:
            if self._failure is not None:
                raise self._failure
            left = self._until - time.monotonic()
            if left <= 0:
                if self._gives_up is not None:
                    raise self._given_up()
                self._give_up("timeout")
                continue
            try:
                packet = bytes(self.key.read(min(left, _LOOKS)))
            except TimeoutError:
                continue
            except OSError as error:
                raise KeyLost(f"the key is gone: {error}") from None
            if len(packet) != PACKET:
                raise KeyLost(f"the key sent a packet of {len(packet)} bytes")
            return self._say("packet", packet=forms.to_text(packet))

    def _given_up(self) -> ClientRefused:
        if self._gives_up == "timeout":
            return ClientRefused("timeout", "the key did not answer in time")
        return ClientRefused("cancelled", "it was cancelled")

    def _give_up(self, name: str) -> None:
        """Makes the key give up, from any thread."""
        with self._speaking:
            if not self._is_under_way or self._gives_up is not None:
                return
            self._gives_up = name
            self._until = time.monotonic() + CANCEL_SECONDS
            if self._is_waiting:
                try:
                    self._say("cancel")
                except (ClientRefused, KeyLost, ClientFailed) as failure:
                    self._failure = failure

    def _let_go(self) -> None:
        """Ends the key's work after a call ended for any reason: makes a key that is still working give up, and reads its answer."""
        if not self._is_waiting or not self._channel:
            return
        try:
            self.key.write((self._channel + b"\x91\x00\x00").ljust(PACKET, b"\0"))
            until = time.monotonic() + CANCEL_SECONDS
            while (left := until - time.monotonic()) > 0 and self.key.read(left)[4:5] != b"\x90":
                pass
        except OSError:
            pass

    # ---- the user, and mathematics

    def _tell_touch(self, is_asked: bool) -> None:
        if is_asked and not self._is_touched and self._touch is not None:
            self._touch()
        self._is_touched = self._is_touched or is_asked

    def _asked_pin(self, answer: Dict[str, Any]) -> str:
        if self._pin is None:
            raise ClientRefused("pin_needed", "the key needs its PIN, and there is nobody to ask")
        pin = self._pin(answer.get("retries"), bool(answer.get("wrong")))
        if pin is None:
            raise ClientRefused("cancelled", "the user gave no PIN")
        return _pin_of(pin)

    def _chosen(self, answer: Dict[str, Any]) -> int:
        if self._choose is None:
            raise ClientRefused("choice_needed", "the key has several credentials, and there is nobody to choose")
        listed = answer.get("credentials")
        if not isinstance(listed, list):
            raise no_answer()
        number = self._choose(listed)
        if number is None:
            raise ClientRefused("cancelled", "the user chose none")
        if type(number) is not int or not 0 <= number < len(listed):
            raise BadInput(f"a choice is a number from 0 to {len(listed) - 1}")
        return number

    def _computed(self, answer: Dict[str, Any]) -> str:
        try:
            parts = [forms.from_text(answer[name] or "", name) for name in ("key", "iv", "text")]
            return forms.to_text(client_host.computed(answer["operation"], *parts))
        except client_host.BadPoint as error:
            raise ClientRefused("bad_point", str(error)) from None
        except (KeyError, ValueError, TypeError):
            raise ClientFailed("the program asked for what can't be computed") from None


if __name__ == "__main__":
    import sys

    from .client_commands import main

    sys.exit(main())
