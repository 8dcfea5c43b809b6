"""`python -m garvoeng.client`: a client of security keys at a terminal."""
from __future__ import annotations

import argparse
import getpass
import json
import os
import sys
from typing import Any, Dict, List, Optional, Sequence

from .client import Client, ClientFailed, ClientRefused, KeyLost, SecurityKey
from .errors import BadInput
from .forms import to_text
from .hid import HidMissing, security_keys

_STATUSES = """statuses: 0 done; 1 the key, the client or the user refused; 2 the command line or the options are wrong; 3 there is no key,
or there are several and none was named, or it was pulled out, or python-fido2 is missing; 4 the program passkey-client can't be run or failed;
5 standard output can't be written; 130 Ctrl-C, and the key has given up.
Responses and a key's information go to standard output as JSON, messages for the user to standard error."""
ALGORITHMS = (-7, -8, -257)


class _Wrong(Exception):
    """An error that ends the command with a status."""

    def __init__(self, status: int, text: str) -> None:
        self.status = status
        super().__init__(text)


def _plain(text: str) -> str:
    """A text that a key may have sent, without characters that control a terminal."""
    return "".join(one if one.isprintable() else "?" for one in text)


def _tell(text: str) -> None:
    print(_plain(text), file=sys.stderr, flush=True)


def _asked_pin(retries: Optional[int], wrong: bool) -> Optional[str]:
    if wrong:
        _tell("That was not the PIN.")
    left = "" if retries is None else f" ({retries} attempt{'' if retries == 1 else 's'} left)"
    try:
        return getpass.getpass(f"PIN of the key{left}: ") or None
    except EOFError:
        return None


def _new_pin() -> str:
    try:
        first = getpass.getpass("New PIN: ")
        again = getpass.getpass("New PIN again: ")
    except EOFError:
        raise _Wrong(1, "no PIN was given") from None
    if first != again:
        raise _Wrong(1, "the two PINs differ")
    return first


def _chosen(credentials: List[Dict[str, Any]]) -> Optional[int]:
    for place, one in enumerate(credentials):
        _tell(f"{place + 1}: {one.get('display_name') or one.get('user_name') or one.get('user_id') or one.get('id')}")
    print(f"Which one, 1 to {len(credentials)}? ", end="", file=sys.stderr, flush=True)
    try:
        number = int(sys.stdin.readline())
    except ValueError:
        return None
    return number - 1 if 1 <= number <= len(credentials) else None


def _key(path: Optional[str]) -> SecurityKey:
    """The key at this path, or the only one."""
    found = security_keys()
    named = [one for one in found if path in (None, one.path)]
    if len(named) == 1:
        return named[0]
    if not named:
        raise _Wrong(3, "no security key is there" if path is None else f"no security key is at {path}")
    raise _Wrong(3, f"there are several keys, name one by --key: {', '.join(one.path for one in named)}")


def _options(words: argparse.Namespace) -> Dict[str, Any]:
    """The options in the file, or default ones with a challenge of their own."""
    if words.options is not None:
        try:
            with (sys.stdin if words.options == "-" else open(words.options, encoding="utf-8")) as file:
                options = json.load(file)
        except (OSError, ValueError, RecursionError) as error:
            raise _Wrong(2, f"{words.options}: {error}") from None
        if not isinstance(options, dict):
            raise _Wrong(2, f"{words.options} has no object")
        return options
    challenge = to_text(os.urandom(32))
    if words.command == "sign-in":
        party = {} if words.rp_id is None else {"rpId": words.rp_id}
        return {"challenge": challenge, "userVerification": words.verification, **party}
    identity = {} if words.rp_id is None else {"id": words.rp_id}
    return {"challenge": challenge, "rp": {"name": words.rp_id or words.origin, **identity},
            "user": {"id": to_text(os.urandom(32)), "name": words.user, "displayName": words.user},
            "pubKeyCredParams": [{"type": "public-key", "alg": alg} for alg in ALGORITHMS],
            "authenticatorSelection": {"residentKey": words.resident, "requireResidentKey": words.resident == "required",
                                       "userVerification": words.verification}}


def _words(words: Optional[Sequence[str]]) -> argparse.Namespace:
    reading = argparse.ArgumentParser(prog="python -m garvoeng.client", description=__doc__, epilog=_STATUSES,
                                      formatter_class=argparse.RawDescriptionHelpFormatter)
    reading.add_argument("--key", metavar="PATH", help="the key, as `list` names it; not needed if there is only one")
    reading.add_argument("--program", metavar="PATH", default=os.environ.get("PASSKEY_CLIENT", "passkey-client"),
                         help="the program passkey-client; by default PASSKEY_CLIENT in the environment, or the one in PATH")
    reading.add_argument("--no-built-in", action="store_true", help="ask for the PIN, not for a fingerprint")
    reading.add_argument("--timeout", metavar="SECONDS", type=float, default=60.0, help="how long the key may take (60)")
    commands = reading.add_subparsers(dest="command", required=True, metavar="COMMAND")
    commands.add_parser("list", help="the connected keys: path, USB numbers, name")
    commands.add_parser("information", help="what the key reports of itself")
    commands.add_parser("set-pin", help="set the key's first PIN")
    commands.add_parser("change-pin", help="change the key's PIN")
    for name, what in (("register", "a new credential: RegistrationResponseJSON"), ("sign-in", "AuthenticationResponseJSON")):
        one = commands.add_parser(name, help=what)
        one.add_argument("--origin", required=True, help="such as https://example.com")
        one.add_argument("--options", metavar="FILE", help="the site's options as JSON, - for standard input; by default made from the "
                                                           "following, with a new challenge")
        one.add_argument("--rp-id", metavar="DOMAIN", help="the relying party; by default the origin's host")
        one.add_argument("--verification", choices=("required", "preferred", "discouraged"), default="preferred")
        if name == "register":
            one.add_argument("--user", metavar="NAME", default="user")
            one.add_argument("--resident", choices=("required", "preferred", "discouraged"), default="preferred")
    return reading.parse_args(words)


def _done(words: argparse.Namespace) -> Any:
    """What the command prints."""
    if words.command == "list":
        found = security_keys()
        if not found:
            raise _Wrong(3, "no security key is there")
        return "\n".join(f"{one.path} {one.vendor:04x}:{one.product:04x} {_plain(one.name or '')}".rstrip() for one in found)
    options = _options(words) if words.command in ("register", "sign-in") else {}
    with _key(words.key) as key, Client(key, getattr(words, "origin", ""), program=words.program, pin=_asked_pin, choose=_chosen,
                                        touch=lambda: _tell("Touch the key."), built_in=not words.no_built_in,
                                        timeout=words.timeout) as client:
        if words.command == "register":
            return client.create(options)
        if words.command == "sign-in":
            return client.get(options)
        if words.command == "information":
            return client.information()
        if words.command == "set-pin":
            client.set_pin(_new_pin())
        else:
            client.change_pin(_new_pin())
    return None


def _print(value: Any) -> None:
    if value is not None:
        print(value if isinstance(value, str) else json.dumps(value, indent=2), flush=True)


def main(words: Optional[Sequence[str]] = None) -> int:
    """Runs the command of these words, or of the process's own, and returns the status."""
    read = _words(words)
    try:
        made = _done(read)
    except _Wrong as wrong:
        _tell(str(wrong))
        return wrong.status
    except ClientRefused as refused:
        _tell(f"refused: {refused}")
        return 1
    except BadInput as error:
        _tell(str(error))
        return 2
    except (KeyLost, HidMissing) as error:
        _tell(str(error))
        return 3
    except ClientFailed as error:
        _tell(str(error))
        return 4
    except KeyboardInterrupt:
        _tell("")
        return 130
    try:
        _print(made)
    except OSError as error:
        _tell(f"standard output: {error}")
        sys.stdout = open(os.devnull, "w", encoding="utf-8")
        return 5
    return 0
