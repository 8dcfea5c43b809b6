"""An authenticator with a PIN, in Python, for tests: makeCredential, getAssertion, getNextAssertion, getInfo and clientPIN
(CTAP 2.1, sections 6.1 to 6.5)."""
import os
import struct
from dataclasses import dataclass
from typing import Optional

from cryptography.hazmat.primitives import hashes, serialization
from cryptography.hazmat.primitives.asymmetric import ec, ed25519

from pin_key_parts import NotCanonical, One, Two, read, sha256, write

ES256, EDDSA = -7, -8
UP, UV, AT, ED = 1, 4, 64, 128
MAKE_CREDENTIAL, GET_ASSERTION = 1, 2


class Status(Exception):
    """A status of section 8.2."""

    def __init__(self, code):
        super().__init__(hex(code))
        self.code = code


INVALID_COMMAND, INVALID_PARAMETER, INVALID_LENGTH = 1, 2, 3
UNEXPECTED_TYPE, INVALID_CBOR, MISSING_PARAMETER, CREDENTIAL_EXCLUDED = 0x11, 0x12, 0x14, 0x19
UNSUPPORTED_ALGORITHM, OPERATION_DENIED, KEY_STORE_FULL = 0x26, 0x27, 0x28
UNSUPPORTED_OPTION, INVALID_OPTION, KEEPALIVE_CANCEL, NO_CREDENTIALS, NOT_ALLOWED = 0x2B, 0x2C, 0x2D, 0x2E, 0x30
PIN_INVALID, PIN_BLOCKED, PIN_AUTH_INVALID, PIN_AUTH_BLOCKED, PIN_NOT_SET = 0x31, 0x32, 0x33, 0x34, 0x35
PUAT_REQUIRED, PIN_POLICY_VIOLATION, REQUEST_TOO_LARGE, UV_BLOCKED = 0x36, 0x37, 0x39, 0x3C
INVALID_SUBCOMMAND, UV_INVALID, UNAUTHORIZED_PERMISSION = 0x3E, 0x3F, 0x40


@dataclass
class Kind:
    """What a key is and what it tells of itself. None is not told."""

    versions: tuple = ("FIDO_2_0", "FIDO_2_1")
    protocols: tuple = (2, 1)
    client_pin: bool = True
    token: Optional[bool] = True
    uv: Optional[bool] = None
    rk: bool = True
    always_uv: Optional[bool] = None
    uv_not_required: Optional[bool] = None
    min_pin_length: Optional[int] = None
    max_message: Optional[int] = 1200
    max_list: Optional[int] = 8
    max_id: Optional[int] = 128
    id_size: int = 48
    algorithms: tuple = (ES256, EDDSA)
    packed: bool = False
    u2f_only: bool = False
    # what INIT tells: 0x04 CTAPHID_CBOR, 0x08 no CTAPHID_MSG
    capabilities: int = 0x0C
    unknown: bool = False
    leaves_out_credential: bool = False
    max_credentials: int = 64
    pin_retries: int = 8
    uv_retries: int = 3
    # what it sends while makeCredential and getAssertion are processed
    keepalives: tuple = ()
    firmware: Optional[int] = 5
    transports: Optional[tuple] = ("usb",)


@dataclass
class Credential:
    id: bytes
    rp_id: str
    user: dict
    alg: int
    key: object
    resident: bool
    protection: int
    count: int = 0
    order: int = 0

    def cose_key(self):
        public = self.key.public_key()
        if self.alg == EDDSA:
            return {1: 1, 3: EDDSA, -1: 6, -2: public.public_bytes(serialization.Encoding.Raw, serialization.PublicFormat.Raw)}
        point = public.public_numbers()
        return {1: 2, 3: ES256, -1: 1, -2: point.x.to_bytes(32, "big"), -3: point.y.to_bytes(32, "big")}

    def sign(self, message):
        return self.key.sign(message) if self.alg == EDDSA else self.key.sign(message, ec.ECDSA(hashes.SHA256()))


def of_kind(members, key, kind, required=True):
    """A member of this kind; None where it is absent."""
    value = members.get(key)
    if value is None:
        if required:
            raise Status(MISSING_PARAMETER)
    elif not isinstance(value, kind) or isinstance(value, bool) != (kind is bool):
        raise Status(UNEXPECTED_TYPE)
    return value


class Authenticator:
    """The commands of CTAP. One that needs the user's presence is a generator, which goes on once it is told of it."""

    def __init__(self, kind=None, pin=None, **how):
        self.kind = kind or Kind(**how)
        self.aaguid = bytes(range(0x30, 0x40))
        self.credentials, self.made = {}, 0
        self.pin, self.pin_length = None, 0
        self.finger = True
        self.retries, self.uv_retries = self.kind.pin_retries, self.kind.uv_retries
        if pin is not None:
            self.keep_pin(pin.encode())
        self.power_up()

    def power_up(self):
        self.protocols = {one.number: one() for one in (One, Two) if one.number in self.kind.protocols}
        self.wrong_in_a_row, self.remembered = 0, []

    def keep_pin(self, pin):
        self.pin, self.retries = sha256(pin)[:16], self.kind.pin_retries
        self.wrong_in_a_row = 0

    def handled(self, message):
        """The reply to a message, or the generator that makes it."""
        if len(message) > (self.kind.max_message or 1024):
            raise Status(REQUEST_TOO_LARGE)
        commands = {1: self.make_credential, 2: self.get_assertion, 4: self.get_info, 6: self.client_pin, 8: self.get_next_assertion}
        command = commands.get(message[0] if message else 0)
        if command is None:
            raise Status(INVALID_COMMAND)
        if message[0] != 8:
            self.remembered = []
        if message[0] in (4, 8):
            if len(message) > 1:
                raise Status(INVALID_LENGTH)
            return command()
        try:
            members = read(message[1:])
        except NotCanonical:
            raise Status(INVALID_CBOR) from None
        if not isinstance(members, dict):
            raise Status(UNEXPECTED_TYPE)
        return command(members)

    # ---- getInfo (6.4)

    def get_info(self):
        kind = self.kind
        options = {"rk": kind.rk, "up": True}
        if kind.client_pin:
            options["clientPin"] = self.pin is not None
        for name, value in (("uv", kind.uv), ("pinUvAuthToken", kind.token), ("alwaysUv", kind.always_uv),
                            ("makeCredUvNotRqd", kind.uv_not_required)):
            if value is not None:
                options[name] = value
        told = {1: list(kind.versions), 2: ["credProtect", "hmac-secret"], 3: self.aaguid, 4: options, 5: kind.max_message,
                6: list(kind.protocols) or None, 7: kind.max_list, 8: kind.max_id, 9: kind.transports and list(kind.transports),
                10: [{"alg": alg, "type": "public-key"} for alg in kind.algorithms], 13: kind.min_pin_length, 14: kind.firmware,
                20: kind.max_credentials - sum(one.resident for one in self.credentials.values())}
        told = {key: value for key, value in told.items() if value is not None}
        if kind.unknown:
            told.update({63: {"deep": [{"more": True}]}, 255: b"\x01"})
            options["zzUnknown"] = True
            told[1].append("FIDO_9_9")
            told[10][0]["zzUnknown"] = [1, 2]
        return told

    # ---- user verification

    def protocol_of(self, number):
        if number not in self.protocols:
            raise Status(INVALID_PARAMETER)
        return self.protocols[number]

    def is_protected(self):
        return self.pin is not None or self.kind.uv is True

    def needs_pin(self):
        raise Status(PUAT_REQUIRED if self.kind.client_pin else OPERATION_DENIED)

    def verify_by_finger(self):
        """Built-in verification (6.5.3.1)."""
        if self.uv_retries == 0:
            raise Status(UV_BLOCKED)
        self.uv_retries -= 1
        if not self.finger:
            raise Status(UV_BLOCKED if self.uv_retries == 0 else UV_INVALID)
        self.uv_retries = self.kind.uv_retries

    def verify_by_token(self, protocol, message, param, permission, rp_id):
        """pinUvAuthParam (6.1.2 step 11, 6.2.2 step 6)."""
        if protocol.token is None or not protocol.in_use or not protocol.verify(protocol.token, message, param):
            raise Status(PIN_AUTH_INVALID)
        if self.kind.token and (not protocol.permissions & permission or protocol.rp_id not in (None, rp_id) or not protocol.verified):
            raise Status(PIN_AUTH_INVALID)
        if protocol.rp_id is None:
            protocol.rp_id = rp_id

    def verified(self, members, options, places, permission, rp_id, is_needed):
        """Whether the user is verified, by what the request has of it."""
        param = of_kind(members, places[0], bytes, False)
        wants = bool(options.get("uv")) and param is None
        if param is not None:
            number = of_kind(members, places[1], int)
            protocol = self.protocol_of(number)
            if not self.is_protected():
                raise Status(PIN_NOT_SET)
            self.verify_by_token(protocol, members[places[2]], param, permission, rp_id)
            return protocol
        if wants or (self.kind.always_uv and self.kind.uv and is_needed):
            if not self.kind.uv:
                raise Status(INVALID_OPTION)
            try:
                self.verify_by_finger()
            except Status:
                raise Status(PUAT_REQUIRED if self.pin is not None else OPERATION_DENIED) from None
            return True
        if is_needed and (self.is_protected() or self.kind.always_uv):
            self.needs_pin()
        return False

    def used_up(self, protocol):
        """After a presence a token is for no more (6.5.2.1): clearUserPresentFlag, clearUserVerifiedFlag, clearPinUvAuthTokenPermissionsExceptLbw."""
        if isinstance(protocol, One) and self.kind.token:
            protocol.permissions &= 0x10
            protocol.verified = False

    @staticmethod
    def touched(is_present):
        if not is_present:
            raise Status(OPERATION_DENIED)

    def zero_length(self, members, place):
        """A pinUvAuthParam of no bytes asks for a touch, and tells whether a PIN is set."""
        if members.get(place) == b"":
            self.touched((yield))
            raise Status(PIN_INVALID if self.pin is not None else PIN_NOT_SET)

    # ---- makeCredential (6.1)

    def make_credential(self, members):
        client_data_hash, rp, user = of_kind(members, 1, bytes), of_kind(members, 2, dict), of_kind(members, 3, dict)
        rp_id, user_id = of_kind(rp, "id", str), of_kind(user, "id", bytes)
        if len(client_data_hash) != 32 or not 1 <= len(user_id) <= 64:
            raise Status(INVALID_LENGTH)
        params, options = of_kind(members, 4, list), of_kind(members, 7, dict, False) or {}
        extensions, exclude = of_kind(members, 6, dict, False) or {}, of_kind(members, 5, list, False) or []
        yield from self.zero_length(members, 8)
        alg = self.algorithm_of(params)
        resident = bool(options.get("rk"))
        if resident and not self.kind.rk:
            raise Status(UNSUPPORTED_OPTION)
        if options.get("up") is False:
            raise Status(INVALID_OPTION)
        is_needed = bool(self.kind.always_uv) or not self.kind.uv_not_required or resident
        by = self.verified(members, options, (8, 9, 1), MAKE_CREDENTIAL, rp_id, is_needed)
        for one in exclude:
            found = self.credentials.get(of_kind(one, "id", bytes))
            if found and found.rp_id == rp_id and (found.protection < 3 or by):
                self.touched((yield))
                raise Status(CREDENTIAL_EXCLUDED)
        self.touched((yield))
        self.used_up(by)
        made = self.new_credential(rp_id, user, alg, resident, extensions.get("credProtect", 1))
        outputs = {name: extensions[name] for name in ("credProtect", "hmac-secret") if extensions.get(name)}
        data = self.auth_data(made, UP | AT | (UV if by else 0), outputs)
        statement = {"alg": alg, "sig": made.sign(data + client_data_hash)} if self.kind.packed else {}
        return {1: "packed" if self.kind.packed else "none", 2: data, 3: statement, **({99: ["unknown"]} if self.kind.unknown else {})}

    def algorithm_of(self, params):
        """The first that this key has; each entry is looked at."""
        offered = [(of_kind(one, "type", str), of_kind(one, "alg", int)) for one in params]
        for kind, alg in offered:
            if kind == "public-key" and alg in self.kind.algorithms:
                return alg
        raise Status(UNSUPPORTED_ALGORITHM)

    def new_credential(self, rp_id, user, alg, resident, protection):
        """A new credential; a resident one takes the place of that of the same user."""
        if resident:
            for old in [one for one in self.credentials.values() if one.resident and one.rp_id == rp_id and one.user["id"] == user["id"]]:
                del self.credentials[old.id]
            if sum(one.resident for one in self.credentials.values()) >= self.kind.max_credentials:
                raise Status(KEY_STORE_FULL)
        self.made += 1
        key = ed25519.Ed25519PrivateKey.generate() if alg == EDDSA else ec.generate_private_key(ec.SECP256R1())
        made = Credential(os.urandom(self.kind.id_size), rp_id, user, alg, key, resident, protection, order=self.made)
        self.credentials[made.id] = made
        return made

    def auth_data(self, credential, flags, outputs):
        data = sha256(credential.rp_id.encode()) + struct.pack(">BI", flags | (ED if outputs else 0), credential.count)
        if flags & AT:
            data += self.aaguid + struct.pack(">H", len(credential.id)) + credential.id + write(credential.cose_key())
        return data + (write(outputs) if outputs else b"")

    # ---- getAssertion (6.2), getNextAssertion (6.3)

    def get_assertion(self, members):
        rp_id, client_data_hash = of_kind(members, 1, str), of_kind(members, 2, bytes)
        if len(client_data_hash) != 32:
            raise Status(INVALID_LENGTH)
        options, allow = of_kind(members, 5, dict, False) or {}, of_kind(members, 3, list, False) or []
        yield from self.zero_length(members, 6)
        if "rk" in options:
            raise Status(UNSUPPORTED_OPTION)
        is_up = options.get("up", True)
        by = self.verified(members, options, (6, 7, 2), GET_ASSERTION, rp_id, bool(self.kind.always_uv) and is_up)
        found = self.located(rp_id, allow, bool(by))
        if is_up:
            self.touched((yield))
            self.used_up(by)
        if not found:
            raise Status(NO_CREDENTIALS)
        flags = (UP if is_up else 0) | (UV if by else 0)
        if allow:
            return self.assertion(found[0], client_data_hash, flags, leave_out=self.kind.leaves_out_credential and len(allow) == 1)
        self.remembered = [(one, client_data_hash, flags) for one in found[1:]]
        reply = self.assertion(found[0], client_data_hash, flags, named=len(found) > 1)
        return {**reply, **({5: len(found)} if len(found) > 1 else {})}

    def located(self, rp_id, allow, is_verified):
        """The credentials that apply, the newest first (6.2.2 step 7), as credProtect lets them."""
        ids = [of_kind(one, "id", bytes) for one in allow]
        found = [one for one in self.credentials.values() if one.rp_id == rp_id and (one.id in ids if ids else one.resident)]
        shown = [one for one in found if is_verified or one.protection < (3 if ids else 2)]
        return sorted(shown, key=lambda one: -one.order)

    def assertion(self, credential, client_data_hash, flags, named=False, leave_out=False):
        credential.count += 1
        data = self.auth_data(credential, flags, {})
        reply = {2: data, 3: credential.sign(data + client_data_hash)}
        more = {"zzUnknown": 1} if self.kind.unknown else {}
        if not leave_out:
            reply[1] = {"id": credential.id, "type": "public-key", **more}
        if credential.resident:
            shown = credential.user if named and flags & UV else {"id": credential.user["id"]}
            reply[4] = {**shown, **more}
        return {**reply, **({99: {"deep": [True]}} if more else {})}

    def get_next_assertion(self):
        if not self.remembered:
            raise Status(NOT_ALLOWED)
        credential, client_data_hash, flags = self.remembered.pop(0)
        return self.assertion(credential, client_data_hash, flags, named=True)

    # ---- clientPIN (6.5)

    def client_pin(self, members):
        commands = {1: self.get_pin_retries, 2: self.get_key_agreement, 3: self.set_pin, 4: self.change_pin, 5: self.get_pin_token,
                    6: self.get_token_by_uv, 7: self.get_uv_retries, 9: self.get_token_by_pin}
        command = of_kind(members, 2, int)
        if command not in commands or (command in (6, 9) and not self.kind.token) or (command in (6, 7) and self.kind.uv is None) or \
                (command in (1, 3, 4, 5, 9) and not self.kind.client_pin) or not self.protocols:
            raise Status(INVALID_SUBCOMMAND)
        reply = commands[command](members)
        return {**reply, 99: {"deep": [b""]}} if self.kind.unknown and reply else reply

    def get_pin_retries(self, _):
        return {3: self.retries, **({4: self.wrong_in_a_row >= 3} if self.kind.token else {})}

    def get_uv_retries(self, _):
        return {5: self.uv_retries}

    def get_key_agreement(self, members):
        key = self.protocol_of(of_kind(members, 1, int)).public_key()
        return {1: {**key, **({-9: b"unknown"} if self.kind.unknown else {})}}

    def decapsulated(self, members):
        protocol = self.protocol_of(of_kind(members, 1, int))
        try:
            return protocol, protocol.decapsulate(of_kind(members, 3, dict))
        except ValueError:
            raise Status(INVALID_PARAMETER) from None

    def new_pin(self, protocol, secret, sealed):
        """Keeps a new PIN, which came padded to 64 bytes."""
        try:
            padded = protocol.decrypt(secret, sealed)
        except ValueError:
            raise Status(PIN_AUTH_INVALID) from None
        if len(padded) != 64:
            raise Status(INVALID_PARAMETER)
        pin = padded.rstrip(b"\0")
        try:
            points = len(pin.decode())
        except UnicodeDecodeError:
            raise Status(PIN_POLICY_VIOLATION) from None
        if points < (self.kind.min_pin_length or 4) or len(pin) > 63:
            raise Status(PIN_POLICY_VIOLATION)
        self.keep_pin(pin)

    def set_pin(self, members):
        sealed, param = of_kind(members, 5, bytes), of_kind(members, 4, bytes)
        of_kind(members, 3, dict)
        if self.pin is not None:
            raise Status(PIN_AUTH_INVALID)
        protocol, secret = self.decapsulated(members)
        if not protocol.verify(secret, sealed, param):
            raise Status(PIN_AUTH_INVALID)
        self.new_pin(protocol, secret, sealed)
        return {}

    def compare_pin(self, protocol, secret, sealed):
        """Counts down, and then compares (6.5.5.6, 6.5.5.7)."""
        if self.retries == 0:
            raise Status(PIN_BLOCKED)
        if self.wrong_in_a_row >= 3:
            raise Status(PIN_AUTH_BLOCKED)
        self.retries -= 1
        try:
            is_right = protocol.decrypt(secret, sealed) == self.pin
        except ValueError:
            is_right = False
        if not is_right:
            protocol.regenerate()
            self.wrong_in_a_row += 1
            raise Status(PIN_BLOCKED if self.retries == 0 else PIN_AUTH_BLOCKED if self.wrong_in_a_row >= 3 else PIN_INVALID)
        self.retries, self.wrong_in_a_row = self.kind.pin_retries, 0

    def is_pin_set(self):
        if self.pin is None:
            raise Status(PIN_NOT_SET)
        if self.retries == 0:
            raise Status(PIN_BLOCKED)

    def change_pin(self, members):
        new, old, param = of_kind(members, 5, bytes), of_kind(members, 6, bytes), of_kind(members, 4, bytes)
        self.is_pin_set()
        protocol, secret = self.decapsulated(members)
        if not protocol.verify(secret, new + old, param):
            raise Status(PIN_AUTH_INVALID)
        self.compare_pin(protocol, secret, old)
        self.new_pin(protocol, secret, new)
        self.reset_tokens()
        return {}

    def reset_tokens(self):
        for protocol in self.protocols.values():
            protocol.reset_token()

    def token_of(self, protocol, secret, permissions, rp_id):
        """A new pinUvAuthToken; each older one is for nothing from now on."""
        self.reset_tokens()
        protocol.use_token(permissions, rp_id)
        return {2: protocol.encrypt(secret, protocol.token)}

    def get_pin_token(self, members):
        sealed = of_kind(members, 6, bytes)
        if 9 in members or 10 in members:
            raise Status(INVALID_PARAMETER)
        self.is_pin_set()
        protocol, secret = self.decapsulated(members)
        self.compare_pin(protocol, secret, sealed)
        return self.token_of(protocol, secret, MAKE_CREDENTIAL | GET_ASSERTION, None)

    def scope(self, members):
        """The permissions and the rp id that are asked for (6.5.5.7.2)."""
        permissions, rp_id = of_kind(members, 9, int), of_kind(members, 10, str, False)
        if permissions <= 0:
            raise Status(INVALID_PARAMETER)
        if permissions & 0x3F & ~(MAKE_CREDENTIAL | GET_ASSERTION):
            raise Status(UNAUTHORIZED_PERMISSION)
        if rp_id is None:
            raise Status(MISSING_PARAMETER)
        return permissions, rp_id

    def get_token_by_pin(self, members):
        sealed = of_kind(members, 6, bytes)
        permissions, rp_id = self.scope(members)
        self.is_pin_set()
        protocol, secret = self.decapsulated(members)
        self.compare_pin(protocol, secret, sealed)
        return self.token_of(protocol, secret, permissions, rp_id)

    def get_token_by_uv(self, members):
        permissions, rp_id = self.scope(members)
        if not self.kind.uv:
            raise Status(NOT_ALLOWED)
        protocol, secret = self.decapsulated(members)
        self.verify_by_finger()
        return self.token_of(protocol, secret, permissions, rp_id)
