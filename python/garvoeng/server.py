"""A relying party over the proved steps. It keeps nothing: the site stores the sessions and credentials."""
from __future__ import annotations

import os
from dataclasses import fields
from typing import Any, Awaitable, Callable, Dict, Mapping, Optional, Sequence, Tuple, Type, TypeVar, Union

from . import _passkey, answers, forms, library, limits, options
from .answers import Verify
from .errors import BadInput, Refused
from .library import EDDSA, ES256, RS256
from .options import Ids, Requirement
from .records import Credential, Registered, RegistrationSession, SignedIn, SignInSession, check_row

Open = TypeVar("Open", RegistrationSession, SignInSession)

_MEMBERS = tuple(field.name for kind in (Credential, SignedIn) for field in fields(kind))
_NO_REGISTRATION = RegistrationSession(b"", b"")
_NO_SESSION = SignInSession(b"")
_FLAGS = (True, False)
_NO_CREDENTIAL = Credential(b"", b"", ES256, b"", b"", 0, None)


def _raised(is_registration: bool, answer: int) -> Exception:
    """The exception for an answer other than acceptance."""
    text = library.refusal_text(is_registration, answer)
    if library.ACCEPTED < answer <= library.LAST_STEP:
        return Refused(is_registration, answer, text)
    if answer == library.NO_MEMORY:
        return MemoryError(text)
    return BadInput(text, answer)


def verify_of(verify: Optional[Verify]) -> Verify:
    """The verifier, by default that of `garvoeng.signatures`. If you pass your own, `cryptography` is not needed."""
    if verify is None:
        from .signatures import is_valid
        return is_valid
    if not callable(verify):
        raise TypeError(f"verify is a function of algorithm, x, y, message and signature, and not {answers.kind_of(verify)}")
    return verify


def _credential(found: Any) -> Optional[Credential]:
    """What a look-up returned."""
    if found is not None and not isinstance(found, Credential):
        answers.refuse("credential", found, "a Credential or None")
    return found


class _OfRow:
    """Raises `RowDamaged` in place of an error of the verdict if the row that was found is damaged."""

    def __init__(self, found: Optional[Credential]) -> None:
        self._found = found

    def __enter__(self) -> None:
        pass

    def __exit__(self, kind: Optional[Type[BaseException]], *_: Any) -> None:
        if kind is not None and self._found is not None and issubclass(kind, (BadInput, OverflowError, TypeError)):
            check_row(self._found)


def _open(session: Any, kind: Type[Open]) -> Optional[Open]:
    """The open session, or None. A text counts as none, because the page's visitor may have written it."""
    if session is None or isinstance(session, str):
        return None
    if not isinstance(session, kind):
        raise TypeError(f"session is a {kind.__name__} or None, and not {answers.kind_of(session)}: {kind.__name__}.from_json reads one that was kept as JSON")
    return session


class Server:
    """A relying party: an rp id and the origins of its pages.

    `profile` says which responses it accepts: `level3`, as browsers send them today, `open` or `strict` (docs/LIMITS.md). `top_origins` are
    the origins of other sites' pages that may have this site's in a frame: in `level3` a response that was made in any other frame is
    refused. `accept_none` and `accept_self` say which attestation is accepted. `verify(algorithm, x, y, message, signature)` returns
    whether a signature is valid; by default `cryptography` checks it.
    """

    def __init__(self, rp_id: str, origins: Sequence[str], rp_name: Optional[str] = None, *, accept_none: bool = True,
                 accept_self: bool = True, profile: str = "level3", top_origins: Sequence[str] = (),
                 verify: Optional[Verify] = None) -> None:
        self._origins = limits.check_party(rp_id, origins)
        self._rp_id = rp_id
        self._rp_id_bytes = rp_id.encode()
        self._origins_bytes = tuple(origin.encode() for origin in self._origins)
        self._profile = limits.check_profile(profile)
        self._top_origins = limits.check_top_origins(top_origins)
        self._top_origins_bytes = tuple(origin.encode() for origin in self._top_origins)
        limits.check_attestation(accept_none, accept_self)
        self.rp_name = limits.check_text(rp_name, "rp_name") if rp_name is not None else rp_id
        self.accept_none = accept_none
        self.accept_self = accept_self
        self.verify = verify_of(verify)

    @property
    def rp_id(self) -> str:
        return self._rp_id

    @property
    def origins(self) -> Tuple[str, ...]:
        return self._origins

    @property
    def profile(self) -> str:
        return library.PROFILES[self._profile]

    @property
    def top_origins(self) -> Tuple[str, ...]:
        return self._top_origins

    # ---- registration

    def register_begin(self, user: bytes, user_name: str, display_name: Optional[str] = None, *, exclude: Ids = (),
                       user_verification: Requirement = False, resident_key: Requirement = True,
                       algorithms: Sequence[int] = (ES256, EDDSA, RS256), authenticator_attachment: Optional[str] = None,
                       attestation: str = "none", conditional: bool = False, timeout: Optional[int] = None, hints: Sequence[str] = (),
                       extensions: Optional[Mapping[str, Any]] = None) -> Tuple[Dict[str, Any], RegistrationSession]:
        """Returns PublicKeyCredentialCreationOptionsJSON for the page, and the session, which the site keeps (WebAuthn Level 2, section
        5.4).

        `user` is the user handle, 1 to 64 bytes that name nobody; `exclude` has the account's credentials or their ids, 64 at most.
        `user_verification` is true (`required`), false (`preferred`) or `discouraged`; `resident_key` is true (`required`), false
        (`discouraged`) or `preferred`. `authenticator_attachment` is `platform` or `cross-platform`; `attestation` is `none`, `indirect`,
        `direct` or `enterprise`; `conditional` is for a page that lets the browser make a passkey by itself after another sign-in (Level 3,
        section 5.1.3, `mediation`): then nobody need be present. The profile `level3` looks at `attestation` and `conditional`. `timeout`
        is in milliseconds; `hints` is a list of `security-key`, `client-device` and `hybrid`; `extensions` go to the page unchanged. Raises
        `BadInput`.
        """
        listed = limits.check_list(exclude, "exclude", "credentials or their ids")
        verification = options.user_verification_of(user_verification)
        options.ids_of(listed, "exclude")
        more = options.of_creation(verification, resident_key, authenticator_attachment, attestation, timeout, hints, extensions)
        session = RegistrationSession(os.urandom(32), limits.check_user(user), verification == "required",
                                      limits.check_algorithms(algorithms), limits.check_flag(conditional, "conditional"),
                                      attestation != "none")
        return options.creation_options({"id": self.rp_id, "name": self.rp_name}, session, user_name, display_name, listed, more), session

    def register_complete(self, session: Optional[RegistrationSession], response: Mapping[str, Any], *,
                          is_registered: Callable[[bytes], bool], is_full: bool = False) -> Registered:
        """Returns the registration of a RegistrationResponseJSON: the credential to store, and what is known of it.

        `session` is None if none is open; a text counts as None. `is_registered(id)` returns whether a credential has the id, of any user,
        retired or not. Raises `Refused` with the first step that the response does not pass, and `BadInput` if it is not in the form of
        JSON.
        """
        begun = _open(session, RegistrationSession)
        parts, transports = forms.registration_parts(response), forms.transports_of(response)
        is_taken = answers.is_true("is_registered", is_registered(parts[0]))
        return self._registered(begun, is_taken, parts, is_full, transports, answers.waiting(self.verify))

    async def register_complete_async(self, session: Optional[RegistrationSession], response: Mapping[str, Any], *,
                                      is_registered: Callable[[bytes], Union[bool, Awaitable[bool]]],
                                      is_full: bool = False) -> Registered:
        """The same, but what `is_registered` and `verify` return is awaited, if it can be."""
        begun = _open(session, RegistrationSession)
        parts, transports = forms.registration_parts(response), forms.transports_of(response)
        is_taken = answers.is_true("is_registered", await answers.awaited(is_registered(parts[0])))
        return await answers.judged(self.verify, lambda verify: self._registered(begun, is_taken, parts, is_full, transports, verify))

    def register_complete_parts(self, session: Optional[RegistrationSession], attestation_object: bytes, client_data: bytes, *,
                                raw_id: bytes, is_registered: bool, is_full: bool = False, transports: Sequence[str] = ()) -> Registered:
        """The same for the parts of the response. `raw_id` is the response's `rawId`, and `is_registered` says whether a credential has
        it."""
        return self._registered(_open(session, RegistrationSession), limits.check_flag(is_registered, "is_registered"), (raw_id, client_data, attestation_object), is_full,
                                transports, answers.waiting(self.verify))

    def _registered(self, session: Optional[RegistrationSession], is_taken: bool, parts: forms.RegistrationParts, is_full: bool,
                    transports: Sequence[str], verify: Verify) -> Registered:
        raw_id, client_data, attestation_object = parts
        begun = _NO_REGISTRATION if session is None else session
        said = _passkey.registration(
            verify,
            (self._profile, self.accept_none, self.accept_self, session is not None, begun.user_verification,
             ES256 in begun.algorithms, EDDSA in begun.algorithms, RS256 in begun.algorithms, begun.conditional, begun.attestation,
             limits.check_flag(is_full, "is_full"), not is_taken),
            (raw_id, self._rp_id_bytes, begun.challenge, begun.user, client_data, attestation_object), self._origins_bytes,
            self._top_origins_bytes)
        if isinstance(said, int):
            raise _raised(True, said)
        assert session is not None
        identity, algorithm, x, y, sign_count, eligible, aaguid, form, user_verified, backed_up, flags, extensions = said
        credential = Credential(identity, session.user, algorithm, x, y, sign_count, eligible, transports=tuple(transports))
        return Registered(credential, aaguid, library.FORMATS[form], user_verified, backed_up, flags, extensions)

    # ---- sign-in

    def authenticate_begin(self, *, user: Optional[bytes] = None, allow: Ids = (), user_verification: Requirement = False,
                           timeout: Optional[int] = None, hints: Sequence[str] = (),
                           extensions: Optional[Mapping[str, Any]] = None) -> Tuple[Dict[str, Any], SignInSession]:
        """Returns PublicKeyCredentialRequestOptionsJSON for the page, and the session, which the site keeps (WebAuthn Level 2, section
        5.5).

        `user` is the user handle of the account, if it is known; `allow` has the credentials that may answer, or their ids, 64 at most;
        leave it empty for any. The other parameters are as in `register_begin`.
        """
        listed = limits.check_list(allow, "allow", "credentials or their ids")
        verification = options.user_verification_of(user_verification)
        session = SignInSession(os.urandom(32), None if user is None else limits.check_user(user),
                                options.ids_of(listed, "allow"), verification == "required")
        return options.request_options(self.rp_id, session, listed,
                                       options.of_request(verification, timeout, hints, extensions)), session

    def authenticate_complete(self, session: Optional[SignInSession], response: Mapping[str, Any], *,
                              credential: Callable[[bytes], Optional[Credential]]) -> SignedIn:
        """Returns the sign-in of an AuthenticationResponseJSON: the credential to store from now on.

        `session` is None if none is open; a text counts as None. `credential(id)` returns the site's credential with this id, or None.
        Raises `Refused` with the first step that the response does not pass, `BadInput` if it is not in the form of JSON, and `RowDamaged`
        if the credential is not one that this package writes.
        """
        begun = _open(session, SignInSession)
        parts = forms.sign_in_parts(response)
        found = _credential(credential(parts[0]))
        with _OfRow(found):
            return self._signed_in(begun, found, parts, answers.waiting(self.verify))

    async def authenticate_complete_async(
            self, session: Optional[SignInSession], response: Mapping[str, Any], *,
            credential: Callable[[bytes], Union[None, Credential, Awaitable[Optional[Credential]]]]) -> SignedIn:
        """The same, but what `credential` and `verify` return is awaited, if it can be."""
        begun = _open(session, SignInSession)
        parts = forms.sign_in_parts(response)
        found = _credential(await answers.awaited(credential(parts[0])))
        with _OfRow(found):
            return await answers.judged(self.verify, lambda verify: self._signed_in(begun, found, parts, verify))

    def authenticate_complete_parts(self, session: Optional[SignInSession], credential: Optional[Credential],
                                    raw_id: bytes, user: Optional[bytes], auth_data: bytes, signature: bytes,
                                    client_data: bytes) -> SignedIn:
        """The same for the parts of the response and the credential that was found."""
        return self._signed_in(_open(session, SignInSession), credential, (raw_id, client_data, auth_data, signature, user), answers.waiting(self.verify))

    def _signed_in(self, session: Optional[SignInSession], credential: Optional[Credential], parts: forms.SignInParts,
                   verify: Verify) -> SignedIn:
        raw_id, client_data, auth_data, signature, user = parts
        begun = _NO_SESSION if session is None else session
        stored = _NO_CREDENTIAL if credential is None else credential
        allow = begun.allow
        if stored.retired not in _FLAGS or stored.eligible is not None and stored.eligible not in _FLAGS:
            raise TypeError("retired of a credential is True or False, eligible one of them or None")
        try:
            said = _passkey.assertion(
                Credential, SignedIn, _MEMBERS, verify, credential, stored.transports, stored.eligible,
                (self._profile, session is not None, begun.user_verification, credential is not None, stored.algorithm,
                 stored.sign_count, stored.retired),
                (begun.user, user, self._rp_id_bytes, begun.challenge, stored.id, stored.user, stored.x, stored.y, raw_id, client_data,
                 auth_data, signature), self._origins_bytes, self._top_origins_bytes, allow if type(allow) is tuple else tuple(allow))
        except OverflowError:
            limits.check_credential(stored.algorithm, stored.sign_count)
            raise
        if isinstance(said, int):
            raise _raised(False, said)
        return said

    # ---- what a site tells browsers

    def related_origins(self) -> Dict[str, Any]:
        """The body for `https://RP_ID/.well-known/webauthn`, which lets pages of these origins use this rp id (WebAuthn Level 3, section
        5.11)."""
        return {"origins": [origin for origin in self._origins if origin.startswith("https://")]}

    def signal_unknown_credential(self, credential_id: bytes) -> Dict[str, str]:
        """What the page passes to `PublicKeyCredential.signalUnknownCredential` after a sign-in was refused with W3 (WebAuthn Level 3,
        section 5.1.10)."""
        return {"rpId": self._rp_id, "credentialId": forms.to_text(limits.check_id(credential_id, "credential_id"))}

    def signal_all_accepted(self, user: bytes, credentials: Ids) -> Dict[str, Any]:
        """What the page passes to `signalAllAcceptedCredentials` for a user who is signed in: all of the user's credentials that may sign
        in, or their ids. A passkey that is left out is hidden or deleted."""
        listed = limits.check_list(credentials, "credentials", "credentials or their ids")
        accepted = [one for one in listed if not (isinstance(one, Credential) and one.retired)]
        return {"rpId": self._rp_id, "userId": forms.to_text(limits.check_user(user)),
                "allAcceptedCredentialIds": [forms.to_text(one) for one in options.ids_of(accepted, "credentials", len(accepted))]}

    def signal_user_details(self, user: bytes, user_name: str, display_name: Optional[str] = None) -> Dict[str, str]:
        """What the page passes to `signalCurrentUserDetails` when an account's names have changed."""
        named = options.user_entity(limits.check_user(user), user_name, display_name)
        return {"rpId": self._rp_id, "userId": named.pop("id"), **named}
