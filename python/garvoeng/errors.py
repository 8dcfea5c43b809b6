"""Errors: why a response or an input is refused."""
from __future__ import annotations

from typing import Any, Tuple

SIGN_IN_STEPS = (
    "SessionNotOpen", "CredentialNotAllowed", "UnknownCredential", "OtherUser", "UnreadableClientData", "WrongType",
    "WrongChallenge", "WrongOrigin", "TokenBinding", "BadAuthenticatorData", "WrongRelyingParty", "UserNotPresent",
    "UserNotVerified", "BadSignature", "CounterNotGreater", "EligibilityChanged", "CrossOrigin", "WrongTopOrigin",
)
REGISTRATION_STEPS = (
    "SessionNotOpen", "UnreadableClientData", "WrongType", "WrongChallenge", "WrongOrigin", "TokenBinding",
    "BadAttestationObject", "WrongRelyingParty", "UserNotPresent", "UserNotVerified", "AlgorithmNotOffered",
    "UnknownFormat", "BadStatement", "AttestationNotAccepted", "CredentialRegistered", "TableFull", "CrossOrigin", "WrongTopOrigin", "OtherId",
)


class Refused(Exception):
    """A response is refused. The step is the first one of section 7.1 (registration) or 7.2 (sign-in) of WebAuthn that the response does
    not pass."""

    def __init__(self, is_registration: bool, number: int, text: str) -> None:
        self.is_registration = is_registration
        self.number = number
        """1 to 18, or to 19 for a registration."""
        steps = REGISTRATION_STEPS if is_registration else SIGN_IN_STEPS
        self.step = steps[number - 1] if number <= len(steps) else f"Step{number}"
        """The name of the step."""
        self.name = f"{'G' if is_registration else 'W'}{number}"
        """The name as the program prints it: G and the number for a registration, W for a sign-in."""
        self.text = text
        super().__init__(f"{self.name} {self.step}: {text}")

    def __reduce__(self) -> Tuple[Any, ...]:
        return type(self), (self.is_registration, self.number, self.text)


class BadInput(ValueError):
    """A value is out of its limits: one of the site's own, or a response that is not in the form of JSON."""

    def __init__(self, text: str, number: int = 0) -> None:
        self.number = number
        """The number of the answer, 100 and up; 0 if the library was not asked."""
        self.text = text
        super().__init__(text)

    def __reduce__(self) -> Tuple[Any, ...]:
        return type(self), (self.text, self.number)


class RowDamaged(Exception):
    """A credential's row is not one that this package writes: the site has to repair it, and the visitor is not at fault. It is logged to
    `garvoeng`, except by `Server`, whose look-up returned it."""

    def __init__(self, id: Any, text: str) -> None:
        self.id = id
        """The credential's id."""
        self.text = text
        from .forms import to_text  # which has the errors of this module
        name = to_text(id) if isinstance(id, bytes) else repr(id)
        super().__init__(f"the row of the credential {name} is damaged: {text}")

    def __reduce__(self) -> Tuple[Any, ...]:
        return type(self), (self.id, self.text)


class SessionDamaged(Exception):
    """The same for the row of a session."""

    def __init__(self, session: str, text: str) -> None:
        self.session = session
        """The session's id."""
        self.text = text
        # Whoever has the whole id could act as the visitor, so a log shows only its front.
        super().__init__(f"the row of the session {session[:8]} is damaged: {text}")

    def __reduce__(self) -> Tuple[Any, ...]:
        return type(self), (self.session, self.text)
