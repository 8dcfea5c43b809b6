"""The exceptions of py_webauthn."""


class WebAuthnException(Exception):
    """The base of the others."""


class InvalidRegistrationResponse(WebAuthnException):
    """A registration does not pass a step of section 7.1."""


class InvalidAuthenticationResponse(WebAuthnException):
    """A sign-in does not pass a step of section 7.2."""


class InvalidJSONStructure(WebAuthnException):
    """A response is not WebAuthn's JSON."""
