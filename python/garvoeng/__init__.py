"""A passkey relying party (WebAuthn Level 3, sections 7.1 and 7.2). Its steps are proved code in an extension module; `cryptography`
verifies the signatures.

    server = Server("example.com", ["https://example.com"])
    options, session = server.register_begin(b"handle of the account", "name")
    registered = server.register_complete(session, response, is_registered=has)
    options, session = server.authenticate_begin()
    signed_in = server.authenticate_complete(session, response, credential=find)

`Server` keeps nothing. `KeepingServer` (over a storage of the site's own), `SqlServer` (over a database) and `StoredServer` (over a file of
the proved program) have the same four calls without the look-ups, and also keep the credentials. To change its storage, a site changes only
the line that makes the server.
"""
from importlib import import_module
from typing import TYPE_CHECKING, Any

from .errors import BadInput, Refused, RowDamaged, SessionDamaged
from .library import EDDSA, ES256, RS256, is_canonical
from .limits import MAX_LIST
from .records import Credential, KeptCredential, Registered, RegistrationSession, SignedIn, SignInSession
from .server import Server

if TYPE_CHECKING:
    from .keeping import KeepingServer, OpenSession, PasskeyServer, Store
    from .memory import MemoryStore
    from .rate_limit import RateLimit
    from .stored import StoredServer, StoreFailed

__version__ = "0.1.0"

__all__ = ["EDDSA", "ES256", "MAX_LIST", "RS256", "BadInput", "Credential", "KeepingServer", "KeptCredential", "MemoryStore", "OpenSession",
           "PasskeyServer", "RateLimit", "Refused", "Registered", "RegistrationSession", "RowDamaged", "Server", "SessionDamaged",
           "SignInSession", "SignedIn", "Store", "StoreFailed", "StoredServer", "is_canonical"]


_LATER = {"KeepingServer": "keeping", "OpenSession": "keeping", "PasskeyServer": "keeping", "Store": "keeping", "MemoryStore": "memory",
          "RateLimit": "rate_limit", "StoreFailed": "stored", "StoredServer": "stored"}
"""Names that are imported on first use, and their modules."""


def __getattr__(name: str) -> Any:
    if name not in _LATER:
        raise AttributeError(f"module {__name__!r} has no attribute {name!r}")
    globals()[name] = getattr(import_module(f".{_LATER[name]}", __name__), name)
    return globals()[name]


def __dir__() -> "list[str]":
    return sorted({*globals(), *__all__})
