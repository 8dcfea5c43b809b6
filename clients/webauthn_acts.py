"""Ceremonies of WebAuthn by python-fido2's client and server: the site names its need of verification, the client asks the
security key, and the server verifies the challenge, the origin, the flags and each signature."""
import os
import time

from fido2.client import ClientError, Fido2Client
from fido2.server import Fido2Server

from softkey_host import EDDSA, ES256

ORIGIN = "https://example.org"
RP = {"id": "example.org", "name": "Example"}
NEEDS = ("required", "preferred", "discouraged")


class Site:
    """A site over python-fido2's server, with a client before it."""

    def __init__(self, client):
        self.client = client
        self.server = Fido2Server(RP)
        self.algorithms = self.server.allowed_algorithms
        self.browser = Fido2Client(client.device, ORIGIN)

    def registered(self, alg, resident, need):
        """A registration that the server verifies: the new credential."""
        begun = time.perf_counter()
        self.server.allowed_algorithms = [one for one in self.algorithms if one.alg == alg]
        user = {"id": os.urandom(16), "name": "user"}
        options, state = self.server.register_begin(user, resident_key=resident, user_verification=need)
        made = self.browser.make_credential(options["publicKey"])
        data = self.server.register_complete(state, made.client_data, made.attestation_object)
        assert data.is_user_verified() == (need != "discouraged") and data.credential_data.public_key[3] == alg
        self.client.counted(f"WebAuthn: registered {alg}, {'resident' if resident else 'not resident'}, {need}", begun)
        return data.credential_data

    def signed_in(self, credentials, listed, need):
        """A sign-in of which the server verifies each assertion: how many there are."""
        begun = time.perf_counter()
        options, state = self.server.authenticate_begin(credentials if listed else None, user_verification=need)
        found = self.browser.get_assertion(options["publicKey"])
        count = len(found.get_assertions())
        for number in range(count):
            one = found.get_response(number)
            assert one.authenticator_data.is_user_verified() == (need != "discouraged")
            self.server.authenticate_complete(
                state, credentials, one.credential_id, one.client_data, one.authenticator_data, one.signature
            )
        self.client.counted(f"WebAuthn: signed in {'with' if listed else 'without'} a list, {need}", begun)
        return count

    def refused(self, code, what, alg, need):
        """A registration that the client refuses."""
        try:
            self.registered(alg, False, need)
        except ClientError as error:
            assert error.code == code, (what, error.code)
            self.client.done[what] += 1
            return
        raise AssertionError(what)


def webauthn_acts(client):
    """Registers and signs in for each need of verification; of these a key that verifies nobody meets the last one."""
    site = Site(client)
    needs = NEEDS if client.uv else NEEDS[2:]
    made, residents = [], []
    for alg in (ES256, EDDSA):
        for need in needs:
            made.append(site.registered(alg, False, need))
            residents.append(site.registered(alg, True, need))
    for need in needs:
        for one in made + residents:
            assert site.signed_in([one], True, need) == 1
        assert site.signed_in(residents, False, need) == len(residents)
    for need in NEEDS[: 3 - len(needs)]:
        site.refused(ClientError.ERR.CONFIGURATION_UNSUPPORTED, f"WebAuthn: {need}, not configured", ES256, need)
    timed_out(client, site)


def timed_out(client, site):
    """The user does not decide in time: the client cancels the request and says so, and the next one is answered."""
    ctap2 = site.browser.ctap2
    # The client asks for information first, and that request would wait too.
    ctap2.get_info = lambda info=ctap2.get_info(): info
    site.server.timeout = 50
    client.key.consent = None
    client.key.told.clear()
    site.refused(ClientError.ERR.TIMEOUT, "WebAuthn: timed out, and cancelled", ES256, "discouraged")
    assert ["cancelled"] in client.key.told
    client.key.consent = (True, True)
    site.server.timeout = None
    del ctap2.get_info
    site.registered(ES256, False, "discouraged")
