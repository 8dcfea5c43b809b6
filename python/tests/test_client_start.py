"""What python/README.md shows of `garvoeng.client`, over the key of CLIENTS: its code stands here as it stands there."""
from pathlib import Path

import pytest
from client_keys import PIN, PROGRAM
from pin_key import Cable, PinKey

from garvoeng import Server
from garvoeng.client import Client, ClientRefused


def test_a_client():
    if not Path(PROGRAM).exists():
        pytest.skip("CLIENT_PROGRAM is not there")
    program, key, table = PROGRAM, Cable(PinKey(pin=PIN)), {}
    server = Server("example.com", ["https://example.com"])
    ask = lambda retries, wrong: PIN
    told = []
    show = lambda: told.append("touch")
    options, session = server.register_begin(user=b"account 7", user_name="name")

    with Client(key, "https://example.com", program=program, pin=ask, touch=show) as client:
        response = client.create(options)
        registered = server.register_complete(session, response, is_registered=lambda id: id in table)
        table[registered.credential.id] = registered.credential
        options, session = server.authenticate_begin()
        signed_in = server.authenticate_complete(session, client.get(options), credential=table.get)

    assert signed_in.credential.user == b"account 7" and signed_in.user_verified and told == ["touch"] * 2
    with Client(key, "https://example.net", program=program) as client, pytest.raises(ClientRefused) as refused:
        client.get(options)
    assert refused.value.name == "rp_id_not_of_origin"
