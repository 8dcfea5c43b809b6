"""The lines by which README begins, with a device in the place of the page."""
from device import Device

from garvoeng import Refused, Server


def test_start(capsys):
    device, table = Device(), {}

    def page(options):
        return device.sign_in(options, user=b"account 7") if "rpId" in options else device.register(options)

    server = Server("example.com", ["https://example.com"])

    options, session = server.register_begin(user=b"account 7", user_name="name")
    registered = server.register_complete(session, page(options), is_registered=lambda id: id in table)
    table[registered.credential.id] = registered.credential

    options, session = server.authenticate_begin()
    signed_in = server.authenticate_complete(session, page(options), credential=table.get)
    table[signed_in.credential.id] = signed_in.credential

    assert [row.sign_count for row in table.values()] == [1]

    device.count = 0
    response = page(options)
    try:
        server.authenticate_complete(session, response, credential=table.get)
    except Refused as refused:
        print(refused.name, refused.step)  # W15 CounterNotGreater
    assert capsys.readouterr().out == "W15 CounterNotGreater\n"
