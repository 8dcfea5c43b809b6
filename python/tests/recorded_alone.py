"""What Chromium recorded, judged without `cryptography`: recorded_alone.py FILE. Prints the interpreter, the machine and how many were
accepted. For wheels in clean environments."""
import json
import platform
import sys

from garvoeng import Credential, Refused, RegistrationSession, Server, SignInSession

recorded = json.load(open(sys.argv[1]))
yes, no = (Server("localhost", [recorded["origin"]], verify=lambda *_, said=said: said) for said in (True, False))
accepted = refused = 0
for visit in recorded["visits"]:
    line = visit["registration"]
    credential = yes.register_complete(RegistrationSession.from_json(line["session"]), line["response"],
                                       is_registered=lambda _: False).credential
    assert Credential.from_cose(credential.id, credential.user, credential.cose_key, credential.sign_count,
                                credential.eligible, transports=credential.transports) == credential
    accepted += 1
    for line in visit["sign_ins"]:
        session = SignInSession.from_json(line["session"])
        credential = yes.authenticate_complete(session, line["response"], credential=lambda _: credential).credential
        accepted += 1
        try:
            no.authenticate_complete(session, line["response"], credential=lambda _: credential)
        except Refused as error:
            refused += error.name == "W14"
print(sys.version.split()[0], platform.machine(), accepted, "accepted,", refused, "refused")
