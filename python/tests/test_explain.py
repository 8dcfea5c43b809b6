"""What `garvoeng.explain` tells: the step that it tells as failed is the one that `Server` refuses by, all before it are passed, and none
after it is reached."""
import json
from pathlib import Path

import pytest
from device import Device
from hostile import changes, passed_over

from garvoeng import BadInput, Refused, Server
from garvoeng.errors import REGISTRATION_STEPS, SIGN_IN_STEPS
from garvoeng.explain import explain, main, steps
from garvoeng.forms import to_text

RECORDED = json.loads((Path(__file__).parent / "recorded.json").read_text())
PARTY = {"rp_id": "localhost", "origins": [RECORDED["origin"]]}
RP_ID, ORIGIN, USER = "example.com", "https://example.com", b"account 7"


def states(told):
    return [step["state"] for step in told["steps"]]


def check(told, code):
    """The verdict is that of a step's code; None of an acceptance."""
    order = [step["code"] for step in steps()[told["kind"]]]
    at = len(order) if code is None else order.index(code)
    assert [step["code"] for step in told["steps"]] == order
    assert states(told) == (["passed"] * at + ["failed"] + ["not reached"] * len(order))[:len(order)]
    assert (told["verdict"], told["refusal"] and told["refusal"]["code"]) == (("accepted", None) if code is None else ("refused", code))


def test_steps():
    for kind, names in (("registration", REGISTRATION_STEPS), ("sign-in", SIGN_IN_STEPS)):
        assert {step["number"]: step["name"] for step in steps()[kind]} == dict(enumerate(names, 1))
        assert all(step["asks"].endswith("?") and step["advice"] for step in steps()[kind])


@pytest.mark.parametrize("visit", RECORDED["visits"], ids=lambda visit: "-".join(map(str, visit["kind"])))
def test_visit(visit):
    told = explain({**PARTY, **visit["registration"]})
    check(told, None)
    check(explain({**PARTY, **visit["registration"], "registered": True}), "G15")
    for line in visit["sign_ins"]:
        case = {**PARTY, **line, "credential": told["credential"]}
        told = explain(case)
        check(told, None)
        as_browsers_give_it = {"id": case["credential"]["id"], "user": case["credential"]["user"], "sign_count": case["credential"]["sign_count"],
                               "spki_key": visit["registration"]["response"]["response"]["publicKey"]}
        check(explain({**case, "credential": as_browsers_give_it}), None)
        check(explain({**case, "session": None}), "W1")
        check(explain({**case, "credential": None}), "W3")
        counted = explain({**case, "credential": told["credential"]})
        check(counted, "W15" if told["credential"]["sign_count"] else None)
        assert [one["text"] for one in counted["steps"][-2]["bytes"]] == [str(told["credential"]["sign_count"])] * 2


def answer(call, response):
    try:
        call(response)
    except Refused as refused:
        return refused.name
    except BadInput:
        return "not judged"
    return None


def test_hostile():
    server, device = Server(RP_ID, [ORIGIN]), Device()
    begun, session = server.register_begin(USER, "name")
    made = device.register(begun)
    credential = server.register_complete(session, made, is_registered=lambda _: False).credential
    asked, other = server.authenticate_begin(user=USER, allow=[device.id])
    row = {"id": to_text(credential.id), "user": to_text(USER), "cose_key": to_text(credential.cose_key), "sign_count": 0, "eligible": False}
    party, tried = {"rp_id": RP_ID, "origins": [ORIGIN]}, 0
    for good, call, given in (
            (made, lambda response: server.register_complete(session, response, is_registered=lambda _: False), {"session": session.to_json()}),
            (device.sign_in(asked, user=USER),
             lambda response: server.authenticate_complete(other, response, credential={credential.id: credential}.get), {"session": other.to_json()})):
        for table in (changes, passed_over):
            for what, response in table(good):
                own = {"credential": row} if isinstance(response, dict) and response.get("rawId") == row["id"] else {}
                told, wanted = explain({**party, **given, **own, "response": response}), answer(call, response)
                if wanted == "not judged":
                    assert told["verdict"] == wanted and "failed" not in states(told), what
                else:
                    check(told, wanted)
                json.dumps(told)
                tried += 1
    assert tried >= 2_000


def test_main(tmp_path, capsys):
    visit = RECORDED["visits"][0]
    case, file = {**PARTY, **visit["registration"]}, tmp_path / "case.json"
    for changed, status, first in ((case, 0, "registration accepted"), ({**case, "session": None}, 1, "registration refused G1 SessionNotOpen: "),
                                   ({**case, "rp_id": 7}, 2, "registration not judged: "), ([], 2, "response not judged: ")):
        file.write_text(json.dumps(changed))
        assert main([str(file)]) == status
        lines = capsys.readouterr().out.splitlines()
        assert lines[0].startswith(first) and (len(lines) == 1) == (changed == [])
        assert main(["--json", str(file)]) == status
        assert json.loads(capsys.readouterr().out) == explain(changed)
    file.write_text("{")
    assert [main([str(file)]), main([str(tmp_path / "none")]), main([])] == [2, 2, 2]
    assert len(capsys.readouterr().err.splitlines()) > 2


@pytest.mark.parametrize("name,value", [
    ("origins", ORIGIN), ("origins", None), ("rp_id", "https://example.com"), ("profile", "level4"), ("session", "open"), ("session", {"challenge": 7}),
    ("session", {"challenge": "AA", "userVerification": True}), ("session", {"challenge": "AAAA"}), ("registered", 1), ("full", None), ("other", 1),
    ("accept_none", "yes"), ("top_origins", "https://example.com")])
def test_not_judged(name, value):
    """What is given is no case."""
    told = explain({**PARTY, **RECORDED["visits"][0]["registration"], name: value})
    assert told["verdict"] == "not judged" and told["fault"] and set(states(told)) == {"not reached"}


@pytest.mark.parametrize("row", [7, {"id": "AA", "other": 1}, {"id": "AA"}, {"id": "AA", "cose_key": "AA"}, {"id": "AA", "spki_key": "AA"},
                                 {"id": "AA", "algorithm": 7, "x": "AA"}, {"id": "AA", "algorithm": -7, "x": "AA", "y": "AA", "sign_count": "1"}])
def test_rows_that_are_none(row):
    told = explain({**PARTY, **RECORDED["visits"][0]["sign_ins"][0], "credential": row})
    assert told["verdict"] == "not judged" and told["fault"] and set(states(told)) == {"not reached"}
