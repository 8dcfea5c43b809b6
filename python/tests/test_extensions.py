"""`garvoeng.extensions`: the inputs in options, and what a client answers, in its form and in others."""
import json

import pytest
from hostile import VALUES

from garvoeng import BadInput, Server, extensions
from garvoeng.extensions import ExtensionResults, cred_props, large_blob_read, large_blob_support, large_blob_write, prf, results_of
from garvoeng.forms import to_text

FIRST, SECOND = bytes(range(32)), bytes(32)
NOTHING = ExtensionResults(*[None] * 7)


def response(**results):
    return {"id": "AA", "rawId": "AA", "type": "public-key", "response": {}, "clientExtensionResults": results}


def test_inputs():
    assert {**cred_props(), **prf(), **large_blob_support()} == {"credProps": True, "prf": {}, "largeBlob": {"support": "preferred"}}
    assert large_blob_support(required=True) == {"largeBlob": {"support": "required"}} and large_blob_read() == {"largeBlob": {"read": True}}
    assert large_blob_write(b"\xff\xfe") == {"largeBlob": {"write": "__4"}}
    both = {"first": to_text(FIRST), "second": to_text(b"b")}
    assert prf(FIRST, b"b") == {"prf": {"eval": both}} and prf(b"") == {"prf": {"eval": {"first": ""}}}
    assert prf(by_credential={b"\xfb": [FIRST], b"id": (FIRST, b"b")}) == {"prf": {"evalByCredential": {"-w": {"first": to_text(FIRST)}, "aWQ": both}}}
    server = Server("example.com", ["https://example.com"])
    options, _ = server.register_begin(b"account", "ada", extensions={**cred_props(), **prf(FIRST)})
    assert json.loads(json.dumps(options))["extensions"] == {"credProps": True, "prf": {"eval": {"first": to_text(FIRST)}}}


def test_inputs_that_are_none():
    for value in VALUES:
        if not isinstance(value, (bytes, bytearray, memoryview)):
            for call in (lambda: prf(value, b"b"), lambda: large_blob_write(value), lambda: prf(by_credential={b"id": [value]})):
                with pytest.raises((TypeError, BadInput)):
                    call()
        if value is not True and value is not False:
            with pytest.raises(TypeError):
                large_blob_support(value)
        if not isinstance(value, (dict, type(None))):
            with pytest.raises((TypeError, BadInput)):
                prf(by_credential=value)
    for wrong in ({b"": [FIRST]}, {bytes(1024): [FIRST]}, {"id": [FIRST]}, {b"id": []}, {b"id": [FIRST] * 3}, {b"id": FIRST}):
        with pytest.raises((TypeError, BadInput)):
            prf(by_credential=wrong)
    with pytest.raises(BadInput):
        prf(None, FIRST)


def test_results():
    assert results_of(response()) == results_of({}) == results_of(response(appid=True, credProps=None, prf={}, largeBlob={})) == NOTHING
    found = results_of(response(credProps={"rk": True, "authenticatorDisplayName": "x"}, largeBlob={"supported": False, "blob": "__4", "written": True},
                                prf={"enabled": True, "results": {"first": to_text(FIRST), "second": to_text(SECOND)}}))
    assert found == ExtensionResults(True, True, FIRST, SECOND, False, b"\xff\xfe", True)
    assert results_of(response(prf={"results": {"first": to_text(FIRST), "second": None}})).prf_second is None


WRONG = [{"credProps": value} for value in (True, 1, "rk", [])] + [{"credProps": {"rk": value}} for value in (1, "true", [], {})] + [
    {"prf": {"enabled": "yes"}}, {"prf": []}, {"prf": {"results": "AA"}}, {"prf": {"results": {"second": to_text(SECOND)}}},
    *({"prf": {"results": {"first": value}}} for value in (1, "", "A", "AA", to_text(bytes(31)), to_text(bytes(33)), to_text(FIRST) + "=", [0] * 32, {"0": 1})),
    {"prf": {"results": {"first": to_text(FIRST), "second": "AA"}}}, {"largeBlob": 1},
    *({"largeBlob": {name: value}} for name in ("supported", "written") for value in (0, "true", [])),
    *({"largeBlob": {"blob": value}} for value in (1, "A", "AA==", "+w", [1])),
]


@pytest.mark.parametrize("results", WRONG)
def test_results_that_are_none(results):
    with pytest.raises(BadInput, match="clientExtensionResults"):
        results_of(response(**results))


def test_responses_that_are_none():
    for value in VALUES:
        for given in (value, {"clientExtensionResults": value}, response(prf=value, credProps=value), response(largeBlob={"blob": value})):
            try:
                assert isinstance(results_of(given), ExtensionResults)
            except BadInput:
                pass
    assert set(extensions.results_of({"clientExtensionResults": None}).__dict__.values()) == {None}
