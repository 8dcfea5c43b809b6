"""What `import garvoeng` takes: nothing that only some sites have, and each name that is asked for."""
import json
import subprocess
import sys

import pytest

HEAVY = {"asyncio", "concurrent.futures", "cryptography", "hashlib", "ipaddress", "logging", "multiprocessing", "secrets", "socket", "sqlite3", "ssl", "subprocess", "tempfile"}


def run(code):
    return json.loads(subprocess.run([sys.executable, "-c", f"import json, sys\n{code}"], check=True, capture_output=True, timeout=300).stdout)


def test_what_is_imported():
    """Each of these takes longer than all of the package."""
    imported = run("before = set(sys.modules)\nimport garvoeng\nprint(json.dumps(sorted(set(sys.modules) - before)))")
    assert "garvoeng.server" in imported and not HEAVY & set(imported)
    assert not {"garvoeng.stored", "garvoeng.sql", "garvoeng.keeping", "garvoeng.broker", "garvoeng.signatures"} & set(imported)


def test_each_name_is_there():
    said = run("import garvoeng\nnames = garvoeng.__all__\nfound = {name: getattr(garvoeng, name).__class__.__name__ for name in names}\n"
               "print(json.dumps([sorted(found) == sorted(names), set(names) <= set(dir(garvoeng)), garvoeng.StoredServer is garvoeng.StoredServer, hasattr(garvoeng, 'nothing')]))")
    assert said == [True, True, True, False]
    said = run("from garvoeng import *\nfrom garvoeng import StoredServer as one\nfrom garvoeng.stored import StoredServer as other\nfrom garvoeng.keeping import KeepingServer as kept\n"
               "print(json.dumps([one is other is StoredServer, kept is KeepingServer, RateLimit().burst]))")
    assert said == [True, True, 50]


def test_a_name_that_is_none():
    import garvoeng
    with pytest.raises(AttributeError, match="module 'garvoeng' has no attribute 'StoredSignIn'"):
        garvoeng.StoredSignIn
    with pytest.raises(ImportError, match="StoredSignIn"):
        from garvoeng import StoredSignIn  # noqa: F401
