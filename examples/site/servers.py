"""Server processes of the site, for `try` and `load`."""
import atexit
import os
import subprocess
import sys
import time
import urllib.request
from pathlib import Path
from typing import Optional

APP = Path(__file__).resolve().parent / "app.py"


def started(address: str, port: int, origin: Optional[str] = None) -> "subprocess.Popen[bytes]":
    """A process that answers on this port, and ends with this one."""
    words = {"PORT": str(port), "SECRET": "the same in each process", **({"ORIGIN": origin} if origin else {})}
    site = subprocess.Popen([sys.executable, str(APP), address], stderr=subprocess.DEVNULL, stdout=subprocess.DEVNULL,
                            env={**os.environ, **words})
    atexit.register(ended, site)
    for _ in range(600):
        try:
            urllib.request.urlopen(f"http://localhost:{port}/").close()
            return site
        except OSError:
            time.sleep(0.1)
    raise SystemExit("the site did not start")


def ended(site: "subprocess.Popen[bytes]") -> None:
    site.kill()
    site.wait()
