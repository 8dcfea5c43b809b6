"""Builds the extension module over the proved library: that of this machine where there is one (Linux with glibc, x86-64 or ARM64),
else passkey.c. They lie in native/ of a source distribution, and in c/ and dist/ of the repository. PASSKEY=portable takes passkey.c."""
import os
import shutil
import sysconfig
from pathlib import Path

from setuptools import Extension, setup
from setuptools.command.sdist import sdist

HERE = Path(__file__).resolve().parent
NATIVE = ("passkey.h", "passkey.c", "x86_64/libpasskey.a", "aarch64/libpasskey.a")
MACHINES = ("x86_64", "aarch64")


def native(name):
    """Where a file of NATIVE lies."""
    packed = HERE / "native" / name
    folder = {"passkey.h": "c", "passkey.c": "dist/portable"}.get(name, "dist")
    return packed if packed.exists() else HERE.parent / folder / name


def platform():
    """The machine whose library is handed out, or None."""
    name = sysconfig.get_platform()
    machine = name[len("linux-"):] if name.startswith("linux-") else None
    return machine if machine in MACHINES and "musl" not in (sysconfig.get_config_var("SOABI") or "") else None


def extension():
    machine = None if os.environ.get("PASSKEY") == "portable" else platform()
    sources, objects, links = ["_passkey.c"], [], []
    if machine is None:
        (HERE / "build").mkdir(exist_ok=True)
        shutil.copy(native("passkey.c"), HERE / "build" / "passkey.c")
        sources.append("build/passkey.c")
    else:
        objects.append(str(native(f"{machine}/libpasskey.a")))
        links.append("-Wl,--exclude-libs,ALL")
    return Extension("garvoeng._passkey", sources, include_dirs=[str(native("passkey.h").parent)], extra_objects=objects, extra_link_args=links,
                     depends=[str(native("passkey.h")), *objects], define_macros=[("Py_LIMITED_API", "0x03090000")], py_limited_api=True)


class SourceDistribution(sdist):
    def make_release_tree(self, base_dir, files):
        super().make_release_tree(base_dir, files)
        for name in NATIVE:
            to = Path(base_dir, "native", name)
            to.parent.mkdir(parents=True, exist_ok=True)
            shutil.copy(native(name), to)


setup(ext_modules=[extension()], cmdclass={"sdist": SourceDistribution}, options={"bdist_wheel": {"py_limited_api": "cp39"}})
