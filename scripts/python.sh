# Sourced, after packages.sh, by what installs the package garvoeng as users do, but for the registry, or runs it where it stands. `top` is the
# repository.

# Makes a folder for Python with the package in it: python_environment FOLDER. It is built from a copy, since setuptools writes
# into what it builds.
python_environment() {
    local copy status
    copy=$(mktemp -d) && mkdir -p "$copy/c" "$copy/dist" &&
        packages gcc libc6-dev python3-dev python3-venv python3-setuptools python3-wheel python3-cryptography &&
        cp -a "$top/python" "$copy/" && cp "$top/c/passkey.h" "$copy/c/" &&
        cp -a "$top"/dist/{x86_64,aarch64,portable} "$copy/dist/" &&
        /usr/bin/python3 -m venv --system-site-packages "$1" &&
        "$1/bin/pip" install --quiet --no-build-isolation --no-index "$copy/python"
    status=$?
    rm -rf "$copy"
    return "$status"
}

# Runs a file of python/tests over the package as it stands: python_prints FILE.
python_prints() {
    "$top/python/prepare" && PYTHONPATH=$top/python /usr/bin/python3 -B "$top/python/tests/$1"
}
