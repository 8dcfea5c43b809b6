# Sourced by the scripts that need packages of Debian.

# apt-get, which waits for up to ten minutes while somebody else has its locks, as a fresh machine's own updates do.
apt_get() {
    local said since=$SECONDS
    said=$(mktemp) || return
    until DEBIAN_FRONTEND=noninteractive apt-get -o DPkg::Lock::Timeout=600 "$@" 2> "$said"; do
        if ! grep -q 'Could not get lock\|Unable to lock' "$said" || [ $((SECONDS - since)) -ge 600 ]; then
            cat "$said" >&2
            rm -f "$said"
            return 1
        fi
        sleep 2
    done
    rm -f "$said"
}

# Installs the packages that are missing.
packages() {
    local missing=() name
    for name in "$@"; do
        dpkg-query -W -f '${Status}' "$name" 2> /dev/null | grep -q '^install ok installed$' || missing+=("$name")
    done
    [ ${#missing[@]} -eq 0 ] && return
    apt_get install -y --no-install-recommends "${missing[@]}" || { apt_get update && apt_get install -y --no-install-recommends "${missing[@]}"; }
}
