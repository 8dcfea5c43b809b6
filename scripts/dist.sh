# What dist/ holds of a program that was built here. Sourced by ./test and ./dev release, after sources.sh.

# Which version dist/ is of, as lines of dist/MANIFEST: that of the tag on HEAD, or one of development. release_lines [--development]
# fails, and says why, where the tree isn't HEAD's, or a tag is another version's; --development allows both. What lies in dist/ doesn't
# count: nothing of it is built from.
release_lines() {
    local version changes tags state="of development"
    version=$(cat "$top/VERSION")
    if [ "${1-}" != --development ]; then
        changes=$(git -C "$top" status --porcelain -- . ':!dist') && tags=$(git -C "$top" tag --points-at HEAD) || return
        if [ -n "$changes" ]; then
            printf 'the tree has what HEAD has not; --development builds from it:\n%s\n' "$changes" >&2
            return 1
        fi
        if [ -n "$tags" ] && [ "$tags" != "v$version" ]; then
            echo "HEAD has the tag $(xargs <<< "$tags"), and VERSION is $version" >&2
            return 1
        fi
        [ -z "$tags" ] || state="tag $tags"
    fi
    printf 'release version %s\nrelease state %s\n' "$version" "$state"
}

# Signs a file by a private key of OpenSSH, or by a public one whose private one an agent has, into FILE.sig: signed FILE KEY.
signed() {
    rm -f "$1.sig"
    ssh-keygen -q -Y sign -n garvoeng -f "$2" "$1"
}

# The kit's own tools, by which programs are linked: tool NAME ARGUMENT..
tool() {
    local name=$1
    shift
    (exec -a "$name" "$(dirname "$(readlink -f "$(command -v rt)")")/../toolchain/bin/clang" "$@")
}

# The tools that decide a program's bytes, as lines of dist/MANIFEST.
tools() {
    echo "tools kit $(rt version)"
    echo "tools compiler $(tool clang --version | head -n 1)"
    echo "tools linker $(tool ld.lld --version)"
}

# The oldest glibc that a program runs on: glibc_of FILE.
glibc_of() {
    tool llvm-readelf --version-info "$1" | grep -o 'GLIBC_[0-9.]*' | sed 's/GLIBC_//' | sort -Vu | tail -n 1
}

# The lines of MANIFEST that each file has, by its name there: file_lines NAME FILE.
file_lines() {
    echo "$1 sha256 $(digest "$2")"
    echo "$1 size $(stat -c %s "$2")"
}

# The lines of MANIFEST of what scripts/machines built, whose folder is c/out/machines.
machine_lines() {
    local file name crate program glibc
    for file in "$top"/c/out/machines/*/*; do
        name=${file#"$top"/c/out/machines/}
        file_lines "$name" "$file"
        for program in "${programs[@]}"; do
            read -r program crate <<< "$program"
            [ "${name#*/}" = "$program" ] || continue
            echo "$name sources $(sources_of "$crate")"
            glibc=$(glibc_of "$file")
            [ -z "$glibc" ] || echo "$name glibc $glibc"
        done
    done
    sed 's/^/machines /' "$top/c/out/machines/made"
}

# Writes the program of a crate that was built here into a folder, stripped and without a build id, and prints its lines of
# dist/MANIFEST: made_into FOLDER NAME CRATE SOURCES.
made_into() {
    cp "$(built_of "$3")" "$1/$2" && tool llvm-strip --strip-all --remove-section=.note.gnu.build-id "$1/$2" || return 1
    file_lines "$2" "$1/$2"
    echo "$2 sources $4"
    echo "$2 glibc $(glibc_of "$1/$2")"
}

# Writes each program into a folder, and prints MANIFEST: all_made_into FOLDER.
all_made_into() {
    local name crate
    tools
    for program in "${programs[@]}"; do
        read -r name crate <<< "$program"
        made_into "$1" "$name" "$crate" "$(sources_of "$crate")" || return 1
    done
}

# Writes the licences of what is linked into a folder, and prints their lines of dist/MANIFEST: notices_into FOLDER.
notices_into() {
    local name
    "$top/scripts/notice" "$1" "${programs[@]/ /=}" libpasskey=passkey_exports || return
    for name in NOTICE garvoeng.cdx.json; do echo "$name sha256 $(digest "$1/$name")"; done
}

# What the package for JavaScript is packed from, beside files of dist/.
js_sources=(js LICENSE python/garvoeng/{passkeys.html,passkeys.js,page.js,web/models.json})

# Packs the package for JavaScript into a folder, with these files as its passkey.wasm and NOTICE, and prints its lines of
# dist/MANIFEST: packed_into FOLDER MODULE NOTICE. Other versions of npm and Node may compress the same files to other bytes.
packed_into() {
    local copy name status=1
    copy=$(mktemp -d) || return
    name=garvoeng-$(cat "$top/VERSION").tgz
    if mkdir -p "$copy/dist/portable" && cp "$2" "$copy/dist/portable/passkey.wasm" && cp "$3" "$copy/dist/NOTICE" &&
        tar -C "$top" --exclude=node_modules --exclude=js/cjs --exclude=js/LICENSE --exclude=js/NOTICE --exclude=js/passkey.wasm --exclude=js/site_files.js --exclude=js/wasm_text.js -cf - "${js_sources[@]}" | tar -C "$copy" -xf - &&
        (cd "$copy/js" && umask 022 && HOME=$copy npm_config_cache=$copy/cache npm pack --offline --silent --pack-destination "$1" > /dev/null) && [ -f "$1/$name" ]; then
        file_lines "$name" "$1/$name"
        echo "$name tools npm $(npm --version), Node $(node --version)"
        status=0
    fi
    rm -rf "$copy"
    return "$status"
}

# Makes the inspector into a folder, with this file as its module, and prints its lines of dist/MANIFEST: inspector_into FOLDER MODULE.
# Another version of Node may pack the module to other bytes.
inspector_into() {
    node "$top/inspector/make.mjs" "$2" "$1/inspector.html" || return
    file_lines inspector.html "$1/inspector.html"
    echo "inspector.html tools Node $(node --version)"
}

# Writes the pages as HTML into the folder pages/ of a folder, and prints their lines of dist/MANIFEST: pages_into FOLDER.
pages_into() {
    local file
    "$top/scripts/pages" --html "$1/pages" || return
    for file in "$1"/pages/*; do file_lines "pages/${file##*/}" "$file"; done
    echo "pages/index.html tools $(cmark-gfm --version | head -n 1 | sed 's/ - .*//')"
}
