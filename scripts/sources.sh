# What a program of this tree is built from, and what is known of one. Sourced by ./passkey, ./test and ./dev release;
# $top is the tree.

# The programs that are handed out: the name in dist/, and the crate.
programs=("passkey passkey_main" "passkey-site site_main" "passkey-client client_main" "softkey key_main")

# The lines of crates.txt of a crate and of those that it stands on, lowest first: crates_of NAME.
crates_of() {
    awk -F: -v last="$1" '
        function visit(name,   i, n, below) {
            if (name in seen || !(name in line)) return
            seen[name] = 1
            n = split(stands_on[name], below, " ")
            for (i = 1; i <= n; i++) visit(below[i])
            print line[name]
        }
        !/^#/ && NF { split($1, word, " "); line[word[1]] = $0; stands_on[word[1]] = $2 }
        END { visit(last) }' "$top/crates.txt"
}

# The digest of the sources of a crate: its lines of crates.txt and the text of each file, whatever its time.
sources_of() {
    local lines folders
    lines=$(crates_of "$1")
    mapfile -t folders < <(sed 's|[ :].*||; s|^|crates/|' <<< "$lines")
    (
        cd "$top" || exit 70
        echo "$lines"
        find "${folders[@]}" -name out -prune -o \( -name '*.rt' -o -name '*.antt' \) -print0 | LC_ALL=C sort -z | xargs -0 sha256sum
    ) | digest
}

# The digest of all that scripts/machines builds from.
machine_sources() {
    local program
    {
        for program in "${programs[@]}" "libpasskey passkey_exports"; do sources_of "${program#* }"; done
        cat "$top"/c/{heap.c,library,passkey.h} "$top"/c/machines/{heap.c,system.c,portable.c,wasm.h,retarget.py,one_file.py} \
            "$top"/scripts/{machines,built.sh}
    } | digest
}

# The digest of what comes in, or of a file: digest [FILE].
digest() {
    local sum
    sum=$(sha256sum "$@") && echo "${sum%% *}"
}

# Reads dist/MANIFEST: ${manifest[NAME.WHAT]} is the rest of its line 'NAME WHAT ..'.
declare -A manifest
read_manifest() {
    local name what value
    [ -r "$top/dist/MANIFEST" ] || return 1
    while read -r name what value; do manifest[$name.$what]=$value; done < "$top/dist/MANIFEST"
}

# The program of a crate as it is built here, and the stamp beside it: 'SOURCES PROGRAM BY', the digests of its sources and
# of itself, and what proved it: 'gate' (./test) or 'build' (./passkey --build).
built_of() {
    if [ "$1" = passkey_exports ]; then echo "$top/crates/passkey_exports/out/libpasskey_exports.a"; else echo "$top/crates/$1/out/$1"; fi
}
stamp_of() { echo "$top/crates/$1/out/sources"; }

# Writes the stamp of a crate's program: stamp CRATE SOURCES BY.
stamp() { echo "$2 $(digest "$(built_of "$1")") $3" > "$(stamp_of "$1")"; }

# Whether what is built here of a crate is of the sources of this digest: is_built CRATE SOURCES [BY].
is_built() {
    local from program by
    [ -f "$(built_of "$1")" ] && [ -r "$(stamp_of "$1")" ] && read -r from program by < "$(stamp_of "$1")" &&
        [ "$from" = "$2" ] && [ "$by" = "${3-$by}" ] && [ "$program" = "$(digest "$(built_of "$1")")" ]
}
