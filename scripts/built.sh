# Builds what a C compiler or a linker goes on with. Sourced by c/library and scripts/machines, after sources.sh.

# The kit's folder.
kit() { dirname "$(rt doc)"; }

# Whether the library in a crate's folder is older than its sources or those of a crate below: is_stale CRATE. A check in this
# folder may have left it, and rt ci, which does not read it, puts it back when it ends. The gate's own has no stamp.
is_stale() {
    local folders stamp=$top/crates/$1/out/rlib/stamp
    [ -e "$stamp" ] || return 1
    mapfile -t folders < <(crates_of "$1" | sed "s|[ :].*||; s|^|$top/crates/|")
    [ -n "$(find "$top/crates.txt" "${folders[@]}" -name out -prune -o \( -name '*.rt' -o -name '*.antt' -o -name crates.txt \) \
        -newer "$stamp" -print -quit)" ]
}

# Proves and builds a crate of programs or a static library for a target, over the libraries as they lie in the crates'
# folders, which the gate has just proved: over_the_gate CRATE TARGET FILE [TOOLCHAIN]. What a first target's run proved of the
# crate is kept in its out/kept, and the next takes it from there.
over_the_gate() {
    local kit name below words root=src/lib.rt
    kit=$(kit)
    [ -f "$top/crates/$1/src/main.rt" ] && root=src/main.rt
    words=(--crate-name "$1" "$root" --links "$1=" --target "$2" --toolchain "${4-$kit/toolchain}" --jobs 1
        --antt-project "$kit/rattle/logic/antt-project.json" --logic-built "$kit/logic_built"
        --incremental "$top/crates/$1/out/kept" --extern "std=$kit/rlibs/std.rlib" -L "dependency=$kit/rlibs")
    [ "$root" = src/lib.rt ] && words+=(--crate-type staticlib)
    below=$(crates_of "$1" | sed 's|[ :].*||')
    for name in $(crates_of "$1" | sed -n "s/^$1\( staticlib\)\?: //p"); do
        if [ -d "$top/crates/$name" ]; then
            words+=(--extern "$name=$top/crates/$name/out/rlib/$name.rlib")
        else
            words+=(--extern "$name=$kit/rlibs/$name.rlib")
        fi
    done
    for name in $below; do
        [ "$name" != "$1" ] || continue
        if is_stale "$name"; then
            echo "crates/$name/out/rlib is of older sources: ./test builds it anew" >&2
            return 1
        fi
        words+=(-L "dependency=$top/crates/$name/out/rlib")
    done
    mkdir -p "$top/crates/$1/out/kept"
    (cd "$top/crates/$1" && "$kit/bin/rattle" build "${words[@]}" -o "$3")
}
