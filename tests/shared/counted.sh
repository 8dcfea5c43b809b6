# Sourced by the tests in bash, which count what passed. `room` is a folder of theirs, which they remove. What the last command said
# stands in `said`, of which each that runs beside the others has its own.
passed=0 failed=0 said=$room/said

# Counts a command, whose status has to be 0: run WHAT COMMAND ..; the end of what it says is shown where it fails.
run() {
    if "${@:2}" > "$said" 2>&1; then
        passed=$((passed + 1))
    else
        failed=$((failed + 1))
        echo "FAILED: $1"
        tail -n 60 "$said"
        return 1
    fi
}

# Runs a program with a limit of LIMIT seconds, an hour by default, so that what hangs fails and the rest is still told: limited
# COMMAND ..; a function of the shell has no limit of its own.
limited() {
    if [ "$(type -t "$1")" = file ]; then
        timeout -k 30 "${LIMIT:-3600}" "$@"
    else
        "$@"
    fi
}

# Notes when a command began and ended, for longest_chain: noted BEGAN COMMAND ..
noted() {
    echo "$1 $SECONDS ${*:2}" >> "$room/parts"
}

# Runs a command whose last line is 'N passed, M failed', counts them, and tells how long it took; a status that does not fit
# is a failure.
counted() {
    local status line began=$SECONDS
    limited "$@" 2>&1 | tee "$said"
    status=${PIPESTATUS[0]}
    line=$(tail -n 1 "$said")
    [ "$1" = said_of ] || {
        noted "$began" "$@"
        echo "($*: $((SECONDS - began)) s)"
    }
    if [[ $line =~ ^([0-9]+)\ passed,\ ([0-9]+)\ failed$ ]] && [ "$((BASH_REMATCH[2] == 0))" -eq "$((status == 0))" ]; then
        passed=$((passed + BASH_REMATCH[1])) failed=$((failed + BASH_REMATCH[2]))
    else
        echo "FAILED: $*, status $status"
        failed=$((failed + 1))
    fi
    return "$status"
}

# Begins a command beside what follows: aside NAME COMMAND ..
aside() {
    local began=$SECONDS place=$room/beside/$1
    mkdir -p "$(dirname "$place")"
    {
        passed=0 failed=0 said=$place.last
        limited "${@:2}" > "$place.said" 2>&1
        local status=$?
        noted "$began" "${@:2}"
        echo "($1, beside the rest: $((SECONDS - began)) s)" > "$place.seconds"
        echo "$status" > "$place.status"
    } &
}

# The same once fewer run so than LANES says, or than there are cores: in_lane NAME COMMAND ..
in_lane() {
    while [ "$(jobs -rp | wc -l)" -ge "${LANES:-$(nproc)}" ]; do wait -n; done
    aside "$@"
}

has_ended() {
    [ -s "$room/beside/$1.status" ]
}

# What it said, and its status, once it has ended: said_of NAME.
said_of() {
    until has_ended "$1"; do sleep 1; done
    cat "$room/beside/$1.seconds" "$room/beside/$1.said"
    return "$(cat "$room/beside/$1.status")"
}

# Tells the parts of which each waited for the one before, up to the one that ended last.
longest_chain() {
    sort -k 2,2n "$room/parts" | awk '
        { began[NR] = $1; ended[NR] = $2; sub(/^[0-9]+ [0-9]+ /, ""); name[NR] = $0 }
        END {
            for (at = NR; at > 0; at = before) {
                chain = name[at] " " ended[at] - began[at] " s" (chain == "" ? "" : ", " chain)
                for (before = at - 1; before > 0 && ended[before] > began[at]; before--);
            }
            print "longest chain: " chain
        }'
}

# The last line of a test, and its status.
verdict() {
    echo "$passed passed, $failed failed"
    [ "$failed" -eq 0 ]
}
