# Sourced by what wants a PostgreSQL of its own, of Debian's package.

# Starts one in a folder that does not exist yet, and sets POSTGRES to its address: postgres_started FOLDER. The folder above is
# opened for reading, since it runs as another user.
postgres_started() {
    postgres_control=$(echo /usr/lib/postgresql/*/bin/pg_ctl) postgres_rows=$1
    chmod 755 "$(dirname "$1")" && install -d -m 755 "$1" && install -d -o postgres "$1/rows" "$1/sockets" &&
        su postgres -c "$(dirname "$postgres_control")/initdb -D $1/rows -A trust > /dev/null &&
            $postgres_control -w -D $1/rows -l $1/rows/log -o '-k $1/sockets -c listen_addresses= -c max_connections=200' start > /dev/null" &&
        export POSTGRES="postgresql://postgres@/postgres?host=$1/sockets"
}

# Ends it, if it was started.
postgres_ended() {
    [ -z "${postgres_rows-}" ] || su postgres -c "$postgres_control stop -m immediate -D $postgres_rows/rows" > /dev/null
}
