# Parts of tests/files/run about the names of files, what stands under them, and a desk on a file:
# `source` it after books.sh.

# Files that are no desk's, or not one any more.
try_faults() {
    row='a file that is no desk'
    if [ -n "$sqlite" ]; then
        rm -f "$work/other"
        ask_sqlite "$work/other" 'CREATE TABLE meta (a)'
        run history --db "$work/other" web
        want_fault other-schema
        make_desk "$work/desk" 1
        copy_book "$work/desk" "$work/changed"
        ask_sqlite "$work/changed" 'UPDATE tally SET counted = 2'
        run history --db "$work/changed" web
        want_fault broken-row
        try_first_schema
    fi
    run history --db "$work" web
    want_fault storage
    try_names_of_none
    run history --db "$work/desk"
    [ "$status" -eq 2 ] || fail "$row: status $status when a word is missing"
    try_listen_faults
}

# Names that SQLite takes for something other than a file: in memory, a URI, and no name. Nothing is
# made.
try_names_of_none() {
    local name program
    row='a name that is no file'"'"'s'
    mkdir "$work/inside"
    for name in :memory: file:desk "file:$work/inside/desk" ''; do
        for program in 'serve --listen 127.0.0.1:0' 'pipe --at 0 --step 0'; do
            # shellcheck disable=SC2086 # the words of a program
            (cd "$work/inside" && run $program --db "$name" && want_fault storage)
        done
    done
    [ -z "$(ls "$work/inside")" ] || fail "$row: made: $(ls "$work/inside")"
    rmdir "$work/inside"
    row='a file that is no desk'
}

# A file that was made before templates had revisions: each of these programs refuses it, and leaves
# it. tests/migrate/run has what becomes of such a file with rows.
try_first_schema() {
    local program
    row='a file of the first schema'
    ask_sqlite "$work/old.db" " $(< "$root/tests/tables/first.sql") INSERT INTO meta VALUES (1, 1);"
    cp "$work/old.db" "$work/before"
    printf '%s\n' "$header" > "$work/rows"
    for program in "history --db $work/old.db web" "status --db $work/old.db" \
        "export --db $work/old.db --caller a web" "import --db $work/old.db $work/rows" \
        "serve --listen 127.0.0.1:0 --db $work/old.db" "pipe --at 0 --step 0 --db $work/old.db" \
        "succeed --db $work/old.db $work/next.db"; do
        # shellcheck disable=SC2086 # the words of a program
        run $program
        want_fault other-schema
    done
    cmp "$work/old.db" "$work/before" || fail "$row: it has changed"
    row='a file that is no desk'
}

# The program reads the address, then opens the file, and then takes the address.
try_listen_faults() {
    row='an address'
    run serve --listen nowhere --db "$work/none"
    want_fault listen
    [ ! -e "$work/none" ] || fail "$row: an invalid address makes a file"
    start_desk "$desk_program" || fail "$row: no desk: $(< "$work/errors")"
    run serve --listen "127.0.0.1:$port" --db "$work"
    want_fault storage
    run serve --listen "127.0.0.1:$port" --db "$work/new"
    want_fault listen
    [ -e "$work/new" ] || fail "$row: the file is not opened before the address is taken"
    stop_desk
}

# Names under which there is no file: `status` and `backup` refuse them and make nothing, also where
# a folder is not there or a link leads nowhere. `history`, `export`, `import`, `pipe` and `serve`
# make the file, and write nothing of that on an error stream that is no terminal.
try_missing_files() {
    local name
    row='a file that is not there'
    mkdir "$work/place"
    ln -s nowhere "$work/place/link"
    for name in none nowhere/none link; do
        run status --db "$work/place/$name"
        want_fault file
        run status --db "$work/place/$name" --watch 1
        want_fault file
        run backup --db "$work/place/$name" "$work/place/copy"
        want_fault file
    done
    run status --db ''
    want_fault file
    run status --db "$work/in/none"
    want_fault storage
    run backup --db "$work/in/none" "$work/place/copy"
    want_fault storage
    [ "$(ls "$work/place")" = link ] || fail "$row: made: $(ls "$work/place")"
    printf '%s\n' "$header" > "$work/rows"
    run history --db "$work/place/history" web
    want_fault unknown-service
    run export --db "$work/place/export" --caller copy web
    want_fault unknown-service
    run import --db "$work/place/import" "$work/rows"
    want_text ''
    run pipe --at 0 --step 0 --db "$work/place/pipe"
    want_text ''
    for name in history export import pipe; do
        [ -s "$work/place/$name" ] || fail "$row: $name makes no file"
        run status --db "$work/place/$name"
        want_text "$no_desk"'NAME  STATUS  STEP  WEIGHT  VERSION  STABLE  LATE
'
    done
    rm -r "$work/place"
}

# Files that are no desk's: a text, a short one, an empty file, a database with another table, and
# one whose table SQLite of the kit does not read. `backup` makes nothing of them; what else opens a
# text makes no log beside it.
try_foreign_files() {
    local name
    row='a file that is not a desk'"'"'s'
    mkdir "$work/foreign"
    echo 'this text is no database, and longer than the first bytes of one' > "$work/foreign/text"
    echo text > "$work/foreign/short"
    : > "$work/foreign/empty"
    if [ -n "$sqlite" ]; then
        ask_sqlite "$work/foreign/other" 'CREATE TABLE note (title TEXT) STRICT'
        ask_sqlite "$work/foreign/odd" 'CREATE TABLE note (k TEXT PRIMARY KEY) WITHOUT ROWID'
    fi
    ls "$work/foreign" > "$work/before"
    for name in $(< "$work/before"); do
        run backup --db "$work/foreign/$name" "$work/foreign/copy"
        want_fault other-schema
    done
    for name in text short; do
        run history --db "$work/foreign/$name" web
        want_fault storage
        run status --db "$work/foreign/$name"
        want_fault storage
        run serve --listen 127.0.0.1:0 --db "$work/foreign/$name"
        want_fault storage
    done
    ls "$work/foreign" | cmp - "$work/before" || fail "$row: made: $(ls "$work/foreign")"
    rm -r "$work/foreign"
}

# The desk's moments are those of the machine's clock.
tells_the_time() {
    local late
    get /services/web >&"$client"
    { read_reply "$client" && [[ $reply_body =~ \"moment\":([0-9]+) ]]; } \
        || fail "$row: no moment: $reply_body"
    late=$(($(date +%s) - BASH_REMATCH[1]))
    [[ $late -ge 0 && $late -le 30 ]] || fail "$row: $late seconds later than the clock"
}

# A desk on a file: it refuses a second one, and what it answered is there after a kill.
try_serve() {
    row=serve
    rm -f "$work/desk" "$work/desk-wal"
    start_desk "$desk_program" --db "$work/desk" || fail "$row: no desk: $(< "$work/errors")"
    connect client
    put ops 1 "$(service web '"steps":[{"setWeight":20},{"pause":{}}]')" >&"$client"
    { read_reply "$client" && [ "$reply_status" = 200 ]; } || fail "$row: $reply_body"
    put ops 2 '{"start":{"service":"web","version":"v2"}}' >&"$client"
    { read_reply "$client" && [ "$reply_status" = 200 ]; } || fail "$row: $reply_body"
    first=$reply_body
    tells_the_time
    run serve --listen 127.0.0.1:0 --db "$work/desk"
    want_fault in-use
    run history --db "$work/desk" web
    want_fault in-use
    # one that is stopped still has its file
    kill -STOP "$desk"
    run serve --listen 127.0.0.1:0 --db "$work/desk"
    want_fault in-use
    kill -9 "$desk"
    wait "$desk" 2> /dev/null || true
    hang_up "$client"
    start_desk "$desk_program" --db "$work/desk" || fail "$row: no desk: $(< "$work/errors")"
    connect client
    put ops 2 '{"start":{"service":"web","version":"v2"}}' >&"$client"
    read_reply "$client"
    [ "$reply_status $reply_body" = "200 $first" ] || fail "$row: after a kill: $reply_body"
    hang_up "$client"
    stop_desk
}
