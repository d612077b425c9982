# Parts of tests/files/run about histories and measurement files: `source` it after books.sh.

try_history() {
    row=history
    {
        put ops 1 "$(service web '"steps":[{"setWeight":20},{"pause":{}},{"setWeight":50},
            {"pause":{}}]')"
        put ops 2 '{"start":{"service":"web","version":"v2"}}'
        put ops 3 "$(on_web promote)"
    } > "$work/requests"
    serve_file "$work/desk" "$at" < "$work/requests" > "$work/made"
    run history --db "$work/desk" web
    want_text '2026-01-01T00:00:00Z created v1
2026-01-01T00:00:01Z start v2
2026-01-01T00:00:01Z step 0 setWeight 20
2026-01-01T00:00:01Z step 1 pause
2026-01-01T00:00:02Z promote
2026-01-01T00:00:02Z step 2 setWeight 50
2026-01-01T00:00:02Z step 3 pause
'
    run history --db "$work/desk" api
    want_fault unknown-service
    run history --db "$work/none" 'We b'
    want_fault bad-name
    [ ! -e "$work/none" ] || fail "$row: a bad name makes a file"
}

try_import() {
    local ok='{"code":"ok","phases":["Successful"],"run":1,"service":"web","status":"Paused"'
    local bad='{"code":"ok","phases":["Error"],"run":1,"service":"web","status":"Paused"'
    local rest=',"step":1,"verdict":"Running","weight":20}'
    row=import
    make_desk "$work/desk" 1
    printf '%s\n' "$header" agent,1,web,1,m,1,1767225600,5, agent,2,web,1,m,2,1767225660,6, \
        agent,3,web,1,m,3,1767225720,,timeout > "$work/rows"
    run import --db "$work/desk" "$work/rows"
    want_text "1 200 $ok$rest
2 200 $ok$rest
3 200 $bad$rest
"
    cp "$work/out" "$work/first"
    [ -z "$sqlite" ] || dump "$work/desk" > "$work/before"
    cp "$work/rows" "$work/in"
    run import --db "$work/desk" -
    want 0 "$work/first" ''
    [ -z "$sqlite" ] || dump "$work/desk" | cmp - "$work/before" \
        || fail "$row: a file imported again changes rows"
    : > "$work/in"
    run export --db "$work/desk" --caller copy web
    sed 's/^agent,/copy,/' "$work/rows" > "$work/copied"
    want 0 "$work/copied" ''
}

# Files that are oddly made: CSV as RFC 4180 has it, and what is no measurement file.
try_odd_files() {
    row='an odd file'
    make_desk "$work/desk" 0
    : > "$work/rows"
    run import --db "$work/desk" "$work/rows"
    want_text ''
    printf 'number,caller\n' > "$work/rows"
    run import --db "$work/desk" "$work/rows"
    want_fault header
    printf '%s\n' "$header" agent,0,web,1,m,1,1767225600,5, agent,1,web,1,m,1,1767225600,5 \
        > "$work/rows"
    run import --db "$work/desk" "$work/rows"
    want_text '1 400 {"code":"bad-number"}
2 400 {"code":"unreadable"}
'
    printf '\xef\xbb\xbf%s\r\n"agent","1",web,1,"m",1,1767225600,"5",\r\n' "$header" > "$work/rows"
    run import --db "$work/desk" "$work/rows"
    [[ $status -eq 0 && $(< "$work/out") == '1 200 '* ]] || fail "$row: quotes: $(< "$work/out")"
    rm "$work/rows"
    run import --db "$work/none" "$work/rows"
    want_fault file
    [ ! -e "$work/none" ] || fail "$row: a missing measurement file makes a file"
}

# As many rows as an import and the client take, and one more, none of which can be read.
try_many_rows() {
    local limit=600
    row='many rows'
    seq 1000000 | sed 's/$/ 400 {"code":"unreadable"}/' > "$work/lines"
    { printf '%s\n' "$header" && sed 's/.*/x/' "$work/lines"; } > "$work/rows"
    run import --db "$work/desk" "$work/rows"
    want 0 "$work/lines" ''
    echo x >> "$work/rows"
    run import --db "$work/desk" "$work/rows"
    want 1 "$work/lines" 'canary: rows-spent'
    run send --desk 127.0.0.1:1 "$work/rows"
    want 5 "$work/lines" "$spent
canary: rows recorded: 0, repeated: 0, refused: 1000000"
}

# An input without an end: its one row is answered, and once 1,000,000,000 bytes were read no more
# are asked for.
try_many_bytes() {
    local limit=600 writer
    row='many bytes'
    echo '1 400 {"code":"unreadable"}' > "$work/lines"
    mkfifo "$work/endless"
    run_endless import --db "$work/desk" -
    want 1 "$work/lines" 'canary: rows-spent'
    run_endless send --desk 127.0.0.1:1 -
    want 5 "$work/lines" "$spent
canary: rows recorded: 0, repeated: 0, refused: 1"
}

# Runs the program with these words, on an input of one row and then empty lines without an end. It
# stops for a second before the 1,000,000,000th byte, so that this one is asked for alone.
run_endless() {
    local before=$((1000000000 - 1 - ${#header} - 3))
    { printf '%s\nx\n' "$header" && { yes '' || true; } | head -c "$before" \
        && sleep 1 && yes ''; } > "$work/endless" 2> /dev/null &
    writer=$!
    mv "$work/in" "$work/kept"
    ln -s endless "$work/in"
    run "$@"
    mv -f "$work/kept" "$work/in"
    wait "$writer" || true
}

# Pages of an export: 0, 256, 257 and 1,100 measurements, each read again by import. A disk may take
# a minute to sync each of so many rows.
try_pages() {
    local limit=600 count
    row='export'
    for count in 0 256 257 1100; do
        make_desk "$work/desk" 0
        rows "$count" > "$work/rows"
        run import --db "$work/desk" "$work/rows"
        [ "$(grep -c ' 200 ' "$work/out" || true)" -eq "$count" ] || fail "$row: $count rows"
        run export --db "$work/desk" --caller agent web
        want 0 "$work/rows" ''
        make_desk "$work/other" 0
        cp "$work/out" "$work/exported"
        run import --db "$work/other" "$work/exported"
        run export --db "$work/other" --caller agent web
        want 0 "$work/rows" ''
    done
    run export --db "$work/desk" --caller agent api
    want_fault unknown-service
    run export --db "$work/none" --caller 'a b' web
    want_fault bad-name
}

# A failure text may have control characters. `export` writes them as they came, as RFC 4180 allows;
# what people read shows none.
try_control_characters() {
    local text=$'\e[2J\a\x7fx' program
    row='a failure text with control characters'
    make_desk "$work/desk" 0
    put agent 1 "$(report 1 "$(entry m 1 0 '"failure":"\u001b[2J\u0007\u007fx"')")" \
        > "$work/requests"
    serve_file "$work/desk" "$at" < "$work/requests" > "$work/made"
    [ "$(count_replies "$work/made")" -eq 1 ] || fail "$row: $(< "$work/made")"
    run export --db "$work/desk" --caller agent web
    grep -qF ",,$text" "$work/out" || fail "$row: export writes another text"
    for program in "history --db $work/desk web" "status --db $work/desk"; do
        # shellcheck disable=SC2086 # the words of a program
        run $program
        [ "$status" -eq 0 ] || fail "$row: $program: $(< "$work/told")"
        ! grep -q '[[:cntrl:]]' "$work/out" || fail "$row: $program shows control characters"
    done
}
