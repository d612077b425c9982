# The part of tests/files/run about `backup`: `source` it after books.sh.

# A stream of so many reports, those of `rows`. The process that runs this becomes the one that
# writes them.
reports() {
    exec awk -v count="$1" -v at="$at" 'BEGIN { for (k = 1; k <= count; k++) {
        entry = sprintf("{\"metric\":\"m\",\"ordinal\":%d,\"taken\":%d,\"result\":%d}", k,
            at + 60 * (k - 1), k % 7)
        body = "{\"report\":{\"service\":\"web\",\"run\":1,\"entries\":[" entry "]}}"
        printf "PUT /callers/agent/requests/%d HTTP/1.1\r\nContent-Length: %d\r\n\r\n%s", k,
            length(body), body } }'
}

# Copies a file that a desk serves meanwhile: the copy opens, and has the first requests that were
# settled, among them the $1 that were answered before.
try_copy() {
    local kept
    run backup --db "$work/desk" "$work/copy"
    want_text ''
    run history --db "$work/copy" web
    [ "$status" -eq 0 ] || fail "$row: after $1 replies: $(< "$work/told")"
    run export --db "$work/copy" --caller agent web
    kept=$(($(wc -l < "$work/out") - 1))
    [ "$kept" -ge "$1" ] || fail "$row: $kept requests in place of $1"
    head -n $((kept + 1)) "$work/rows" | cmp - "$work/out" || fail "$row: after $1 replies"
    rm "$work/copy" "$work/copy-wal"
    kill -0 "$desk" || fail "$row: the desk ended: $(< "$work/errors")"
}

# Copies until so many reports are answered, each of which is synced: many more copies than one, and
# one at least. What is counted are those that were done while there were reports to come.
try_backup() {
    local count=4000 most=100000 answered=0 copies=0 since=$SECONDS reader writer
    row=backup
    rm -f "$work/copy" "$work/copy-wal"
    make_desk "$work/desk" 0
    rows "$most" > "$work/rows"
    start_desk "$desk_program" --db "$work/desk" || fail "$row: no desk: $(< "$work/errors")"
    connect client
    : > "$work/replies"
    cat <&"$client" > "$work/replies" &
    reader=$!
    reports "$most" >&"$client" &
    writer=$!
    while ((answered < count || copies == 0 && answered < most)); do
        try_copy "$answered"
        count_answered
    done
    kill "$reader" "$writer" 2> /dev/null || true
    wait "$reader" "$writer" 2> /dev/null || true
    hang_up "$client"
    stop_desk
    [ "$copies" -ge 1 ] || fail "$row: no copy was done before the last reply"
    want_short_log
    echo "files: $copies copies were made under load" >&2
    try_refused_backups
}

# The log of these reports: each writes six pages or more, of 512 bytes with 24 of a header, so
# together they would be more than 12 MB. From 4,096,000 bytes of pages on it begins anew, and not
# before: to copy it into the file takes two syncs, and each page of it.
want_short_log() {
    local bytes
    bytes=$(wc -c < "$work/desk-wal")
    [[ $bytes -ge 4096000 && $bytes -lt 5000000 ]] || fail "$row: a log of $bytes bytes"
}

# Sets `answered` to how many of the reports are answered by now. If these are not all, the copy was
# done while there were reports to come, and the load has to go on.
count_answered() {
    local before=$answered
    answered=$(count_replies "$work/replies")
    [ "$answered" -lt "$most" ] || return 0
    copies=$((copies + 1))
    kill -0 "$reader" 2> /dev/null || fail "$row: the connection ended after $answered replies"
    [ "$answered" -eq "$before" ] || since=$SECONDS
    [ "$((SECONDS - since))" -lt "$limit" ] || fail "$row: no more than $answered of $count replies"
}

try_refused_backups() {
    run backup --db "$work/desk" "$work/copy"
    want_text ''
    run backup --db "$work/desk" "$work/copy"
    want_fault file
    mv "$work/copy" "$work/other"
    [ -e "$work/copy-wal" ] || : > "$work/copy-wal"
    run backup --db "$work/desk" "$work/copy"
    want_fault file
    [ ! -e "$work/copy" ] || fail "$row: a copy is made beside another's log"
    rm "$work/copy-wal"
    run backup --db "$work/desk" "$work/nowhere/copy"
    want_fault file
    [ -z "$(find "$work" -name '*.part*')" ] || fail "$row: a part of a copy is left"
    try_names_of_parts
    try_foreign_files
}

# A file whose name is like that of a part of the copy, and one whose name was once that of a part.
try_names_of_parts() {
    row='the part of a backup'
    copy_book "$work/desk" "$work/copy.part"
    cp "$work/copy.part" "$work/before"
    run backup --db "$work/copy.part" "$work/copy"
    want_text ''
    cmp "$work/copy.part" "$work/before" || fail "$row: the copied file is another"
    cmp "$work/copy.part" "$work/copy" || fail "$row: the copy is another"
    rm "$work"/copy*
    status=0
    bash -c 'echo mine > "$2.part-$$"; exec "$0" backup --db "$1" "$2"' \
        "$desk_program" "$work/desk" "$work/copy" \
        < "$work/in" > "$work/out" 2> "$work/told" || status=$?
    want_text ''
    [ "$(cat "$work"/copy.part-*)" = mine ] || fail "$row: a file that was there is another"
    [ "$(find "$work" -name 'copy*' | wc -l)" = 3 ] || fail "$row: a part is left"
    rm "$work"/copy*
}
