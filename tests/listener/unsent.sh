# Rows of tests/listener/run about replies that wait to be sent, and how many go out at once:
# `source` it after clients.sh.

# Meanwhile the desk has had the time to answer another client more.
unsent_waits() {
    write_queries 4000 /nope > "$work/other"
    { write_queries 1200 /nope && put last 1 "$nobody"; } > "$work/stream"
    start
    python3 -c "$deaf" "$port" "$work/reads" < "$work/stream" &
    sleep 0.5
    half_close "$work/other" "another client does not come to its end"
    want_last 409 'the desk answers a message whose client does not take its replies'
    : > "$work/reads"
    want_last 422 'the desk does not answer a client that reads again'
    want_faults
}

# A client asks a desk with the further words $@ for 60 histories at once, and reads them. Sets
# `length` to the bytes of such a reply, and `most` to the most that the desk had to write at once.
measure_unsent() {
    local tracer steps
    start "$@"
    printf -v steps '{"setWeight":%d},' {1..60}
    put ops 1 "$(printf '{"service":{"version":"v1","manifest":{"metadata":{"name":"web"},"spec":
        {"strategy":{"canary":{"steps":[%s{"pause":{}}]}}}}}}' "$steps")" > "$work/stream"
    put ops 2 '{"start":{"service":"web","version":"v2"}}' >> "$work/stream"
    half_close "$work/stream" "the service is not started"
    write_queries 1 /services/web/history > "$work/stream"
    half_close "$work/stream" "a history does not come"
    length=$(wc -c < "$work/replies")
    trace_calls write,sendto
    write_queries 60 /services/web/history > "$work/stream"
    half_close "$work/stream" "60 histories do not come"
    stop_desk
    wait "$tracer" || true
    [ "$(wc -c < "$work/replies")" -eq "$((60 * length))" ] || miss "60 histories of another size"
    most=$(most_written)
}

# The most bytes that the desk had to write at once, as strace saw it.
most_written() {
    sed -nE 's/^[0-9]+ +(write|sendto)\([0-9]+, ".*"(\.\.\.)?, ([0-9]+).*/\3/p' \
        "$work/calls" | sort -n | tail -n 1
}

# The desk writes what is unsent, up to the limit $1, before it answers more. A turn that waited for
# a processor ends sooner: so the most of several attempts counts.
want_unsent() {
    local least attempt
    for ((attempt = 0; attempt < 5; attempt++)); do
        measure_unsent "${@:2}"
        least=$(($1 < 60 * length ? $1 : 60 * length))
        [[ $most -lt $(($1 + length)) ]] || break
        [[ $most -lt $least ]] || return 0
    done
    [[ $most -ge $least ]] || late "$most bytes are unsent at once in place of $1"
    miss "$most bytes are unsent at once in place of $1, and a reply has $length"
}

unsent_limits() {
    with strace || leave_out strace
    want_unsent 300 --max-unsent 300
    # As much as two replies have, so that the limit is met to the byte.
    want_unsent $((2 * length)) --max-unsent $((2 * length))
    want_unsent 65536
    want_unsent 1000000 --max-unsent 1000000
}

# Queries that come at once are answered 64 in a turn at most, and one write sends their replies.
# A turn that waited for a processor has fewer: so the most of several attempts counts.
answers_64_in_a_turn() {
    local tracer attempt most=0 length
    with strace || leave_out strace
    start
    write_queries 1 > "$work/stream"
    half_close "$work/stream" "a reply does not come"
    length=$(wc -c < "$work/replies")
    trace_calls write,sendto
    write_queries 600 > "$work/stream"
    for ((attempt = 0; attempt < 10; attempt++)); do
        half_close "$work/stream" "600 replies do not come"
    done
    stop_desk
    wait "$tracer" || true
    most=$(most_written)
    [ "$most" -le $((64 * length)) ] || miss "a turn answers $((most / length)) queries"
    [ "$most" -ge $((2 * length)) ] || late "each write sends one reply"
    echo "$((most / length)) in a turn" > "$work/note"
}
