# Rows of tests/listener/run about what one client may take from others: `source` it after
# clients.sh.

# Both clients have begun a message, so neither makes room.
makes_third_wait() {
    local first second third
    start --max-clients 2
    open first
    printf 'GET /serv' >&"$first"
    open second
    printf 'GET /serv' >&"$second"
    sleep 0.2
    open third
    get /services/nobody >&"$third"
    ! read_reply "$third" 2 || miss "the desk serves a third client beside two"
    printf 'ices/nobody HTTP/1.1\r\n\r\n' >&"$first"
    want_reply "$first" 404
    hang_up "$first"
    want_reply "$third" 404
    printf 'ices/nobody HTTP/1.1\r\n\r\n' >&"$second"
    want_reply "$second" 404
}

# The client that is idle longest goes, and no other one.
idle_makes_room() {
    local first second third
    start --max-clients 2
    open first
    get /services/nobody >&"$first"
    want_reply "$first" 404
    sleep 1.5
    open second
    get /services/nobody >&"$second"
    want_reply "$second" 404
    sleep 1.2
    open third
    get /services/nobody >&"$third"
    want_reply "$third" 404 5 "an idle client makes no room"
    want_end "$first" 0 2 "$(now)"
    get /services/nobody >&"$second"
    want_reply "$second" 404
    want_faults
}

# One client has begun a message, and the other one asks again and again: neither makes room, until
# the other one has been idle for a second.
busy_makes_no_room() {
    local begun busy third until before asked
    start --max-clients 2
    open begun
    printf 'GET /serv' >&"$begun"
    open busy
    asked=$(now)
    get /services/nobody >&"$busy"
    want_reply "$busy" 404
    # The desk counts whole seconds, and one may end now: so it finds the third client together with
    # the next query of the busy one.
    kill -STOP "$desk"
    get /services/nobody >&"$busy"
    open third
    get /services/nobody >&"$third"
    kill -CONT "$desk"
    want_reply "$busy" 404
    until=$(($(now) + 2500))
    while [ "$asked" -lt "$until" ]; do
        before=$asked asked=$(now)
        want_answer "$busy" "a busy client makes room" "$before" 900
        sleep 0.05
    done
    want_reply "$third" 404 5 "a client that is idle by now makes no room"
    want_end "$busy" 0 2 "$(now)"
}

# A service whose history has some 3,000 bytes.
make_history() {
    local steps
    printf -v steps '{"setWeight":%d},' {1..60}
    put ops 1 "$(printf '{"service":{"version":"v1","manifest":{"metadata":{"name":"web"},"spec":
        {"strategy":{"canary":{"steps":[%s{"pause":{}}]}}}}}}' "$steps")" > "$work/stream"
    put ops 2 '{"start":{"service":"web","version":"v2"}}' >> "$work/stream"
    half_close "$work/stream" "the service is not started"
}

# A client that does not take its replies, so that too much is unsent: `deaf_client` is its process.
# Opens the connections $1 and $2 of clients whose queries wait, the first after an empty line.
make_queries_wait() {
    local tries
    start --max-unsent-total 1
    make_history
    write_queries 6000 /services/web/history > "$work/stream"
    python3 -c "$deaf" "$port" "$work/reads" < "$work/stream" 2> "$work/deaf" &
    deaf_client=$!
    for ((tries = 0; tries < 40; tries++)); do
        open "$1"
        { printf '\r\n' && get /services/nobody; } >&"${!1}"
        read_reply "${!1}" 1 || break
        hang_up "${!1}"
        sleep 0.3
    done
    [ "$tries" -lt 40 ] || miss "the desk answers queries while too much is unsent"
    open "$2"
    get /services/nobody >&"${!2}"
    sleep 0.3
    if read -r -t 0 -u "${!2}"; then
        # on a busy machine the first one may only have had no reply so far
        ! read_reply "${!1}" || late "the first query was answered after more than a second"
        miss "the desk answers another query while too much is unsent"
    fi
}

# While one client does not take its replies, queries of others wait, and a request is answered.
queries_wait() {
    local deaf_client first second other
    make_queries_wait first second
    open other
    put last 1 "$nobody" >&"$other"
    want_reply "$other" 422 5 "a request waits while too much is unsent"
    : > "$work/reads"
    want_reply "$first" 404 10 "the query is not answered once the replies are taken"
    want_reply "$second" 404 10 "the second query is not answered once the replies are taken"
}

# What was unsent to a client no longer counts once it has gone: the others need not wait for it.
gone_owe_nothing() {
    local deaf_client first second
    make_queries_wait first second
    kill -9 "$deaf_client"
    wait "$deaf_client" 2> /dev/null || true
    want_reply "$first" 404 10 "the query is not answered once the other client has gone"
    want_reply "$second" 404 10 "the second query is not answered once the other client has gone"
    want_service 2000
}

# There are many of them, and all are let go at once: not one each second.
lets_stalled_go() {
    local head body bodies=() slow begun writer count
    start --read-timeout 2
    begun=$(now)
    open head
    printf 'PUT /callers/head/requests/1 HTTP/1.1\r\nContent-Le' >&"$head"
    for ((count = 0; count < 10; count++)); do
        open body
        printf 'PUT /callers/body/requests/1 HTTP/1.1\r\nContent-Length: 32\r\n\r\n{"promote"' \
            >&"$body"
        bodies+=("$body")
    done
    open slow
    while printf P >&"$slow"; do sleep 0.3; done 2> /dev/null &
    writer=$!
    want_service 1000
    for body in "$head" "${bodies[@]}" "$slow"; do
        want_end "$body" 2 5 "$begun"
    done
    kill "$writer" 2> /dev/null || true
    want_truncated 12
    want_service 1000
}

# Each message comes in one write with the begin of the next one, so the desk always waits for the
# rest of a message: not for longer than --read-timeout, since it answers one meanwhile.
keeps_streaming() {
    local client begun before sent
    printf 'ices/nobody HTTP/1.1\r\n\r\nGET /serv' > "$work/part"
    start --read-timeout 2
    open client
    begun=$(now) sent=$begun
    printf 'GET /serv' >&"$client"
    while [ "$(($(now) - begun))" -lt 6500 ]; do
        sleep 0.2
        before=$sent sent=$(now)
        cat "$work/part" 1>&"$client" 2> /dev/null || true
        if ! read_reply "$client"; then
            [ "$(($(now) - before))" -lt 1700 ] || late "this row stood still"
            miss "the desk lets a client go that streams, or does not answer it"
        fi
        [ "$reply_status" = 404 ] || miss "status $reply_status in place of 404: $reply_body"
    done
    printf 'ices/nobody HTTP/1.1\r\n\r\n' >&"$client"
    want_reply "$client" 404
    want_faults
}

bears_unread_errors() {
    local status=0
    timeout "$row_seconds" python3 "$root/tests/listener/unread.py" "$desk_program" \
        > "$work/said" 2>&1 || status=$?
    want_done "$status" "$(tail -n 1 "$work/said")"
}
