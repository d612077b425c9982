# Rows of tests/listener/run about many clients at once, and what a desk does between them: `source`
# it after clients.sh.

serves_at_once() {
    local clients=() client count
    start
    for ((count = 0; count < 200; count++)); do
        open client
        clients+=("$client")
    done
    for ((count = 0; count < 200; count++)); do
        put "c$count" 1 '{"template":{"metadata":{"name":"t'$count'"},
            "spec":{"metrics":[{"name":"m"}]}}}' >&"${clients[count]}"
    done
    for ((count = 0; count < 200; count++)); do
        want_reply "${clients[count]}" 200
        [ "$reply_body" = '{"code":"ok","revision":1,"template":"t'$count'"}' ] \
            || miss "client $count has the reply of another: $reply_body"
    done
    want_faults
}

# The desk stands still until all have come, so it finds them waiting at once. It accepts some at a
# time, and must not wait before it accepts more: only the last one says something.
accepts_all_that_wait() {
    local client='' count
    start
    kill -STOP "$desk"
    for ((count = 0; count < 200; count++)); do
        connect client || break
    done
    kill -CONT "$desk"
    [ "$count" -eq 200 ] || miss "only $count clients can connect"
    get /services/nobody >&"$client"
    want_reply "$client" 404 20
}

# As many as 6 seconds allow, since a build with checks takes long for each connection.
serves_in_turn() {
    local client count until
    start
    until=$(($(now) + 6000))
    for ((count = 0; count < 1000; count++)); do
        [ "$count" -lt 100 ] || [ "$(now)" -lt "$until" ] || break
        open client
        get /services/nobody 'Connection: close' >&"$client"
        want_reply "$client" 404
        hang_up "$client"
    done
    [ "$count" -eq 1000 ] || echo "$count of the 1,000" > "$work/note"
}

# The second of three ends in the midst of a message, and the third stays while the others come.
# A fourth one is not accepted.
ends_after_connections() {
    local client last further
    start --connections 3
    open last
    want_service 1000
    kill -0 "$desk" 2> /dev/null || miss "the desk ended too early"
    open client
    printf 'GET /serv' >&"$client"
    hang_up "$client"
    want_line 'canary: truncated 127.0.0.1'
    kill -0 "$desk" 2> /dev/null || miss "the desk ended with a client there"
    open further
    get /services/nobody >&"$further"
    ! read_reply "$further" 1 || miss "the desk serves a fourth client"
    get /services/nobody >&"$last"
    want_reply "$last" 404
    hang_up "$last"
    want_exit 0
}

# Ticks of the processor that the desk has had.
ticks_of_desk() {
    local line fields
    IFS= read -r line < "/proc/$desk/stat"
    read -r -a fields <<< "${line##*) }"
    echo $((fields[11] + fields[12]))
}

# In two seconds in which nothing is to be done, the desk has few ticks of the processor.
want_idle_seconds() {
    local ticks
    ticks=$(ticks_of_desk)
    sleep 2
    ticks=$(($(ticks_of_desk) - ticks))
    [ "$ticks" -lt "$(($(getconf CLK_TCK) / 2))" ] || miss "two idle seconds took $ticks ticks"
}

# Of its clients one has had its reply, and one has begun a message.
rests_when_idle() {
    local first second
    start
    open first
    get /services/nobody >&"$first"
    want_reply "$first" 404
    open second
    printf 'GET /serv' >&"$second"
    sleep 0.3
    want_idle_seconds
    want_service 1000
}

# Reads the replies that have come by now, and hangs up each client that has its reply. Sets
# `waiting` to the others.
let_served_go() {
    local client left=()
    for client in "${waiting[@]}"; do
        if read -r -t 0 -u "$client"; then
            want_reply "$client" 404
            hang_up "$client"
        else
            left+=("$client")
        fi
    done
    waiting=("${left[@]}")
}

bears_no_descriptors() {
    local waiting=() client count
    descriptors=16
    start
    for ((count = 0; count < 40; count++)); do
        open client
        get /services/nobody >&"$client"
        waiting+=("$client")
    done
    sleep 0.5
    want_idle_seconds
    let_served_go
    [ "${#waiting[@]}" -lt 37 ] || late "the desk serves only $((40 - ${#waiting[@]})) clients"
    [ "${#waiting[@]}" -gt 0 ] || miss "16 files are no limit here"
    for ((count = 0; count < 100 && ${#waiting[@]} > 0; count++)); do
        sleep 0.1
        let_served_go
    done
    [ "${#waiting[@]}" -eq 0 ] || late "the desk does not serve ${#waiting[@]} clients"
    want_service 2000
}

# The desk answers the second client before the first has all its replies, also what waits in the
# queue of histories.
shares_turns() {
    local fast client count=200000 length reader got
    write_queries "$count" > "$work/stream"
    start
    open fast
    open client
    get /services/nobody >&"$fast"
    want_reply "$fast" 404
    length=$(reply 404 "$reply_reason" "$reply_body" | wc -c)
    timeout 60 head -c $((length * count)) <&"$fast" > "$work/replies" 2> /dev/null &
    reader=$!
    cat "$work/stream" 1>&"$fast" 2> /dev/null &
    while [ ! -s "$work/replies" ] && kill -0 "$reader" 2> /dev/null; do
        sleep 0.001
    done
    get /services/nobody/history >&"$client"
    want_reply "$client" 404 2 "no history beside a client that floods"
    get /services/nobody >&"$client"
    want_reply "$client" 404 2 "no reply beside a client that floods"
    got=$(wc -c < "$work/replies")
    [ "$got" -gt 0 ] || miss "the desk does not serve the fast client"
    [ "$got" -lt $((length * count)) ] || late "the fast client had all its replies first"
}

# Clients that send much at once share the time of a round: one that takes long for each message has
# one of them answered in its turn.
shares_rounds() {
    local status=0
    with strace || leave_out strace
    start --db "$work/desk"
    run_python "$root/tests/listener/rounds.py" "$port" "$desk" > "$work/wrong" 2>&1 || status=$?
    kill -CONT "$desk"
    [ "$status" -eq 0 ] || miss "$(< "$work/wrong")"
    want_faults
}
