# Rows of tests/listener/run about clients that the desk lets go, and clients that go: `source` it
# after clients.sh.

# The system holds neither all requests nor all replies. The writer stands still once the desk takes
# no more, and fails once the desk lets the client go.
bears_no_reader() {
    local client writer begun tries status=0
    write_queries 600000 /nope > "$work/stream"
    start --idle-timeout 2
    begun=$(now)
    open client
    cat "$work/stream" 1>&"$client" 2> /dev/null &
    writer=$!
    hang_up "$client"
    for tries in 1 2 3; do
        sleep 0.3
        want_service 2000
    done
    for ((tries = 0; tries < 200; tries++)); do
        kill -0 "$writer" 2> /dev/null || break
        sleep 0.1
    done
    [ "$tries" -lt 200 ] || late "the desk does not let a client go that reads nothing"
    wait "$writer" || status=$?
    [ "$status" -ne 0 ] || miss "the desk takes all requests of a client that reads nothing"
    [ "$(($(now) - begun))" -ge 1700 ] || miss "the desk lets the client go at once"
    want_faults 'canary: write 127.0.0.1'
    want_service 1000
}

lets_idle_go() {
    local idle busy newcomer begun before asked came
    start --idle-timeout 2
    open idle
    get /services/nobody >&"$idle"
    want_reply "$idle" 404
    begun=$(now) asked=$begun
    open busy
    while [ "$(($(now) - begun))" -lt 3500 ]; do
        before=$asked asked=$(now)
        want_answer "$busy" "a busy client is let go" "$before" 1700
        sleep 0.5
    done
    want_end "$idle" 0 1 "$(now)"
    # How long a client is idle counts from its own begin.
    came=$(now)
    open newcomer
    before=$asked asked=$(now)
    want_answer "$busy" "a busy client is let go" "$before" 1700
    sleep 1.2
    want_answer "$newcomer" "a client is let go that has just come" "$came" 1700
    begun=$(now)
    want_answer "$busy" "a busy client is let go" "$asked" 1700
    want_end "$busy" 2 5 "$begun"
    want_faults
}

# Its last reply has gone out, and the desk has ended its own side: the desk reads on for a while.
lets_go_after_last_reply() {
    local client begun
    start --read-timeout 2
    open client
    begun=$(now)
    get /services/nobody 'Connection: close' >&"$client"
    want_reply "$client" 404
    want_end "$client" 0 1 "$(now)"
    while get /services/nobody >&"$client"; do
        [ "$(($(now) - begun))" -lt 8000 ] || late "the desk does not let a client go that goes on"
        sleep 0.1
    done 2> /dev/null
    [ "$(($(now) - begun))" -ge 1700 ] || miss "the desk lets a client that goes on go at once"
    want_faults
    want_service 1000
}

# The bytes that the desk read, as strace saw it.
bytes_read() {
    awk '$(NF - 1) == "=" { sum += $NF } END { print sum + 0 }' "$work/calls"
}

# The desk reads 16 MiB of what comes after its last reply, and not a read more; what the system
# holds on the way comes on top.
drains_at_most() {
    local client tracer='' taken=16777216 sent=0
    start
    open client
    get /services/nobody 'Connection: close' >&"$client"
    want_reply "$client" 404
    ! with strace || trace_calls read,readv,recvfrom,recvmsg
    head -c 100000000 /dev/zero 1>&"$client" 2> /dev/null || sent=$?
    [ "$sent" -ne 0 ] || miss "the desk takes 100 MB after its last reply"
    if [ -n "$tracer" ]; then
        kill -INT "$tracer"
        wait "$tracer" || true
        taken=$(bytes_read)
    fi
    [ "$taken" -ge 16777216 ] || late "$taken bytes are read after the last reply"
    [ "$taken" -le $((16777216 + 81920)) ] || miss "$taken bytes are read after the last reply"
    want_faults
    want_service 1000
}

refuses_long() {
    local client sent=0
    start
    open client
    {
        printf 'PUT /callers/ops/requests/1 HTTP/1.1\r\nContent-Length: 5000000\r\n\r\n'
        head -c 5000000 /dev/zero
    } 1>&"$client" 2> /dev/null || sent=$?
    want_reply "$client" 413 10 "the reply 413 is lost, and sending ended with status $sent"
    [ "$sent" -eq 0 ] || miss "sending 5 MB ended with status $sent"
    [ "$reply_body" = '{"code":"too-long"}' ] || miss "another body: $reply_body"
    want_end "$client" 0 5 "$(now)"
    want_faults
    want_service 1000
}

refuses_long_of_curl() {
    local expect code status
    with curl || leave_out curl
    start
    head -c 5000000 /dev/zero > "$work/long"
    for expect in 'Expect: 100-continue' 'Expect:'; do
        status=0
        code=$(curl -s -m 10 -o "$work/reply" -w '%{http_code}' -H "$expect" -T "$work/long" \
            "http://127.0.0.1:$port/callers/ops/requests/1") || status=$?
        [ "$status" -ne 28 ] || late "curl with '$expect' has waited for ten seconds"
        [ "$code" = 413 ] || miss "curl with '$expect' got status $code"
        grep -q too-long "$work/reply" || miss "curl with '$expect' got another body"
    done
    want_service 1000
}

bears_early_close() {
    local client
    start
    open client
    printf 'PUT /callers/ops/requests/1 HTTP/1.1\r\nContent-Length: 32\r\n\r\n{"pro' >&"$client"
    hang_up "$client"
    want_line 'canary: truncated 127.0.0.1'
    want_service 1000
    want_faults 'canary: truncated 127.0.0.1'
}

# A connection that is closed with bytes unread is reset.
bears_resets() {
    local client count
    write_queries 100 > "$work/stream"
    start
    for ((count = 0; count < 20; count++)); do
        open client
        cat "$work/stream" >&"$client" || miss "client $count cannot send"
        want_byte "$client" "no reply to client $count" 5
        hang_up "$client"
    done
    want_service 1000
    leave
}

# A client that closes with a byte of its reply unread, and one for which many bytes are unsent.
tells_resets() {
    local client writer
    write_queries 60000 /nope > "$work/stream"
    start
    open client
    get /services/nobody >&"$client"
    want_byte "$client" "no reply" 5
    hang_up "$client"
    want_faults 'canary: read 127.0.0.1'
    open client
    cat "$work/stream" 1>&"$client" 2> /dev/null &
    writer=$!
    want_byte "$client" "no reply to the second" 5
    # The desk waits to write now, and so does the client: the reset meets a write.
    want_rest "$desk" "$writer"
    kill "$writer" 2> /dev/null || true
    hang_up "$client"
    want_line 'canary: write 127.0.0.1'
    want_service 1000
}

# Within a second one address has faults of two kinds.
tells_kinds_apart() {
    local client count
    start
    for count in 1 2 3 4 5; do
        open client
        printf 'GET /serv' >&"$client"
        hang_up "$client"
        open client
        get /services/nobody >&"$client"
        want_byte "$client" "no reply" 5
        hang_up "$client"
    done
    leave
    want_times truncated 5
    want_times read 5
}
