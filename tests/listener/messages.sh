# Rows of tests/listener/run about clients that read their replies, and those that ask for long
# histories: `source` it after clients.sh.

keeps_alive() {
    local client number
    start
    open client
    for number in 1 2 3; do
        put ops "$number" "$nobody" >&"$client"
        want_reply "$client" 422
    done
    get /services/nobody 'Connection: close' >&"$client"
    want_reply "$client" 404
    want_end "$client" 0 3 "$(now)"
    want_faults
}

takes_pieces() {
    local client message place
    start
    open client
    message=$(put ops 1 "$nobody")
    for ((place = 0; place < ${#message}; place++)); do
        printf %s "${message:place:1}" >&"$client"
    done
    want_reply "$client" 422
}

# Prints a reply as the desk writes it: STATUS REASON BODY.
reply() {
    printf 'HTTP/1.1 %s %s\r\nContent-Type: application/json\r\nContent-Length: %d\r\n\r\n%s' \
        "$1" "$2" "${#3}" "$3"
}

# The reply to a template has its name, so that the order shows.
takes_pipelined() {
    local client number place template status=0
    for ((number = 1; number <= 200; number++)); do
        template='{"metadata":{"name":"t'$number'"},"spec":{"metrics":[{"name":"m"}]}}'
        put ops "$number" '{"template":'"$template"'}'
        reply 200 OK '{"code":"ok","revision":1,"template":"t'$number'"}' >&3
        for ((place = 0; place < 9; place++)); do
            get /services/nobody
            reply 404 'Not Found' '{"code":"unknown-service"}' >&3
        done
    done > "$work/stream" 3> "$work/wanted"
    start
    open client
    dd if="$work/stream" bs=1M status=none >&"$client" &
    timeout 20 head -c "$(wc -c < "$work/wanted")" <&"$client" > "$work/replies" || status=$?
    head -c "$(wc -c < "$work/replies")" "$work/wanted" | cmp -s - "$work/replies" \
        || miss "not the 2,000 replies, in order"
    want_done "$status" "$(wc -c < "$work/replies") bytes of the 2,000 replies"
    cmp -s "$work/replies" "$work/wanted" || miss "not all of the 2,000 replies"
}

serves_half_closed() {
    local count got
    start
    for count in 2 2000; do
        write_queries "$count" > "$work/stream"
        half_close "$work/stream" "the end does not come after $count requests"
        got=$(grep -o 'HTTP/1.1 404' "$work/replies" | wc -l)
        [ "$got" -eq "$count" ] || miss "$got replies to $count requests"
    done
    want_faults
}

# The system tells the desk once of what came while it stood still: it has to read all of it, and
# to see the end. A read takes 81,920 bytes, as 2,560 of these queries have. Of two long requests it
# leaves a part of the second one, of which the system tells no more.
sees_all_that_came() {
    local count
    start
    for count in 1 2 2560 2561 6000; do
        send_at_once "$count" stay "not all replies to $count requests"
    done
    for count in 1 2 600; do
        send_at_once "$count" end "the end does not come after $count requests"
    done
    for count in 65536 30000; do
        printf 'PUT /nothing HTTP/1.1\r\nContent-Length: %d\r\n\r\n%0*d' "$count" "$count" 0
    done > "$work/stream"
    for count in 1 2 3 4 5; do
        send_stream_at_once 2 404 stay "not both replies to long requests, time $count"
    done
    want_faults
}

bears_urgent_bytes() {
    local status=0
    start
    run_python "$root/tests/listener/urgent.py" "$port" "$desk" > "$work/wrong" 2>&1 || status=$?
    kill -CONT "$desk"
    [ "$status" -eq 0 ] || miss "$(< "$work/wrong")"
    want_service 1000
    want_faults
}

# Clients that ask for long histories, as the part $1 of histories.py says, of a desk with the
# further words.
try_histories() {
    local status=0
    start "${@:2}"
    run_python "$root/tests/listener/histories.py" "$1" "$port" "$desk" > "$work/wrong" 2>&1 \
        || status=$?
    kill -CONT "$desk"
    [ "$status" -eq 0 ] || miss "$(< "$work/wrong")"
    want_service 2000
}

histories_wait() {
    try_histories ticks
    want_faults
}

histories_in_order() {
    with strace || leave_out strace
    try_histories order
    want_faults
}

# The system may report a reset as a failed read or a failed write.
gone_histories() {
    local tries
    try_histories gone
    for ((tries = 0; tries < 80; tries++)); do
        ! grep -qE '^canary: (read|write) 127\.0\.0\.1' "$work/errors" || return 0
        sleep 0.05
    done
    late "no line of the clients that have gone"
}

bears_killed_histories() {
    try_histories killed
}

# A build that watches its memory keeps what was given back.
histories_leave_no_memory() {
    if grep -qa AddressSanitizer "$desk_program"; then
        echo 'not of this build' > "$work/note"
        return 0
    fi
    try_histories memory
    want_faults
}
