# Rows of tests/listener/run about how a desk begins and ends: `source` it after clients.sh.

# The desk prints nothing on standard output and $1 on standard error, and ends with status 1.
want_refusal() {
    local status=0
    timeout 5 "$desk_program" serve "${@:2}" < /dev/null > "$work/out" 2> "$work/err" || status=$?
    [ "$status" -ne 124 ] || late "no refusal in five seconds: ${*:2}"
    [ "$status" -eq 1 ] || miss "exit status $status in place of 1 for ${*:2}"
    grep -qx "$1" "$work/err" || miss "no line '$1' on standard error for ${*:2}"
    [ ! -s "$work/out" ] || miss "a line on standard output for ${*:2}"
}

tells_address_in_use() {
    start
    want_refusal 'canary: listen' --listen "127.0.0.1:$port"
    want_service 1000
}

tells_no_address() {
    want_refusal 'canary: listen' --listen nonsense
}

tells_where() {
    start
    printf 'listening 127.0.0.1:%d\n' "$port" | cmp -s - "$work/told" \
        || miss "another line on standard output: $(< "$work/told")"
}

# From here on the system fails each wait for clients.
tells_failed_wait() {
    with strace || leave_out strace
    start
    strace -f -o "$work/calls" -e trace=epoll_wait,epoll_pwait \
        -e inject=epoll_wait,epoll_pwait:error=EBADF -p "$desk" 2> "$work/traced" &
    want_exit 1
    grep -qx 'canary: accept' "$work/errors" || miss "no line 'canary: accept' on standard error"
}

ends_when_told() {
    local client
    start
    [ -s "$work/errors" ] || miss "nothing on standard error says that the desk keeps nothing"
    open client
    want_service 1000
    kill -TERM "$desk"
    want_exit 143
    # another program may be given the port by now
    ! connect client || late "the port is still open"
}
