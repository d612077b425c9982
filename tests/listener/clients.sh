# What the rows of tests/listener/run say of a desk that listens and of its clients: `source` it
# after functions.sh and sockets.sh. `work` is the folder of a row, and `desk_program` the program.

nobody='{"promote":{"service":"nobody"}}'

# Ends a row in which the desk did not do as it must.
miss() {
    echo "$1" > "$work/why"
    exit 1
}

# Ends a row in which something did not come in time, and nothing wrong came. Other work on the
# machine can be the cause, so the row is tried once more.
late() {
    miss "late: $1"
}

# Ends a row that needs the tool $1, which CHECK_WITHOUT names.
leave_out() {
    echo "$1" > "$work/left-out"
    exit 0
}

# The desk of a row, with further words of `serve`. Sets `files_at_first` to how many files it has
# open without clients.
start() {
    connections=()
    if ! start_desk "$desk_program" "$@"; then
        if [ ! -s "$work/told" ] && kill -0 "$desk" 2> /dev/null; then
            late "the desk does not say that it is listening"
        fi
        miss "the desk ended, or does not say that it is listening"
    fi
    files_at_first=$(files_of_desk)
}

# A connection in the variable $1.
open() {
    connect "$1" || miss "no connection"
    connections+=("${!1}")
}

# Milliseconds of a clock.
now() {
    local seconds=${EPOCHREALTIME/[.,]/}
    echo $((${seconds:-$(date +%s%6N)} / 1000))
}

# A command with a limit of time ended with the status $1, which is 124 if it reached the limit. If
# the status is not 0, the row ends by $2.
want_done() {
    [ "$1" -ne 124 ] || late "$2"
    [ "$1" -eq 0 ] || miss "$2"
}

# A byte comes on the connection $1 within $3 seconds, or the row ends by $2.
want_byte() {
    local status=0 byte
    IFS= read -r -N 1 -t "$3" -u "$1" byte 2> /dev/null || status=$?
    [ "$status" -le 128 ] || late "$2"
    [ "$status" -eq 0 ] || miss "$2"
}

# A reply comes on the connection $1 within $3 seconds, or the row ends by $2: as late if the
# connection is still open, and nothing of a reply has come.
want_some_reply() {
    read_reply "$1" "$3" && return 0
    [ -n "$reply_status" ] || want_byte "$1" "$2" 0.01
    miss "$2"
}

# The next reply on the connection $1 has the status $2, and comes within $3 seconds (10).
want_reply() {
    want_some_reply "$1" "${4:-no reply with status $2}" "${3:-10}"
    [ "$reply_status" = "$2" ] || miss "status $reply_status in place of $2: $reply_body"
}

# A query on the connection $1 gets its reply, or the row ends by $2: as late if this client had
# been still since the moment $3 for $4 milliseconds, so that the desk may have let it go.
want_answer() {
    get /services/nobody 2> /dev/null >&"$1" || true
    if ! read_reply "$1"; then
        [ "$(($(now) - $3))" -lt "$4" ] || late "this row stood still"
        miss "$2"
    fi
    [ "$reply_status" = 404 ] || miss "status $reply_status in place of 404: $reply_body"
}

# The desk answers a client that comes now within $1 milliseconds.
want_service() {
    local client begun
    begun=$(now)
    open client
    get /services/nobody >&"$client"
    want_reply "$client" 404
    hang_up "$client"
    local spent=$(($(now) - begun))
    [ "$spent" -le "$1" ] || late "another client got its reply after $spent ms"
}

# The connection $1 ends, without a byte, from $2 to $3 seconds after the moment $4.
want_end() {
    local status=0 byte
    IFS= read -r -N 1 -t "$3" -u "$1" byte 2> /dev/null || status=$?
    [ "$status" -ne 0 ] || miss "a byte of a reply in place of the end: ${byte@Q}"
    [ "$status" -le 128 ] || late "the connection is open after $3 seconds"
    local spent=$(($(now) - $4))
    [ "$spent" -ge "$(($2 * 1000 - 300))" ] || miss "the client is let go after $spent ms already"
    [ "$spent" -le "$(($3 * 1000))" ] || late "the client is let go after $spent ms only"
}

# A line of standard error is $1, within ten seconds.
want_line() {
    local tries
    for ((tries = 0; tries < 200; tries++)); do
        ! grep -qxF "$1" "$work/errors" || return 0
        sleep 0.05
    done
    late "no line '$1' on standard error"
}

# The clients of this row hang up, and the desk lets them go, within five seconds. Then it answers
# one more, so it is done with the others: it has one thread.
leave() {
    local client tries
    for client in "${connections[@]}"; do
        hang_up "$client"
    done
    connections=()
    for ((tries = 0; tries < 100; tries++)); do
        [ "$(files_of_desk)" -gt "$files_at_first" ] || break
        sleep 0.05
    done
    [ "$tries" -lt 100 ] || late "$(files_of_desk) files are open, at first $files_at_first were"
    want_service 5000
}

# The faults on standard error are these lines and no more, once all clients have gone.
want_faults() {
    local wanted found
    leave
    wanted=$(printf '%s\n' "$@")
    # The desk writes the lines of a second once it has passed.
    [ $# -eq 0 ] || want_line "${!#}"
    found=$(grep -E '^canary: [a-z-]+( [0-9.]+( \([0-9]+ times\))?)?$' "$work/errors" || true)
    [ "$found" = "$wanted" ] || miss "other faults on standard error: ${found:-none}"
}

# The desk has told of $2 faults of the kind $1, within ten seconds. Those of one second are one
# line.
want_times() {
    local tries times=0
    for ((tries = 0; tries < 200 && times < $2; tries++)); do
        sleep 0.05
        times=$(awk -v line="canary: $1 127.0.0.1" '$0 == line { sum += 1 }
            index($0, line " (") == 1 { sum += substr($4, 2) }
            END { print sum + 0 }' "$work/errors")
    done
    [ "$times" -ge "$2" ] || late "$times faults of the kind $1 in place of $2"
    [ "$times" -eq "$2" ] || miss "$times faults of the kind $1 in place of $2"
}

# The desk has told of $1 clients that were cut off, and of no other fault.
want_truncated() {
    leave
    want_times truncated "$1"
    ! grep -E '^canary: (read|write|memory)' "$work/errors" > /dev/null || miss "another fault"
}

# Each of the processes $@ waits for something, or has ended: so it is found ten times in a row.
want_rest() {
    local tries rests=0 process line
    for ((tries = 0; tries < 200 && rests < 10; tries++)); do
        rests=$((rests + 1))
        for process in "$@"; do
            line=$(cat "/proc/$process/stat" 2> /dev/null) || continue
            [[ ${line##*) } == [SZ]* ]] || rests=0
        done
        sleep 0.05
    done
    [ "$rests" -eq 10 ] || late "a process does not come to rest"
}

# The system calls $1 of the desk are in `$work/calls` from now on; `tracer` is strace.
trace_calls() {
    local tries
    : > "$work/traced"
    strace -f -o "$work/calls" -e trace="$1" -p "$desk" 2> "$work/traced" &
    tracer=$!
    for ((tries = 0; tries < 200; tries++)); do
        ! grep -q attached "$work/traced" || return 0
        sleep 0.05
    done
    late "strace does not attach to the desk"
}

# The desk ends by itself with the status $1, within ten seconds.
want_exit() {
    local tries status=0
    for ((tries = 0; tries < 200; tries++)); do
        kill -0 "$desk" 2> /dev/null || break
        sleep 0.05
    done
    [ "$tries" -lt 200 ] || late "the desk goes on"
    wait "$desk" 2> /dev/null || status=$?
    desk=''
    [ "$status" -eq "$1" ] || miss "exit status $status in place of $1"
}

# The bytes of $1 queries, of the path $2 or for a service that is not there.
write_queries() {
    awk -v count="$1" -v path="${2:-/services/nobody}" 'BEGIN {
        while (count-- > 0)
            printf "GET %s HTTP/1.1\r\n\r\n", path
    }'
}

# How many files the desk has open.
files_of_desk() {
    local files=("/proc/$desk/fd"/*)
    echo "${#files[@]}"
}

# A client that sends standard input, ends its sending side, and writes the replies to standard
# output up to the end. If it has waited for ten seconds its status is 124.
half_closing='
import socket, sys, time
try:
    client = socket.create_connection(("127.0.0.1", int(sys.argv[1])), timeout=10)
    client.sendall(sys.stdin.buffer.read())
    client.shutdown(socket.SHUT_WR)
    time.sleep(0.2)
    while some := client.recv(65536):
        sys.stdout.buffer.write(some)
except socket.timeout:
    sys.exit(124)
'

# Such a client sends the file $1 and comes to its end, or the row ends by $2; `$work/replies` has
# its replies.
half_close() {
    local status=0
    timeout 15 python3 -c "$half_closing" "$port" < "$1" > "$work/replies" || status=$?
    want_done "$status" "$2"
}

# A client that has had one reply. While the desk stands still it sends standard input, and ends its
# sending side if its last word is `end`, so that the desk learns of all of it at once. It writes
# the replies to standard output: up to the end of the stream, or else as many as it sent queries.
sending_at_once='
import os, signal, socket, sys, threading, time
port, desk, ends = int(sys.argv[1]), int(sys.argv[2]), sys.argv[3] == "end"
sent = sys.stdin.buffer.read()
left = sent.count(b"\r\n\r\n")
try:
    client = socket.create_connection(("127.0.0.1", port), timeout=10)
    client.sendall(b"GET /services/nobody HTTP/1.1\r\n\r\n")
    client.recv(65536)
    time.sleep(0.2)
    os.kill(desk, signal.SIGSTOP)
    writer = threading.Thread(target=client.sendall, args=(sent,))
    writer.start()
    time.sleep(0.2)
    if ends:
        writer.join()
        client.shutdown(socket.SHUT_WR)
    os.kill(desk, signal.SIGCONT)
    begin, rest = b"HTTP/1.1 4", b""
    while (ends or left > 0) and (some := client.recv(65536)):
        # a reply may begin at the end of one piece, and go on in the next one
        left -= (rest + some).count(begin)
        rest = (rest + some)[1 - len(begin):]
        sys.stdout.buffer.write(some)
except socket.timeout:
    os._exit(124)
'

# Such a client sends $1 queries, with $2 as its last word, or the row ends by $3.
send_at_once() {
    write_queries "$1" /services/nobod > "$work/stream"
    send_stream_at_once "$1" 404 "$2" "$3"
}

# Such a client sends $work/stream, with $3 as its last word, and gets $1 replies with the status
# $2, or the row ends by $4.
send_stream_at_once() {
    local status=0 got
    timeout 30 python3 -c "$sending_at_once" "$port" "$desk" "$3" < "$work/stream" \
        > "$work/replies" || status=$?
    want_done "$status" "$4"
    got=$(grep -o "HTTP/1.1 $2" "$work/replies" | wc -l)
    [ "$got" -eq "$1" ] || miss "$got replies to $1 requests"
}

# A client with small buffers that sends standard input, and reads nothing until the file of its
# last word is there.
deaf='
import os, socket, sys, threading, time
def send():
    client.sendall(sys.stdin.buffer.read())
    client.shutdown(socket.SHUT_WR)
client = socket.socket()
client.setsockopt(socket.SOL_SOCKET, socket.SO_RCVBUF, 4096)
client.setsockopt(socket.IPPROTO_TCP, socket.TCP_MAXSEG, 536)
client.connect(("127.0.0.1", int(sys.argv[1])))
threading.Thread(target=send, daemon=True).start()
while not os.path.exists(sys.argv[2]):
    time.sleep(0.05)
while client.recv(65536):
    pass
'

# The desk has settled the request of the caller last, if $1 is 422, or not yet, if it is 409.
want_last() {
    local client tries
    for ((tries = 0; tries < 100; tries++)); do
        open client
        put last 2 "$nobody" >&"$client"
        want_some_reply "$client" "no reply to the caller last" 10
        hang_up "$client"
        [ "$reply_status" != "$1" ] || return 0
        [ "$reply_status" = 409 ] || miss "status $reply_status in place of $1: $2"
        sleep 0.1
    done
    late "status 409 in place of $1: $2"
}
