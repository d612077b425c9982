# Books in files: `source` it after functions.sh and sockets.sh, and call `find_program`. `work` is
# to be a folder that the caller removes; `at` and `step` are the moment of the first message and
# the seconds from one to the next.

# Answers standard input over the file $1, from the moment $2 on.
serve_file() {
    "$desk_program" pipe --at "$2" --step "$step" --db "$1" "${@:3}"
}

# What the program says of the file $1: `ok`, or the word for why there is no book over it.
opened() {
    if serve_file "$1" "$at" < /dev/null > "$work/nothing" 2> "$work/why"; then
        echo ok
    else
        # but for the lines of a program that takes more than a second, as on a slow machine
        sed -E -e '/^canary: [0-9]+ of [0-9]+ MB judged$/d' \
            -e '/^canary: [0-9]+ MB read to check [0-9]+ MB$/d' -e 's/^canary: //' "$work/why"
    fi
}

# Copies the file $1 with its log to $2.
copy_book() {
    local suffix
    for suffix in '' -wal; do
        rm -f "$2$suffix"
        [ ! -e "$1$suffix" ] || cp "$1$suffix" "$2$suffix"
    done
    rm -f "$2-shm"
}

# Runs the statements $2 on the file $1.
ask_sqlite() {
    sqlite3 -batch -bail "$1" "$2"
}

# The schema and the rows of the file $1, as sqlite3 reads a copy of it.
dump() {
    copy_book "$1" "$work/seen"
    ask_sqlite "$work/seen" .dump
}

# Sets `sqlite` to yes, or to nothing when CHECK_WITHOUT leaves out what needs sqlite3.
find_sqlite() {
    sqlite=''
    if with sqlite3; then
        sqlite=yes
    else
        echo "$script: left out: what sqlite3 reads and changes" >&2
    fi
}

# How many requests the file $1 has kept, as sqlite3 reads a copy; nothing without sqlite3.
count_kept() {
    [ -n "$sqlite" ] || return 0
    copy_book "$1" "$work/seen"
    ask_sqlite "$work/seen" 'SELECT count(*) FROM kept' 2> /dev/null || echo 0
}

# A template's metrics in JSON, a service's manifest, and a report of one metric.
template() {
    printf '{"template":{"metadata":{"name":"%s"},"spec":{"metrics":[%s]%s}}}' "$@"
}

service() {
    printf '{"service":{"manifest":{"metadata":{"name":"%s"},"spec":{"strategy":' "$1"
    printf '{"canary":{%s}}}},"version":"v1"}}' "$2"
}

report() {
    printf '{"report":{"service":"web","run":%d,"entries":[%s]}}' "$1" "$2"
}

# An entry of a report: METRIC, ORDINAL, how many seconds after `at` it was taken, and its outcome.
entry() {
    printf '{"metric":"%s","ordinal":%d,"taken":%d,%s}' "$1" "$2" "$((at + $3))" "$4"
}

on_web() {
    printf '{"%s":{"service":"web"}}' "$1"
}

# The revision of `t` in which a result above $1 is a success.
judging() {
    local judged='"name":"a","successCondition":"result > '$1'","failureCondition":"result < 5"'
    template t "{$judged},{\"name\":\"b\"}" ',"dryRun":[{"metricName":"b"}]'
}

# A story in which each table gets rows: runs that are open, closed and closed from outside, metrics
# that are not measured yet, two attempts that are bound to two revisions of `t`, revisions and a
# template that nothing is bound to, and a service without runs. A message comes every ten seconds.
story() {
    put ops 1 "$(template errs '{"name":"m","interval":"60s"}' '')"
    put ops 2 "$(judging 10)"
    put ops 3 "$(on_web promote)"
    put ops 4 "$(service web '"steps":[{"setWeight":20},{"pause":{}},{"analysis":{"templates":[
        {"templateName":"t"}]}},{"pause":{}}],"analysis":{"templates":[{"templateName":"errs"}]}')"
    put ops 5 '{"start":{"service":"web","version":"v2"}}'
    put agent 1 "$(report 1 "$(entry m 1 50 '"failure":"no data"')")"
    put ops 6 "$(on_web promote)"
    put agent 2 "$(report 2 "$(entry a 1 70 '"result":7'),$(entry b 1 70 '"result":[1,-2]')")"
    put ops 7 "$(on_web promote)"
    put ops 8 "$(on_web abort)"
    put ops 9 "$(judging 6)"
    put ops 10 "$(on_web retry)"
    put agent 3 "$(report 3 "$(entry m 1 120 '"result":5')")"
    put ops 11 "$(on_web promote)"
    put agent 4 "$(report 4 "$(entry b 1 140 '"result":3')")"
    put ops 12 "$(service api '')"
    put ops 13 "$(template spare '{"name":"m"}' '')"
    put ops 14 "$(template errs '{"name":"m","interval":"30s"}' '')"
    get /services/web
    get /services/web/history
    get /services/web/runs/2
    get /services/web/runs/4
}

# Adds a request to the load.
add() {
    local message
    printf -v message 'PUT /callers/%s/requests/%s HTTP/1.1\r\nContent-Length: %d\r\n\r\n%s' \
        "$1" "$2" "${#3}" "$3"
    printf %s "$message" >> "$work/load"
    ends+=("$((ends[-1] + ${#message}))")
}

# Writes the load to a file, $1 releases one after another, each started, reported to and promoted,
# and before each fourth a new revision of its template; each request is accepted. Sets `ends` to
# where the first so many messages end.
make_load() {
    local cycle taken
    ends=(0)
    : > "$work/load"
    add ops 1 "$(template t '{"name":"m"}' '')"
    add ops 2 "$(service web '"steps":[{"setWeight":20},{"analysis":{"templates":[
        {"templateName":"t"}]}},{"setWeight":60},{"pause":{}}]')"
    for ((cycle = 1; cycle <= $1; cycle++)); do
        [ "$((cycle % 4))" -ne 0 ] \
            || add dev "$((cycle / 4))" "$(template t '{"name":"m","failureLimit":'"$cycle"'}' '')"
        add ops "$((2 * cycle + 1))" '{"start":{"service":"web","version":"v'$((cycle + 1))'"}}'
        taken=$(((3 * cycle + cycle / 4) * step))
        add agent "$cycle" "$(report "$cycle" "$(entry m 1 "$taken" '"result":5')")"
        add ops "$((2 * cycle + 2))" '{"promote":{"service":"web"}}'
    done
}

# Sets `lengths` to where the first so many answers of the file $1 end, all of which are accepted.
measure_answers() {
    mapfile -t lengths < <(grep -abo 'HTTP/1.1 200 OK' "$1" | cut -d : -f 1)
    lengths+=("$(wc -c < "$1")")
}

# How many whole answers the file $1 has, whose bytes are those of the load's.
answers_in() {
    local size count=0
    size=$(wc -c < "$1")
    while [ "$((count + 1))" -lt "${#lengths[@]}" ] && [ "${lengths[count + 1]}" -le "$size" ]; do
        count=$((count + 1))
    done
    echo "$count"
}
