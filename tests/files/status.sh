# The part of tests/files/run about `status`: `source` it after books.sh.

# What tables begin with if no desk has the file open.
no_desk='No desk has this file open: no request is answered, and no measurement recorded. '\
'Pauses end at their moment all the same.

'

# The row of a service that time moves, and of which $1 measurements are late.
moved() {
    echo "${no_desk}NAME  STATUS       STEP  WEIGHT          VERSION  STABLE  LATE
web   Progressing  2/3   ##-------- 20%  v2       v1      $1"
}

# What the table shows of services that do not move as time passes, and then of one that does.
try_status() {
    local titles='NAME  STATUS  STEP  WEIGHT  VERSION  STABLE  LATE' metric
    row=status
    run history --db "$work/desk" web
    want_fault unknown-service
    run status --db "$work/desk"
    want_text "$no_desk$titles
"
    make_desk "$work/desk" 1
    put ops 4 "$(service api '')" > "$work/requests"
    serve_file "$work/desk" "$at" < "$work/requests" > "$work/made"
    run status --db "$work/desk"
    want_text "$no_desk"'NAME  STATUS   STEP  WEIGHT           VERSION  STABLE  LATE
api   Healthy  0/0   ########## 100%  v1       v1      -
web   Paused   1/2   ##-------- 20%   v2       v1      1

RUN  SERVICE  ANALYSIS    TEMPLATES  METRIC  PHASE    COUNTED  PASSES  DUE
1    web      background  errs@1     m       Running  1        -       2026-01-01T00:01:00Z late
'
    cp "$work/out" "$work/table"
    run status --db "$work/desk"
    want 0 "$work/table" ''
    run status --json --db "$work/desk"
    metric='"counted":1,"due":"2026-01-01T00:01:00Z","name":"m","passAfter":null,"passes":1'
    want_text '{"name":"api","runs":[],"stable":"v1","status":"Healthy","step":0,"steps":0,'"\
"'"version":"v1","weight":100}
{"name":"web","runs":[{"metrics":[{'"$metric"',"phase":"Running"}],"run":1,"step":null,'"\
"'"templates":[{"name":"errs","revision":1}]}],"stable":"v1","status":"Paused","step":1,'"\
"'"steps":2,"version":"v2","weight":20}
'
    try_watch
    try_status_beside_desk
    try_status_unmeasured
    try_status_of_decimals
    try_status_of_now
    try_watch_changes
}

# The table of a file that a desk has open meanwhile: it is the same, without the line that no desk
# has.
try_status_beside_desk() {
    tail -n +3 "$work/table" > "$work/served"
    start_desk "$desk_program" --db "$work/desk" || fail "$row: no desk: $(< "$work/errors")"
    run status --db "$work/desk"
    want 0 "$work/served" ''
    [ -z "$(find "$work" -maxdepth 1 -name 'desk.*')" ] || fail "$row: a copy is left"
    try_planted_links
    stop_desk
}

# Somebody who may write to the folder has put links where copies once stood, by the number of the
# process, which is known, since the program takes the place of a script. They are not looked at:
# what they lead to stays as it is, and its mode.
try_planted_links() {
    row='a status with links planted beside the file'
    echo kept > "$work/victim"
    chmod 600 "$work/victim"
    cat > "$work/planting" << END
#!/usr/bin/env bash
for end in '' -wal; do
    ln -s '$work/victim' "$work/desk.status-copy-\$\$\$end"
done
exec '$(readlink -f "$desk_program")' "\$@"
END
    chmod +x "$work/planting"
    desk_program=$work/planting run status --db "$work/desk"
    want 0 "$work/served" ''
    [ "$(< "$work/victim")" = kept ] || fail "$row: the file that they lead to has changed"
    [ "$(stat -c %a "$work/victim")" = 600 ] || fail "$row: its mode has changed"
    [ "$(find "$work" -name 'desk.*' -type l | wc -l)" = 2 ] || fail "$row: the links are gone"
    find "$work" -name 'desk.status-copy-*' -delete
}

# Of a metric without a measurement the first one is due as the run begins.
try_status_unmeasured() {
    local last
    row=status
    make_desk "$work/desk" 0
    run status --db "$work/desk"
    last='1    web      background  errs@1     m       Pending  0        -       '
    [ "$(tail -n 1 "$work/out")" = "${last}2026-01-01T00:00:00Z late" ] \
        || fail "$row: nothing measured: $(< "$work/out")"
}

# The table shows what people read in place of a label, and the JSON the label.
try_status_of_decimals() {
    row='a status of decimals'
    rm -f "$work/desk" "$work/desk-wal"
    {
        put ops 1 "$(template rate '{"name":"success-rate.e6f","interval":"60s","count":3}' '')"
        put ops 2 "$(service web '"steps":[{"analysis":{"templates":[{"templateName":"rate"}]}}]')"
        put ops 3 '{"start":{"service":"web","version":"v2"}}'
    } > "$work/requests"
    step=0 serve_file "$work/desk" "$at" < "$work/requests" > "$work/made"
    run status --db "$work/desk"
    want_text "$no_desk"'NAME  STATUS       STEP  WEIGHT         VERSION  STABLE  LATE
web   Progressing  0/1   ---------- 0%  v2       v1      1

RUN  SERVICE  ANALYSIS  TEMPLATES  METRIC        PHASE    COUNTED  PASSES  DUE
1    web      step 0    rate@1     success-rate  Pending  0        -       2026-01-01T00:00:00Z late
'
    run status --json --db "$work/desk"
    grep -q '"name":"success-rate.e6f"' "$work/out" || fail "$row: $(< "$work/out")"
}

# A service is past a pause that ended long ago, though nothing was settled since: the step's run
# began as it ended. Its templates are shown with the revisions to which its attempt was bound, and
# not with newer ones. The history is the one that was stored: no time is passed for it. A completed
# metric is not due; one with passAfter shows how many successes in a row it has of these.
try_status_of_now() {
    local step=0 a b
    row='the status of a service that time moves'
    rm -f "$work/desk" "$work/desk-wal"
    {
        put ops 1 "$(template t '{"name":"x"}' '')"
        put ops 2 "$(template t '{"name":"a"}' '')"
        put ops 3 "$(template u '{"name":"b","passAfter":2,"interval":"60s"}' '')"
        put ops 4 "$(service web '"steps":[{"setWeight":20},{"pause":{"duration":"60s"}},
            {"analysis":{"templates":[{"templateName":"t"},{"templateName":"u"}]}}]')"
        put ops 5 '{"start":{"service":"web","version":"v2"}}'
        put ops 6 "$(template u '{"name":"y"}' '')"
    } > "$work/requests"
    serve_file "$work/desk" "$at" < "$work/requests" > "$work/made"
    run status --db "$work/desk"
    want_text "$(moved 2)

RUN  SERVICE  ANALYSIS  TEMPLATES  METRIC  PHASE    COUNTED  PASSES  DUE
1    web      step 2    t@2,u@1    a       Pending  0        -       2026-01-01T00:01:00Z late
1    web      step 2    t@2,u@1    b       Pending  0        0/2     2026-01-01T00:01:00Z late
"
    a='"counted":0,"due":"2026-01-01T00:01:00Z","name":"a","passAfter":null,"passes":0'
    b='"counted":0,"due":"2026-01-01T00:01:00Z","name":"b","passAfter":2,"passes":0'
    want_value "$a"',"phase":"Pending"' "$b"',"phase":"Pending"'
    want_samples_of_now
    run history --db "$work/desk" web
    want_text '2026-01-01T00:00:00Z created v1
2026-01-01T00:00:00Z start v2
2026-01-01T00:00:00Z step 0 setWeight 20
2026-01-01T00:00:00Z step 1 pause 60s
'
    try_status_after_report
}

# The samples of that service.
want_samples_of_now() {
    want_samples 'canary_service_info{service="web",version="v2",stable="v1"} 1
canary_service_status{service="web",status="Healthy"} 0
canary_service_status{service="web",status="Degraded"} 0
canary_service_status{service="web",status="Paused"} 0
canary_service_status{service="web",status="Progressing"} 1
canary_service_weight_percent{service="web"} 20
canary_service_step{service="web"} 2
canary_service_steps{service="web"} 3
canary_service_held{service="web"} 0
canary_service_open_runs{service="web"} 1
canary_measurement_late_seconds{service="web",run="1",analysis="step 2",metric="a",label="a"} LATE
canary_measurement_late_seconds{service="web",run="1",analysis="step 2",metric="b",label="b"} LATE
canary_service_late_seconds{service="web"} LATE
canary_service_unmeasured_runs{service="web"} 0
' $((at + 60))
}

# The same service, once both of its metrics are measured.
try_status_after_report() {
    local step=0 a b
    put agent 1 "$(report 1 "$(entry a 1 60 '"result":5'),$(entry b 1 60 '"result":5')")" \
        > "$work/requests"
    serve_file "$work/desk" "$((at + 60))" < "$work/requests" > "$work/made"
    run status --db "$work/desk"
    want_text "$(moved 1)

RUN  SERVICE  ANALYSIS  TEMPLATES  METRIC  PHASE       COUNTED  PASSES  DUE
1    web      step 2    t@2,u@1    a       Successful  1        -       -
1    web      step 2    t@2,u@1    b       Running     1        1/2     2026-01-01T00:02:00Z late
"
    a='"counted":1,"due":null,"name":"a","passAfter":null,"passes":1'
    b='"counted":1,"due":"2026-01-01T00:02:00Z","name":"b","passAfter":2,"passes":1'
    want_value "$a"',"phase":"Successful"' "$b"',"phase":"Running"'
}

# `status --json` writes the same service, whose run has the metrics $1 and $2.
want_value() {
    run status --json --db "$work/desk"
    want_text '{"name":"web","runs":[{"metrics":[{'"$1},{$2"'}],"run":1,"step":2,"templates":['"\
"'{"name":"t","revision":2},{"name":"u","revision":1}]}],"stable":"v1",'"\
"'"status":"Progressing","step":2,"steps":3,"version":"v2","weight":20}
'
}

# `status --prometheus` writes the samples $1 beside its comments. A measurement that has been due
# since the moment $2 is LATE seconds late: the clock says how many, by the same second before and
# after.
want_samples() {
    local late tries
    for ((tries = 0; tries < 50; tries++)); do
        late=$(($(date +%s) - $2))
        run status --prometheus --db "$work/desk"
        [ $(($(date +%s) - $2)) -ne "$late" ] || break
    done
    [ "$status" -eq 0 ] || fail "$row: status $status: $(< "$work/told")"
    grep -v '^#' "$work/out" > "$work/samples"
    printf '%s' "${1//LATE/$late}" | cmp - "$work/samples" || fail "$row: $(< "$work/samples")"
}

# Waits until the drawings have a line that begins with $1.
want_drawn() {
    local tries
    for ((tries = 0; tries < 300; tries++)); do
        ! grep -q "^$1" "$work/out" || return 0
        sleep 0.1
    done
    kill -9 "$drawing" 2> /dev/null || true
    fail "$row: no line '$1' in 30 seconds: $(< "$work/told")"
}

# What is settled between two drawings is drawn. A drawing has the file open, for a moment.
try_watch_changes() {
    local drawing tries
    row='a status that changes'
    make_desk "$work/desk" 1
    put ops 4 "$(on_web promote)" > "$work/requests"
    "$desk_program" status --db "$work/desk" --watch 1 > "$work/out" 2> "$work/told" < /dev/null &
    drawing=$!
    want_drawn 'web   Paused  1/2'
    for ((tries = 0; tries < 100; tries++)); do
        ! serve_file "$work/desk" "$at" < "$work/requests" > "$work/made" 2> /dev/null || break
        sleep 0.1
    done
    want_drawn 'web   Healthy  2/2'
    kill -9 "$drawing" 2> /dev/null || true
    wait "$drawing" 2> /dev/null || true
}

# Drawn again each second: one table below another if the output is no terminal.
try_watch() {
    local drawing tries times=0
    "$desk_program" status --db "$work/desk" --watch 1 > "$work/out" 2> "$work/told" < /dev/null &
    drawing=$!
    for ((tries = 0; tries < 300 && times < 3; tries++)); do
        sleep 0.1
        times=$(grep -c '^NAME' "$work/out" || true)
    done
    kill -9 "$drawing" 2> /dev/null || true
    wait "$drawing" 2> /dev/null || true
    [ "$times" -ge 3 ] || fail "$row: drawn $times times in 30 seconds: $(< "$work/told")"
    cat "$work/table" "$work/table" > "$work/twice"
    head -c "$(wc -c < "$work/twice")" "$work/out" | cmp - "$work/twice" \
        || fail "$row: a drawing is another"
}
