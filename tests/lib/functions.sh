# What the scripts of this repository share: `source` it with `root` set to the repository's folder.
source "$root/tests/lib/needs.sh"

script=$(readlink -f "$0")
script=${script#"$root"/}

# With the one word --help, or -h, a script that tries something prints what stands at its top, and
# ends. ./check prints words of its own, and ./canary hands all words on to the program.
if [[ "$script" == */* || "$script" == demo ]] && [[ "$*" == -h || "$*" == --help ]]; then
    awk 'NR > 1 { if (!/^#/) exit; sub(/^# ?/, ""); print }' "$root/$script"
    exit 0
fi

# Says on standard error what the script has to say, and ends it.
fail() {
    echo "$script: $1" >&2
    exit 1
}

# Runs a command, and ends it if this script is told to end, so that nothing is left running.
# Standard input has to be a redirection of the call.
run_guarded() {
    "$@" <&0 &
    wait_guarded $!
}

# Waits for the process $1, which this shell has begun, and ends it if this script is told to end.
wait_guarded() {
    guarded=$1
    guard
    local status=0
    wait "$guarded" || status=$?
    trap - TERM INT HUP
    return "$status"
}

# From now on the process `guarded` is ended if this script is told to end.
guard() {
    trap 'end_guarded 143' TERM
    trap 'end_guarded 130' INT
    trap 'end_guarded 129' HUP
}

end_guarded() {
    trap '' TERM INT HUP
    kill "$guarded" 2> /dev/null || true
    wait "$guarded" || true
    exit "$1"
}

# Runs the Python program $1 with the further words. It can import what stands in tests/lib.
run_python() {
    run_guarded env PYTHONPATH="$root/tests/lib" PYTHONDONTWRITEBYTECODE=1 python3 "$@" < /dev/null
}

# /dev/shm may be written to, and has room for $1 kilobytes; that of a container often has 65,536.
has_room_in_memory() {
    [ -w /dev/shm ] && [ "$(df --output=avail -k /dev/shm | tail -n 1)" -ge "$1" ]
}

# The hundredths of a second that the host of this machine took from the processors on which this
# script may run, and all that they have counted (proc(5), /proc/stat).
processor_times() {
    python3 -c 'import os
mine = {f"cpu{number}" for number in os.sched_getaffinity(0)}
rows = [line.split() for line in open("/proc/stat")]
times = [[int(time) for time in row[1:9]] for row in rows if row[0] in mine]
print(sum(row[7] for row in times), sum(map(sum, times)))'
}

# How many percent the host has taken since `processor_times` printed $1.
taken_since() {
    local taken all taken_before all_before
    read -r taken_before all_before <<< "$1"
    read -r taken all < <(processor_times)
    echo $(((taken - taken_before) * 100 / (all - all_before + 1)))
}

# The number of the commit, below $1, by which a script tries another share at each commit; 0 where
# there is no commit to ask for.
number_of_commit() {
    local commit
    commit=$(git -C "$root" rev-parse HEAD 2> /dev/null) || commit=0
    echo $((0x${commit:0:12} % $1))
}

program=$root/crates/canary_desk/out/canary_desk
# The same, built without proofs.
quick_program=$root/out/canary_quick

# The crates of which the program $1 is built; crates.txt has the lowest first.
crates_of_program() {
    tac "$root/crates.txt" | awk -F '[: ]+' -v program="$1" '
        BEGIN { needed[program] = 1 }
        $1 in needed { print $1; for (i = 2; i <= NF; i++) needed[$i] = 1 }'
}

# The program, or its file $1, is there, and no source of it is newer. $2 is the program's crate, if
# not that of the desk.
is_current() {
    local built=${1:-$program} of=${2:-canary_desk}
    [ -x "$built" ] || return 1
    local sources=("$root/crates.txt") crate folder
    for crate in $(crates_of_program "$of"); do
        for folder in "$root/crates/$crate"/{src,specs,proofs}; do
            if [ -d "$folder" ]; then
                sources+=("$folder")
            fi
        done
    done
    [ -z "$(find "${sources[@]}" -newer "$built" -print -quit)" ]
}
