# What the scripts need of a machine: functions.sh sources this. Every script fails when a tool is
# missing. CHECK_WITHOUT, which ./check sets, names the tools whose parts are to be left out.

# The tools without which nothing here runs, and those that `./check --without` may name.
required=(rt bash python3 awk)
optional=(cc strace sqlite3 curl pyyaml haproxy nginx openssl prometheus lintian)
# Where Debian has haproxy and nginx: only root's PATH has it.
PATH=$PATH:/usr/sbin

# A configuration of HAProxy with all that the examples ask of it.
haproxy_of_scripts() {
    printf '%s\n' defaults 'mode http' 'timeout connect 1s' 'timeout client 1s' \
        'timeout server 1s' 'frontend f' 'bind 127.0.0.1:1' \
        'http-request set-var(txn.token) http_auth_bearer,sha2(256),hex' \
        "http-request set-var(txn.name) req.body,json_query('$.name')"
}

# The tool $1 is here, and does what the scripts ask of it; or the machine has IPv6.
has() {
    case $1 in
        bash) [ "${BASH_VERSINFO[0]}" -ge 5 ] ;;
        python3) python3 -c 'import sqlite3, sys
sys.exit(sys.version_info < (3, 10) or sqlite3.sqlite_version_info < (3, 37))' ;;
        cc) cc -x c -o /dev/null - <<< $'#include <stdio.h>\nint main(void) { return 0; }' ;;
        strace) strace -o /dev/null true ;;
        ipv6) python3 -c 'import socket; socket.socket(socket.AF_INET6).bind(("::1", 0))' ;;
        sqlite3) sqlite3 :memory: 'CREATE TABLE made (id INTEGER) STRICT' ;;
        pyyaml) python3 -c 'import yaml' ;;
        haproxy) haproxy -c -f <(haproxy_of_scripts) ;;
        nginx) nginx -V 2>&1 | grep -e --with-http_ssl_module ;;
        prometheus) prometheus --version && promtool --version ;;
        lintian) lintian --version && systemd-analyze --version && strip --version ;;
        *) command -v "$1" ;;
    esac > /dev/null 2>&1 < /dev/null
}

# What the tool $1 has to be.
described() {
    case $1 in
        rt) echo "rt, the command of the Rattle kit" ;;
        bash) echo "bash 5 or later" ;;
        python3) echo "python3 3.10 or later, with its module sqlite3 over SQLite 3.37 or later" ;;
        cc) echo "cc, a C compiler with the C library's headers" ;;
        strace) echo "strace, which has to be able to trace a process" ;;
        sqlite3) echo "sqlite3 3.37 or later" ;;
        pyyaml) echo "PyYAML, the module yaml of python3" ;;
        haproxy) echo "haproxy 2.5 or later, built with OpenSSL" ;;
        nginx) echo "nginx with its module http_ssl" ;;
        prometheus) echo "prometheus 2, with promtool" ;;
        lintian) echo "lintian, with systemd-analyze and binutils" ;;
        *) echo "$1" ;;
    esac
}

# The Debian packages with the tools $@, a line each.
packages_of() {
    local name
    for name in "$@"; do
        case $name in
            rt) ;;
            awk) echo mawk ;;
            cc) printf '%s\n' gcc libc6-dev ;;
            pyyaml) echo python3-yaml ;;
            lintian) printf '%s\n' lintian systemd binutils ;;
            *) echo "$name" ;;
        esac
    done
}

# What the gate does not try without the tool $1.
left_out_without() {
    case $1 in
        cc) echo "cc: refused allocations (tests/allocations/run), and what a slow program says" \
            "(tests/files/run)" ;;
        strace) echo "strace: calls that fail (tests/cli/run, tests/disk/run, tests/migrate/run," \
            "tests/client/run), power cuts (the last three), a client and a desk killed at each" \
            "call (tests/client/run), how much a desk writes at once (tests/listener/run), and" \
            "backups, pages and copies in turn (tests/files/run)" ;;
        sqlite3) echo "sqlite3: what it reads in a desk's file, and files that it changed" \
            "(tests/tables/run, tests/files/run)" ;;
        curl) echo "curl: its long request (tests/listener/run), docs/API.md's session" \
            "(tests/client/run), and roles by a proxy (tests/proxies/run)" ;;
        pyyaml) echo "pyyaml: manifests in YAML beside what PyYAML reads (tests/yaml/run)" ;;
        haproxy) echo "haproxy: what follows a release by HAProxy, several desks behind it, roles" \
            "and tunnels by it (tests/proxies/run)" ;;
        nginx) echo "nginx: what follows a release by nginx, and roles by it (tests/proxies/run)" ;;
        openssl) echo "openssl: roles by a proxy (tests/proxies/run)" ;;
        prometheus) echo "prometheus: releases that a real Prometheus measures (tests/agent/run)," \
            "examples/loop (tests/proxies/run), and what promtool says of \`status --prometheus\`" \
            "and of alerts (tests/page/run)" ;;
        lintian) echo "lintian: the packages, and the units in them (tests/package/run)" ;;
    esac
}

# Of the tools $@ those that are missing, a line each.
missing_of() {
    local name
    for name in "$@"; do
        has "$name" || echo "$name"
    done
}

# The script ends unless each of these tools is here.
need() {
    local name
    for name in "$@"; do
        has "$name" || fail "a tool is missing: $(described "$name")"
    done
}

# The part of the script that needs the tool $1 is to be run. When CHECK_WITHOUT names the tool, the
# part is left out. Otherwise the script ends if the tool is missing.
with() {
    [[ " ${CHECK_WITHOUT:-} " != *" $1 "* ]] || return 1
    has "$1" || fail "a tool is missing: $(described "$1"); CHECK_WITHOUT=$1 leaves its part out"
}
