"""Tries the files of examples/operations for proxies with HAProxy and nginx: proxies.py PROGRAM
FOLDER IS_WHOLE [PART..]. The comment at the top of tests/proxies/run says what is tried."""
import os
import pathlib
import sys

sys.path.append(str(pathlib.Path(__file__).resolve().parents[1] / "client"))

import called  # pylint: disable=wrong-import-position
import desks  # pylint: disable=wrong-import-position
import followers  # pylint: disable=wrong-import-position
import loops  # pylint: disable=wrong-import-position
import notices  # pylint: disable=wrong-import-position
import roles  # pylint: disable=wrong-import-position
import table_edges  # pylint: disable=wrong-import-position
import tables  # pylint: disable=wrong-import-position
from turns import Turns, end_by_signals, parts_of  # pylint: disable=wrong-import-position
from world import World  # pylint: disable=wrong-import-position

# The tools that a part needs, for `./check --without NAME`.
NEEDS = {
    "try_haproxy": {"haproxy"},
    "try_haproxy_words": {"haproxy"},
    "try_haproxy_reloads": {"haproxy"},
    "try_haproxy_states": {"haproxy"},
    "try_follower_streams": {"haproxy"},
    "try_lying_proxies": set(),
    "try_nginx": {"nginx"},
    "try_nginx_words": {"nginx"},
    "try_desks": {"haproxy"},
    "try_spellings": {"haproxy"},
    "try_roles_haproxy": {"haproxy", "openssl", "curl"},
    "try_roles_nginx": {"nginx", "haproxy", "openssl", "curl"},
    "try_loop": {"haproxy", "prometheus"},
    "try_killed_desk": {"haproxy", "prometheus"},
    "try_killed_router": {"haproxy", "prometheus"},
    "try_killed_versions": {"haproxy", "prometheus"},
    "try_notify": set(),
    "try_notify_away": set(),
    "try_notify_flood": set(),
    "try_notify_words": set(),
    "try_notify_table": set(),
    "try_notify_table_words": set(),
    "try_table": {"haproxy"},
    "try_table_reloads": {"haproxy"},
    "try_table_added": {"haproxy"},
    "try_table_uneven": {"haproxy"},
    "try_table_thirty": {"haproxy"},
    "try_table_nginx": {"nginx"},
    "try_table_files": {"haproxy"},
    "try_table_unknown": {"haproxy"},
    "try_table_replies": {"haproxy"},
    "try_table_desks": {"haproxy"},
    "try_table_routers": set(),
    "try_table_places": {"haproxy"},
    "try_table_signals": {"haproxy", "strace"},
    "try_table_signals_nginx": {"strace"},
    "try_table_report": {"haproxy", "prometheus"},
    "try_usage": set(),
}
PARTS = parts_of(called, desks, followers, loops, notices, roles, table_edges, tables)


def chosen(wanted):
    if PARTS.keys() != NEEDS.keys():
        sys.exit(f"proxies: not in both lists: {' '.join(sorted(PARTS.keys() ^ NEEDS.keys()))}")
    unknown = set(wanted) - set(PARTS)
    if unknown:
        sys.exit(f"proxies: unknown part: {' '.join(sorted(unknown))}")
    without = set(os.environ.get("CHECK_WITHOUT", "").split())
    return [name for name in wanted or PARTS if not NEEDS[name] & without]


def main():
    program, folder, is_whole, *wanted = sys.argv[1:]
    folder = pathlib.Path(folder)
    names = chosen(wanted)

    def world_in(turn):
        (folder / turn).mkdir()
        return World(os.path.realpath(program), str(folder / turn), is_whole == "1", 0)

    end_by_signals()
    # All at a time they may be too much for the machine.
    failed = Turns("proxies", PARTS).failing(names, world_in("first"), lambda: world_in("again"),
                                             len(PARTS))
    if failed:
        sys.exit(f"proxies: {len(failed)} of {len(names)} parts failed: {' '.join(failed)}")
    print(f"proxies: {len(names)} parts passed", file=sys.stderr)


main()
