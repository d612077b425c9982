"""Runs a program with one allocation refused, and once more for each further one, until a run meets
no refusal: refused.py PROGRAM FOLDER LIBRARY STEP FIRST [CASE..]. LIBRARY is made of refusing.c. Of
the allocations of a desk on a file each STEP-th is refused, from the FIRST on. The comment at the
top of tests/allocations/run says what has to come of it; serving.py has the desk that listens,
asking.py the client, and measuring.py the agent."""
import os
import re
import shutil
import subprocess
import sys

from asking import ask_refused
from book_files import copy, remove
from chosen import chosen
from conversation import STILL_AT_B
from measuring import read_refused, report_refused
from serving import converse_with_desk
from story_tables import expect_tables
from story_words import B, Wrong, answer, command, expect, get, messages_of_story, put, query
from trials import (
    EACH, OUT_OF_MEMORY, Share, Trial, expect_refused, expect_told, is_cut_short, read, try_line,
)

ROOT = os.path.join(os.path.dirname(os.path.realpath(__file__)), "../..")
# Parts of another script: files of the first version, and what they become.
sys.path.append(os.path.join(ROOT, "tests/migrate"))

from first import contents, in_order, make_first, migrated, rows_of  # noqa: E402

MANIFESTS = ("rollouts/step-analysis.json", "templates/success-rate.json")
WAITS_FOR_NOBODY = (
    b"spec.strategy.canary.steps: no step after weight 20 waits for anybody: a version reaches "
    b"100 % even if nothing is measured: put an analysis step, or pause: {}, before setWeight 40")
MISTAKE = b"error: unexpected argument '-5' found"
QUERIES = [get(query(asked)) for asked in ("service web", "history web", "run web 1")]

# A release of web that waits at a pause, and a measurement file of its run.
BEGUN = messages_of_story()[:3]
ROWS = b"""caller,number,service,run,metric,ordinal,taken,result,failure
agent,1,web,1,m,1,1767225600,5,
agent,2,web,1,m,3,1767225660,5,
agent,3,web,1,m,2,1767225660,,timeout
agent
agent,4,web,1,m,3,1767225720,[1;2],
"""
REPORTED = (b'200 {"code":"ok","phases":["%s"],"run":1,"service":"web","status":"Paused","step":1,'
            b'"verdict":"Running","weight":20}')
TOLD = [
    REPORTED % b"Successful",
    b'422 {"at":0,"code":"out-of-turn","expected":2}',
    REPORTED % b"Error",
    b'400 {"code":"unreadable"}',
    REPORTED % b"Successful",
]
# The row of the file that is no request; those before it have the numbers of their requests.
NO_REQUEST = 4
AHEAD = b'409 {"code":"ahead","expected":%d}'
EXPORTED = b"""caller,number,service,run,metric,ordinal,taken,result,failure
copy,1,web,1,m,1,1767225600,5,
copy,2,web,1,m,2,1767225660,,timeout
copy,3,web,1,m,3,1767225720,[1;2],
"""
HISTORY = b"""2026-01-01T00:00:00Z created v1
2026-01-01T00:00:00Z start v2
2026-01-01T00:00:00Z background run 1
2026-01-01T00:00:00Z step 0 setWeight 20
2026-01-01T00:00:00Z step 1 pause
"""
STATUS = b"""No desk has this file open: no request is answered, and no measurement recorded. \
Pauses end at their moment all the same.

NAME  STATUS  STEP  WEIGHT          VERSION  STABLE  LATE
web   Paused  1/2   ##-------- 20%  v2       v1      1

RUN  SERVICE  ANALYSIS    TEMPLATES  METRIC  PHASE    COUNTED  PASSES  DUE
1    web      background  errs@1     m       Running  2        -       2026-01-01T00:03:00Z late
"""


def try_lines(trial, _):
    """Command lines without a desk's file."""
    with open(os.path.join(ROOT, "tests/cli/cases/help.stdout"), "rb") as shown:
        try_line(trial, "help", ["--help"], (0, shown.read(), b""))
    try_line(trial, "mistake", ["pipe", "--at", "-5", "--step", "1"], (2, b"", MISTAKE))
    for name in MANIFESTS:
        manifest = os.path.join(ROOT, "examples", name)
        try_line(trial, f"check {name}", ["check", manifest], (0, b"ok\n", b""))
    warned = os.path.join(ROOT, "examples/rollouts/guestbook.json")
    try_line(trial, "check of what is warned of", ["check", warned],
             (0, b"ok\n", b"canary: warning: " + WAITS_FOR_NOBODY))
    try_line(trial, "check --strict", ["check", "--strict", warned],
             (1, WAITS_FOR_NOBODY + b"\n", b""))


def with_queries(trial):
    """The story, with queries between its messages, and what each is answered."""
    messages = messages_of_story()
    asked = [message for sent, _ in messages for message in (sent, *QUERIES)]
    replies, end = trial.converse(STILL_AT_B, asked)
    expect("the story, with nothing refused", (replies[::1 + len(QUERIES)], end),
           ([told for _, told in messages], (0, b"", b"")))
    return asked, replies


def try_stream(trial, _):
    """The story over a book in memory."""
    asked, wanted = with_queries(trial)

    def refuse(number):
        found = trial.converse(STILL_AT_B, asked, number)
        is_refused = number <= (count := trial.asked())
        expect_told(f"stream: when allocation {number} is refused", found, wanted, is_refused)
        return count

    EACH.refuse_each("a stream", refuse)


# Commands of each kind over a release in its second attempt, whose metrics, steps and entries have
# all parts that they can have; an invalid condition; commands that come again; and bodies that
# are no commands, as `unreadable` or `unsupported`.
WIDE = r"""ops 1 template t m,success=result>10,count=3,interval=60 n dryRun:n => [t 1]
ops 2 template t m n,success=result>1,failure=result> => 422 bad-condition
ops 3 service v1 setWeight:20 analysis:t pause:300 background:t => [web Healthy 3 100]
ops 4 start v2 => [web Progressing 1 20]
agent 1 report 1 m:1:0:!down n:1:0:[1;2] => [web Progressing 1 20 | 1 Error Successful | Running]
ops 5 abort => [web Degraded 1 0]
ops 6 retry => [web Progressing 1 20]
ops 7 template s m => [s 1]
ops 8 start v3 => 422 in-progress
ops 9 promoteFull => [web Healthy 3 100]
ops 9 promoteFull => [web Healthy 3 100]
ops 9 tick => 409 reused
ops 10 {"tick":{"service":"web","more":[1,2,3]}} => 400 unreadable
ops 10 {"tick":{"service":"web"} => 400 unreadable
ops 10 {"template":{"kind":"Pod","metadata":{"name":"t"}}} => 400 unsupported"""

# A pause that ends by time, at a clock of 300 seconds a message, which passes a step more if a
# message is sent again.
TIMED = """\
ops 1 template t m => [t 1]
ops 2 service v1 setWeight:20 pause:300 analysis:t background:t => [web Healthy 3 100]
ops 3 start v2 => [web Paused 1 20]
ops 4 tick => [web Progressing 2 20]
agent 1 report 1 m:1:900:!down => [web Progressing 2 20 | 1 Error | Running]
ops 5 abort => [web Degraded 2 0]"""
EACH_300 = ["pipe", "--at", str(B), "--step", "300"]


def messages_of(table):
    """The requests of a table, a JSON body or a compact text each, and their replies."""
    messages = []
    for row in table.split("\n"):
        asked, told = row.split(" => ")
        caller, number, asked = asked.split(" ", 2)
        body = asked.encode() if asked.startswith("{") else command(asked)
        messages.append((put(caller, number, body), answer(told)))
    return messages


def try_tables(trial, _):
    """The tables above over a book in memory: each allocation is refused."""
    for row, words, table in (("a wide stream", STILL_AT_B, WIDE),
                              ("a timed stream", EACH_300, TIMED)):
        asked, wanted = map(list, zip(*messages_of(table)))
        expect_told(f"{row}, with nothing refused", trial.converse(words, asked), wanted)

        def refuse(number, row=row, words=words, asked=asked, wanted=wanted):
            found = trial.converse(words, asked, number)
            is_refused = number <= (count := trial.asked())
            expect_told(f"{row}: when allocation {number} is refused", found, wanted, is_refused)
            return count

        EACH.refuse_each(row, refuse)


def try_over_file(trial, share, row, prepare):
    """The story over a file that is as `prepare` leaves it, and then once more, with nothing
    refused: each request has the reply that it had, or gets it now, and the tables are those of the
    story."""
    words = [*STILL_AT_B, "--db", trial.file]
    requests, wanted = map(list, zip(*messages_of_story()))

    def refuse(number):
        prepare()
        found = trial.converse(words, requests, number)
        asked = trial.asked()
        refused = f"{row}: when allocation {number} is refused"
        expect_told(refused, found, wanted, number <= asked)
        if found[0]:
            expect_tables(refused, trial.file)
        after = f"{row}: after a refusal of allocation {number}"
        expect_told(after, trial.converse(words, requests), wanted)
        expect_tables(after, trial.file)
        return asked

    share.refuse_each(row, refuse)


def try_file(trial, share):
    """The story over a new file."""
    try_over_file(trial, share, "a stream over a file", lambda: remove(trial.file))


def try_opened(trial, share):
    """The story over a file that has its first half."""
    remove(trial.begun)
    requests, wanted = map(list, zip(*messages_of_story()[:6]))
    found = trial.converse([*STILL_AT_B, "--db", trial.begun], requests)
    expect("half of the story", found, (wanted, (0, b"", b"")))
    try_over_file(trial, share, "a stream over a file that is opened",
                  lambda: copy(trial.begun, trial.file))


def try_serve(trial, share):
    """The story, sent to a desk that listens, over a new file."""
    def refuse(number):
        remove(trial.file)
        row = f"serve: when allocation {number} is refused"
        environment = trial.refusing(number)
        tables = converse_with_desk(row, trial.program, trial.file, environment, True)
        asked = trial.asked()
        if tables is None:
            row = f"serve: after a refusal of allocation {number}"
            tables = converse_with_desk(row, trial.program, trial.file, trial.refusing(0), False)
        expect_tables(row, trial.file, found=tables)
        return asked

    share.refuse_each("serve", refuse)


def make_files(trial):
    """The file of a desk with a release, and a measurement file of it."""
    remove(trial.begun)
    requests, wanted = map(list, zip(*BEGUN))
    found = trial.converse([*STILL_AT_B, "--db", trial.begun], requests)
    expect("a release", found, (wanted, (0, b"", b"")))
    with open(trial.rows, "wb") as rows:
        rows.write(ROWS)


def lines_of(refused=None):
    """The lines of an import, of which that row is answered 503: those after it are ahead then."""
    lines = []
    for number, told in enumerate(TOLD, 1):
        if number == refused:
            told = b'503 {"code":"no-memory"}'
        elif refused is not None and refused < NO_REQUEST and number > refused:
            told = told if number == NO_REQUEST else AHEAD % refused
        lines.append(b"%d %s\n" % (number, told))
    return b"".join(lines)


def try_import(trial, share):
    """A measurement file is imported: one row may be answered 503; and once more, with nothing
    refused."""
    make_files(trial)
    words = ["import", "--db", trial.file, trial.rows]
    may_be = [(0, lines_of(row), b"") for row in (None, 1, 2, 3, 4, 5)]

    def refuse(number):
        copy(trial.begun, trial.file)
        found = trial.run(words, number)
        asked = trial.asked()
        if found not in may_be and not is_cut_short(found, lines_of()):
            raise Wrong(f"import: when allocation {number} is refused: {found!r}")
        expect(f"import: after a refusal of allocation {number}", trial.run(words), may_be[0])
        return asked

    share.refuse_each("an import", refuse)


def try_shown(trial, share):
    """What the programs show of the file of a desk with measurements."""
    make_files(trial)
    copy(trial.begun, trial.file)
    expect("an import", trial.run(["import", "--db", trial.file, trial.rows]), (0, lines_of(), b""))
    of_file = ["--db", trial.file]
    for row, words, shown in (
            ("export", ["export", *of_file, "--caller", "copy", "web"], EXPORTED),
            ("history", ["history", *of_file, "web"], HISTORY),
            ("status", ["status", *of_file], STATUS)):
        try_line(trial, row, words, (0, shown, b""), share, on_file=True)


def try_page(trial, share):
    """A page is drawn, or as many of its parts as memory lasts for."""
    make_files(trial)
    copy(trial.begun, trial.file)
    expect("an import", trial.run(["import", "--db", trial.file, trial.rows]), (0, lines_of(), b""))
    words = ["page", "--db", trial.file, "-"]

    def drawn(number=0):
        status, output, told = trial.run(words, number)
        moments = rb'as it stood at <time .*?</time>|\(\d+ days\)|<text class="tick end".*?</text>'
        return status, re.sub(moments, b"", output), told

    whole = drawn()
    if whole[0] != 0 or not whole[1].endswith(b"</html>\n"):
        raise Wrong(f"a page: {whole!r}")

    def refuse(number):
        found = drawn(number)
        asked = trial.asked()
        is_part = whole[1].startswith(found[1]) and (found[0], found[2]) == (1, OUT_OF_MEMORY)
        if found != whole and not (is_part and number <= asked):
            raise Wrong(f"a page: when allocation {number} is refused: {found!r}")
        return asked

    share.refuse_each("a page", refuse)


def try_client(trial, share):
    """The client, with one of its own allocations refused, beside a desk that has memory."""
    ask_refused(trial, share)


def try_backup(trial, share):
    """`backup` makes a copy of a desk's file, or leaves none."""
    make_files(trial)
    words = ["backup", "--db", trial.begun, trial.copy]
    folder = os.path.dirname(trial.copy)

    def refuse(number):
        remove(trial.copy)
        before = sorted(os.listdir(folder))
        found = trial.run(words, number)
        asked = trial.asked()
        if found == (0, b"", b""):
            expect("backup: a copy", read(trial.copy), read(trial.begun))
            # A log without frames gets a header of its own as the copy is opened.
            expect("backup: its log", len(read(trial.copy + "-wal")),
                   len(read(trial.begun + "-wal")))
        else:
            expect_refused(f"backup: when allocation {number} is refused", found, number <= asked)
            left = [name for name in sorted(os.listdir(folder)) if not name.endswith(".counted")]
            expect("backup: what is left", left,
                   [name for name in before if not name.endswith(".counted")])
        return asked

    share.refuse_each("backup", refuse)


def try_succeed(trial, share):
    """`succeed` makes a new file, or leaves none; the old one is as it was."""
    remove(trial.file)
    made = trial.converse([*STILL_AT_B, "--db", trial.file], [asked for asked, _ in BEGUN[:2]])
    expect("succeed: an old file", made[1], (0, b"", b""))
    words = ["succeed", "--db", trial.file, trial.copy]
    folder, old = os.path.dirname(trial.copy), read(trial.file)

    def left():
        return sorted(name for name in os.listdir(folder) if not name.endswith(".counted"))

    def refuse(number):
        remove(trial.copy)
        before = left()
        found = trial.run(words, number)
        asked = trial.asked()
        if found == (0, b"succeeded\n", b""):
            shown = trial.run(["status", "--db", trial.copy])
            expect("succeed: a new file", (shown[0], b"\nweb   Healthy  2/2" in shown[1]),
                   (0, True))
        else:
            expect_refused(f"succeed: when allocation {number} is refused", found, number <= asked)
            expect("succeed: what is left", left(), before)
        expect("succeed: the old file", read(trial.file), old)
        return asked

    share.refuse_each("succeed", refuse)


def try_migrate(trial, share):
    """A file of the first version is migrated, or `migrate` says that it has no memory and leaves
    the file as it was, unless it fails as it is closed; and once more, with nothing refused."""
    make_first(trial.begun, "story")
    old = contents(trial.begun)
    words = ["migrate", "--db", trial.file]

    def refuse(number):
        copy(trial.begun, trial.file)
        found = trial.run(words, number)
        asked = trial.asked()
        row = f"migrate: when allocation {number} is refused"
        is_old = contents(trial.file) == old
        if is_old or found != (0, b"migrated\n", b""):
            expect_refused(row, found, number <= asked)
        again = (0, b"migrated\n" if is_old else b"current\n", b"")
        expect(f"{row}: again, with nothing refused", trial.run(words), again)
        expect(f"{row}: its rows", in_order(rows_of(trial.file)), migrated(old[1]))
        return asked

    share.refuse_each("migrate", refuse)


def try_page_of_served(trial, share):
    """`page` of a file that a desk has open makes a page, or leaves none, and leaves no copy."""
    make_files(trial)
    folder = os.path.dirname(trial.copy)
    words = ["page", "--db", trial.begun, trial.copy]

    def left():
        return sorted(name for name in os.listdir(folder) if not name.endswith(".counted"))

    def refuse(number):
        remove(trial.copy)
        before = left()
        found = trial.run(words, number)
        asked = trial.asked()
        if found == (0, b"", b""):
            expect("page: its end", read(trial.copy)[-8:], b"</html>\n")
            os.remove(trial.copy)
        else:
            expect_refused(f"page: when allocation {number} is refused", found, number <= asked)
        expect("page: what is left", left(), before)
        return asked

    serve = [trial.program, "serve", "--listen", "127.0.0.1:0", "--db", trial.begun]
    with subprocess.Popen(serve, stdout=subprocess.PIPE, stderr=subprocess.DEVNULL) as desk:
        try:
            desk.stdout.readline()
            share.refuse_each("page of a served file", refuse)
        finally:
            desk.kill()


# Manifests of Argo's: arguments of two kinds, a dry run, a decimal and a job. They become a
# template, a service and a plan.
ARGO = """{"kind":"List","items":[{"kind":"AnalysisTemplate","metadata":{"name":"t"},"spec":{
"args":[{"name":"limit","value":"0.5"},{"name":"hash","valueFrom":{"podTemplateHashValue":
"Latest"}}],"dryRun":[{"metricName":"m"}],"metrics":[{"name":"m","interval":"1m","count":2,
"successCondition":"result[0] < {{args.limit}} || isNaN(result[0])","provider":{"prometheus":
{"query":"up{{args.hash}}"}}},{"name":"j","provider":{"job":{"spec":{}}}}]}},{"kind":"Rollout",
"metadata":{"name":"web"},"spec":{"strategy":{"canary":{"steps":[{"setWeight":10},{"analysis":
{"templates":[{"templateName":"t"}]}}]}}}}]}
"""
MISSPELT = """{"kind":"List","items":[{"kind":"AnalysisTemplate","metadata":{"name":"t"},"spec":{
"metrics":[{"name":"m","successCondition":"result > 1","failurelimit":1}]}},{"kind":"Rollout",
"metadata":{"name":"web"},"spec":{"strategy":{"canary":{"steps":[{"pause":{}}],"stage":1}}}}]}
"""
ARGO_SHOWN = b"""template t-for-web
  m.e6nf
    success: (result < 500000 && result != -9223372036854775808) || result == -9223372036854775808
  j
    success: result == 1
service web
measure m.e6nf of web by prometheus
measure j of web by job
"""


def files_in(folder):
    """What stands in a folder, by names; nothing if there is none."""
    names = sorted(os.listdir(folder)) if os.path.isdir(folder) else []
    return {name: read(os.path.join(folder, name)) for name in names}


def try_argo(trial, share):
    """Argo's manifests are translated, or memory runs out on the way: a file that is written is the
    whole translation, and what is found is whole lines."""
    made = trial.copy + "-made"
    with open(trial.rows, "w", encoding="utf-8") as source:
        source.write(ARGO)
    words = ["argo", "--out", made, trial.rows]
    shutil.rmtree(made, ignore_errors=True)
    expect("argo", trial.run(words), (0, ARGO_SHOWN, b""))
    whole = files_in(made)
    expect("argo: its files", sorted(whole),
           ["plan.json", "t-for-web.template.json", "web.rollout.json"])

    def refuse(number):
        shutil.rmtree(made, ignore_errors=True)
        row = f"argo: when allocation {number} is refused"
        found = trial.run(words, number)
        asked = trial.asked()
        if number > asked or not is_cut_short(found, ARGO_SHOWN):
            expect(row, found, (0, ARGO_SHOWN, b""))
            expect(f"{row}: its files", files_in(made), whole)
        for name, text in files_in(made).items():
            expect(f"{row}: {name}", text, whole.get(name))
        return asked

    EACH.refuse_each("argo", refuse)
    with open(trial.rows, "w", encoding="utf-8") as source:
        source.write(MISSPELT)
    words = ["argo", "--json", trial.rows]
    wanted = trial.run(words)
    expect("argo of misspelt members", (wanted[0], wanted[1].count(b"unknown field"), wanted[2]),
           (0, 2, b""))
    try_line(trial, "argo of misspelt members", words, wanted, share)
    refused = os.path.join(ROOT, "examples/argo/refused.yaml")
    wanted = trial.run(["argo", refused])
    expect("argo of what is not translated", (wanted[0], wanted[2]), (1, b""))
    try_line(trial, "argo of what is not translated", ["argo", refused], wanted, share)


def try_agent(trial, share):
    """The agent as it reads its files, and as it measures and reports."""
    read_refused(trial, EACH)
    report_refused(trial, share)


CASES = (try_lines, try_argo, try_stream, try_tables, try_file, try_opened, try_serve, try_import,
         try_shown, try_client, try_page, try_backup, try_succeed, try_migrate, try_page_of_served,
         try_agent)


def main():
    program, folder, library, step, first, *wanted = sys.argv[1:]
    trial = Trial(program, folder, library)
    try:
        for case in chosen("refused", CASES, wanted):
            case(trial, Share(int(step), int(first)))
    except (Wrong, subprocess.TimeoutExpired) as fault:
        sys.exit(f"refused: {fault}")


main()
