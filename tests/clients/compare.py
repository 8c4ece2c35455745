"""Sends the service, MIT's kadmind and Heimdal's kpasswdd the same requests, and writes what each answers.

Each server has a fresh realm EXAMPLE.COM in a temporary folder, with the users, the policy and the keys of the others. Each
row of compare_rows.py is asked by a user of its own, over UDP and, where the server has it, over TCP. A cell is the result
code, with a KRB-ERROR's error code in brackets, and `changed` where the key changed at the end; `silent` is no answer
within three seconds, `closed` a connection that ended without one, `it ends` that the service's process did. What TCP
answers is told where it differs. A cell that isn't what the row's rule asks ends in `!`. Packages that can't be had give a
dash. What the rule asks is `changed`; `refused`, which means that no key changes; a code or an error code; or a dash where
the RFCs leave it to the server. --write puts the table into docs/results/compare.csv, and what the rules say into
compare_rules.csv there.

The policy is six bytes, two classes and three passwords kept, where Heimdal has a rule of its own. All tickets are forged with
the key of kadmin/changepw, so a row can have a fault that no KDC makes.
"""

import concurrent.futures
import csv
import dataclasses
import re
import signal
import sys
import time

from harness import crafting, three_servers
from harness.command import TOP, Parser
from tests.clients.compare_rows import RULES, rows

RESULTS = TOP / "docs/results"
WAYS = {"udp": "u", "tcp": "t"}


@dataclasses.dataclass(frozen=True)
class Found:
    """The answers to a row's requests, and how many versions its user's key has more than before."""

    answers: tuple
    changes: int

    def told(self):
        words = ", then ".join(short(it) for it in self.answers)
        if self.changes == 1:
            words += " changed"
        return words if self.changes < 2 else f"{words} changed {self.changes} times"

    def keeps(self, asks):
        """Whether this is what the rule asks."""
        last = self.answers[-1]
        limit = 1 if asks.endswith(" once") else 0
        asks = asks.removesuffix(" once")
        if asks == "open":
            return True
        if asks == "changed":
            return self.changes == 1 and last.endswith("code 0")
        if self.changes > limit:
            return False
        kind, _, number = asks.partition(" ")
        if kind == "code":
            return re.search(rf"code {number}\b", last) is not None
        if kind == "error":
            return re.search(rf"error {number}\b", last) is not None
        return True


def short(answer):
    if answer.startswith("unreadable"):
        return "unreadable"
    found = re.fullmatch(r"(bare )?code (\d+)(?: error (\d+))?", answer)
    if found is None:
        return answer
    return (found[1] or "") + found[2] + (f" ({found[3]})" if found[3] else "")


def user(way, number):
    return f"{WAYS[way]}{number:03}"


def asked(server, way, number, row):
    """What it answers the row's requests, one after the other."""
    name, now, answers = user(way, number).encode(), int(time.time()), []
    for changes in row.requests:
        values = {"client": name, "cusec": number, "target": name, "target_realm": crafting.REALM, **changes}
        draft = crafting.Draft(now=now, service=three_servers.SERVICE_KEYS, kvno=three_servers.KVNO, **values)
        port, message = getattr(server, way), draft.message()
        if row.raw:
            reply = crafting.over_tcp(port, row.raw(message), is_whole=False)
        else:
            reply = (crafting.over_tcp if way == "tcp" else crafting.over_udp)(port, message)
        answers.append(crafting.told(draft, reply))
    if server.has_ended():
        server.start_again()
        # of others' servers the table says only what they answered
        if isinstance(server, three_servers.Ours):
            answers[-1] = "it ends"
    return tuple(answers)


def answers_of(server, every):
    """By way and row, what the server answered and did."""
    ways = [way for way in WAYS if getattr(server, way)]
    wanted = [(way, number, row) for way in ways for number, row in enumerate(every, 1) if way == "tcp" or not row.raw]
    with concurrent.futures.ThreadPoolExecutor(server.AT_A_TIME) as pool:
        answers = list(pool.map(lambda it: asked(server, *it), wanted))
    versions = server.versions()
    return {(way, number): Found(answer, versions.get(user(way, number), 1) - 1)
            for (way, number, _), answer in zip(wanted, answers)}


def cell(found, number, asks):
    """What stands in the table of one server."""
    over = {way: found[way, number] for way in WAYS if (way, number) in found}
    if not over:
        return "-"
    told = {way: it.told() + ("" if it.keeps(asks) else " !") for way, it in over.items()}
    if len(set(told.values())) == 1:
        return next(iter(told.values()))
    return f"{told['udp']}; TCP: {told['tcp']}"


def differs(cells):
    known = {it.removesuffix(" !") for it in cells if it != "-"}
    return len(known) > 1


def measured(arguments, every):
    """The head of the table's columns, and of each row its cells."""
    users = [user(way, number) for way in WAYS for number in range(1, len(every) + 1)]
    remembered = {user(way, number) for way in WAYS for number, row in enumerate(every, 1) if row.rule == "history"}
    columns = {kind: three_servers.KINDS[kind].NAME for kind in three_servers.KINDS}
    with three_servers.opened(arguments.servers, arguments.program, users, remembered) as (servers, reasons):
        with concurrent.futures.ThreadPoolExecutor(len(servers)) as pool:
            answers = dict(zip(servers, pool.map(lambda it: answers_of(it, every), servers.values())))
    for kind, reason in reasons.items():
        print(f"{columns[kind]} isn't there: {reason}", file=sys.stderr)
    table = [[cell(answers.get(kind, {}), number, row.asks) for kind in columns] for number, row in enumerate(every, 1)]
    return list(columns.values()), table, len(servers)


def compared(every, heads, table):
    """The rows, with what each asks and by which rule."""
    yield ["Part", "Request", *heads, "Asked", "Rule"]
    for row, cells in zip(every, table):
        yield [row.part, row.what, *cells, "-" if row.asks == "open" else row.asks.removesuffix(" once"), row.rule]


def rules(every):
    """What the rules of the rows say."""
    yield ["Rule", "RFC", "What it says, in short"]
    for rule in dict.fromkeys(row.rule for row in every):
        yield [rule, *RULES[rule]]


def write(name, rows):
    with open(RESULTS / f"{name}.csv", "w", newline="") as file:
        csv.writer(file, lineterminator="\n").writerows(rows)


def main():
    parser = Parser(__doc__, "rows N, servers S, differing D", "the service isn't there")
    parser.add_program("--program")
    parser.add_argument("--write", action="store_true", help="the table goes into docs/results/compare.csv, the rules beside it")
    parser.add_argument("--servers", nargs="+", choices=three_servers.KINDS, default=list(three_servers.KINDS),
                        help="these alone")
    arguments = parser.parse_args()
    # an end from outside ends the servers, too
    signal.signal(signal.SIGTERM, lambda *_: sys.exit(1))
    every = list(rows())
    heads, table, servers = measured(arguments, every)
    last = f"rows {len(every)}, servers {servers}, differing {sum(map(differs, table))}"
    if arguments.write:
        write("compare", compared(every, heads, table))
        write("compare_rules", rules(every))
    else:
        for row, cells in zip(every, table):
            place, says = RULES[row.rule]
            told = "; ".join(f"{head}: {it}" for head, it in zip(heads, cells))
            print(f"{'differ' if differs(cells) else 'same'}: {row.part}: {row.what}: {told}. RFC {place}: {says}")
    print(last)
    return 0


if __name__ == "__main__":
    sys.exit(main())
