"""The figures of the longer scripts as tables, read from the lines that they print.

`TABLES` has, by a script's first word, the heading of its part, what is to be said before the table, and the function that
makes its head and rows of the lines.
"""

import re

RATE = r": (\d+) changes a second, median ([\d.]+) ms, 99th percentile [\d.]+ ms, longest ([\d.]+) ms"
SPREAD = r"median ([\d.]+) ms, 99th ([\d.]+) ms, longest ([\d.]+) ms"
THREE = r"([\d.]+) ms, ([\d.]+) ms, ([\d.]+) ms"


def found(pattern, text):
    """The groups of the one place that is as the pattern says."""
    [groups] = re.findall(pattern, text)
    return groups


def parts(head, lines):
    """The groups of each line that is a head, with the lines after it as one text."""
    places = [number for number, line in enumerate(lines) if re.fullmatch(head, line)]
    for place, end in zip(places, [*places[1:], len(lines)]):
        yield re.fullmatch(head, lines[place]).groups(), "\n".join(lines[place + 1 : end])


def siege(lines):
    """In peace, and beside the hostile clients."""
    rows = []
    for (number, whom), text in parts(r"siege (\d+): (.*)", lines):
        peace, beside = found(f"in peace{RATE}", text), found(f"beside them{RATE}", text)
        memory, files = found(r"([\d.]+) MiB at its peak .*; (\d+) files", text)
        status = found(r"status beside them: .* 99th percentile ([\d.]+) ms", text)
        rows.append([number, whom, *map(", ".join, zip(peace, beside)), memory, files, status])
    return ["Siege", "Hostile", "Changes a second", "Median, ms", "Longest, ms", "MiB", "Files", "`status`, 99th, ms"], rows


def junk(lines):
    """What each server answers beside junk, over TCP and over UDP."""
    rows, of_server = [], r"^\s*([\w ]+): TCP (.*); UDP (.*); ([\d,]+) datagrams of junk a second$"
    for (number, whom), text in parts(r"junk (\d+): (.*)", lines):
        for name, tcp, udp, sent in re.findall(of_server, text, re.MULTILINE):
            cells = []
            for of in tcp, udp:
                answered, asked = re.match(r"(\d+) of (\d+) answered", of).groups()
                spread = re.search(r"median ([\d.]+) ms, longest ([\d.]+) ms", of)
                cells += [f"{answered} of {asked}", ", ".join(spread.groups()) if spread else "-"]
            rows.append([number, whom, name, *cells, sent])
    return ["Siege", "Hostile", "Server", "TCP", "ms", "UDP", "ms", "Junk a second"], rows


def sync(lines):
    """Of each request, by how many clients change passwords meanwhile."""
    cells = re.findall(r"^(\d+) changing: (.*): median ([\d.]+) ms, longest ([\d.]+) ms$", "\n".join(lines), re.MULTILINE)
    counts = list(dict.fromkeys(count for count, *_ in cells))
    by_request = {request: {} for _, request, *_ in cells}
    for count, request, median, longest in cells:
        by_request[request][count] = f"{median}, {longest}"
    rows = [[request, *(told[count] for count in counts)] for request, told in by_request.items()]
    heads = {"0": "Nobody changes", "1": "One client does"}
    return ["Request", *(heads.get(count, f"{count} clients do") for count in counts)], rows


def reload(lines):
    """What is answered in peace and beside reloads, and the reloads themselves."""
    rows = []
    for line in lines:
        if answers := re.fullmatch(rf"(.*?): (.*): (\d+) answers, {SPREAD}", line):
            when, what, count, *times = answers.groups()
            what = "`status`" if what == "status" else what
            rows.append([what, "nothing" if when == "in peace" else when, count, *times])
        elif itself := re.fullmatch(r"reloads: (\d+), median ([\d.]+) ms, longest ([\d.]+) ms", line):
            rows.append(["a reload", "these", itself[1], itself[2], "-", itself[3]])
    return ["Answer", "Beside", "Answers", "Median, ms", "99th, ms", "Longest, ms"], rows


def kdc(lines, where):
    """Of one kind of KDC, in one place."""
    text = "\n".join(lines)
    kind, listed, taken = found(r"(\w+): \d+ principals, a list of all keys ([\d.]+) s, .* after ([\d.]+) s;", text)
    written = found(f"to the answer {THREE}", text)
    rates = [", ".join(re.findall(r"\d+", rest)) for rest in re.findall(r"clients \d+: (.*)", text)]
    return [kind, where, listed, taken, ", ".join(written), *rates]


def rows_of(lines, work):
    """The head and the rows; the lines as they are if they can't be read."""
    try:
        return work(lines)
    except (ValueError, KeyError):
        return ["Figures"], [[line] for line in lines or ["-"]]


TABLES = {
    "reload": ("A reload", "10,000 principals; four clients change passwords, one is refused, one asks for `status`.", reload),
    "siege": ("Beside hostile clients", "Four workers. Each pair is in peace, and beside the hostile clients; "
                 "`python3 -m bench.siege --help` says how many there are, and has the limits. MiB is the most memory that the service "
                 "had.", siege),
    "sync": ("A slow sync", "Every sync takes 20 ms, and others change passwords without a pause. "
                "Milliseconds, median and longest of 40.", sync),
}
# a second table of a script's
MORE = {
    "siege": ("Answers to honest clients, of those that asked; milliseconds, median and longest. Over UDP each request is one "
                 "datagram, which is sent once.", junk),
}
KDC = "kdc"
OF_KDCS = ("The KDC", "10,000 principals: the list of all keys, and all taken by a service that has none. Milliseconds of a write, from "
           "the request to the agent's answer: median, 99th, longest of 100. Changes a second: of the service, of the service with "
           "this KDC, of kadmind.",
           ["KDC", "Database", "List, s", "All taken, s", "A write, ms", "1 client", "16 clients"])
