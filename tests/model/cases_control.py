"""What `cases_network` must print below `[control]`, worked out with nothing of ours: of the cases there, on standard input, the
answers.

    python3 -m tests.model.cases_control < crates/cases_network/stdin

The commands, faults and lines are docs/PROTOCOL.md's and docs/ADMIN.md's, the times datetime's.
"""
import datetime

from harness.topic import answer_lines

COMMANDS = {b"status": "Status", b"reload": "Reload", b"reopen-log": "ReopenLog", b"stop": "Stop"}

NAMES = ("principals iterations entries changes all-entries all-changes connections reading waiting answering "
         "confirming writing ending workers busy queue journal-bytes log-lost kdc-behind").split()


def octets(word):
    digits, _, times = word.partition("*")
    return bytes.fromhex(digits) * int(times or 1)


def command(line):
    if line in COMMANDS:
        return COMMANDS[line]
    word, space, file = line.partition(b" ")
    if word != b"compact":
        return "error: unknown command"
    if not file:
        return "error: compact wants a file"
    try:
        file.decode("utf-8")
    except UnicodeDecodeError:
        return "error: bad file name"
    return "error: bad file name" if b"\0" in file else f"Compact {file.hex()}"


def told(heard):
    line, newline, _ = heard.partition(b"\n")
    if len(line) > 4200:
        return "error: line too long"
    return command(line) if newline else "-"


def hear(events):
    heard, shown = b"", []
    for event in events:
        if heard is None:
            shown.append("-")
        elif event in ("end", "late"):
            shown.append("error: no whole line" if event == "end" else "error: no command within a second")
            heard = None
        else:
            heard += octets(event)
            shown.append(told(heard))
            heard = heard if shown[-1] == "-" else None
    return ", ".join(shown)


def time(word):
    if word == "-":
        return "-"
    seconds, micros = map(int, word.split("."))
    at = datetime.datetime(1970, 1, 1) + datetime.timedelta(seconds=seconds, microseconds=micros)
    return f"{at.year:04}-{at.month:02}-{at.day:02}T{at.hour:02}:{at.minute:02}:{at.second:02}.{at.microsecond:06}Z"


def words(text):
    return "".join(chr(b) if 32 <= b <= 126 and b != 92 else f"\\x{b:02x}" for b in text)


QUIET = "requests are refused after a start; the clients' clocks are not at fault"

LEADS = {"Absent": "-", "Kept": "good", "Gone": "gone", "Elsewhere": "elsewhere"}


def status(version, since, quiet, failure, journal_name, log_name, kdc, kdc_since, refused, *numbers):
    values = dict(zip(NAMES, numbers, strict=True))
    values |= {"version": words(octets(version)), "since": time(since), "quiet-until": time(quiet),
               "quiet-reason": "-" if quiet == "-" else QUIET,
               "journal": "good" if failure == "-" else "failed: " + words(octets(failure)),
               "journal-name": LEADS[journal_name], "log-name": LEADS[log_name],
               "kdc": {"Absent": "none", "Connected": "connected", "Down": "down"}[kdc], "kdc-since": time(kdc_since),
               "kdc-refused": "-" if refused == "-" else words(octets(refused))}
    order = (["version", "since", "quiet-until", "quiet-reason"] + NAMES[:-2]
             + ["journal", "journal-name", "log-lost", "log-name", "kdc", "kdc-since", "kdc-behind", "kdc-refused"])
    return "".join(f"{name} {values[name]}\\n" for name in order) + "ok\\n"


def is_done(text):
    lines = text.split(b"\n")
    return lines[-1] == b"" and lines[-2:-1] == [b"ok"]


def answer(case):
    kind, *values = case.split(" ")
    if kind == "hear":
        return hear(values)
    if kind == "status":
        return status(*values)
    text = octets(*values)
    if kind == "line":
        return words(text) + "\\nok\\n"
    if kind == "error":
        return "error: " + words(text) + "\\n"
    if kind == "ended":
        return "yes" if is_done(text) else "no"
    return " ".join(["at"] + [str(n) for n in range(len(text) + 1) if is_done(text[:n])])


answer_lines(__doc__, "control", answer)
