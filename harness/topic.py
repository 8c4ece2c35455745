"""One topic of the cases of a program, or of their answers, on standard input: its heading, `[TOPIC]`, and the lines below it
up to the next topic's.

    python3 -m harness.topic log < crates/cases_network/stdin
    python3 -m tests.model.cases_log < crates/cases_network/stdin | python3 -m harness.topic log --into crates/cases_network/stdout
"""
import pathlib
import re
import sys

from harness.command import TOP, Parser

# The main.rt of a program of cases names its topics, or it has one, with a folder of modules.
NAMED = re.compile(r"^ +\"(\w+)\" => ", re.MULTILINE)
TOPICS = sorted({topic for it in TOP.glob("crates/cases_*/src/main.rt")
                 for topic in (NAMED.findall(it.read_text()) or [folder.name for folder in it.parent.iterdir() if folder.is_dir()])})


def parts_of(text):
    """The topics of a text, each with the lines below its heading; what stands before the first heading has no name."""
    parts = {"": []}
    lines = parts[""]
    for line in text.split("\n")[:-1]:
        if line[:1] == "[" and line[-1:] == "]" and line[1:-1] in TOPICS:
            lines = parts.setdefault(line[1:-1], [])
        else:
            lines.append(line)
    return parts


def lines_of(text, topic):
    """The lines below a topic's heading."""
    return parts_of(text).get(topic, [])


def headed(topic, lines):
    return "".join(f"{line}\n" for line in [f"[{topic}]", *lines])


def replace(path, topic, lines):
    """Puts lines in place of those below a topic's heading in a file."""
    parts = parts_of(path.read_text(encoding="utf-8"))
    before = "".join(f"{line}\n" for line in parts.pop(""))
    path.write_text(before + "".join(headed(*it) for it in (parts | {topic: lines}).items()), encoding="utf-8")


def answer_lines(text, topic, answer):
    """A script that answers cases of a topic: its heading, and the answer to each line; an empty line or a comment again."""
    Parser(text, None, "a case can't be read").parse_args()
    lines = lines_of(sys.stdin.read(), topic)
    print(headed(topic, (it if it == "" or it.startswith("#") else answer(it) for it in lines)), end="")


def main():
    parser = Parser(__doc__, None, "there is no such topic on standard input")
    parser.add_argument("--into", type=pathlib.Path, metavar="FILE", help="replace the topic in this file, and print nothing")
    parser.add_argument("topic", choices=TOPICS, metavar="TOPIC", help=", ".join(TOPICS))
    options = parser.parse_args()
    parts = parts_of(sys.stdin.read())
    if options.topic not in parts:
        sys.exit(1)
    if options.into:
        replace(options.into, options.topic, parts[options.topic])
    else:
        print(headed(options.topic, parts[options.topic]), end="")


if __name__ == "__main__":
    main()
