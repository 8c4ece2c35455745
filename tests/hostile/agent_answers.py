"""What an agent that a script plays says: of a change, and of what the KDC has (agents.py, failing_lists.py)."""

from harness.false_agent import KEYS, hexed, listed

ALICE, BOB, CAROL = map(hexed, ("alice", "bob", "carol"))
OTHERS = f"{'44' * 32} {'33' * 16}"
AT_FIRST = {"alice": 1, "bob": 1}

# what the agent says of the first change; whether it may not, how often the log tells that a change isn't confirmed, and the
# table's version then
SAID = [
    ("what was asked", f"put {ALICE} 2\n", False, 0),
    ("a higher version", f"put {ALICE} 7\n", False, 0, 7),
    ("that there is no such name", f"none {ALICE}\n", False, 0, None),
    ("a lower version", f"put {ALICE} 1\n", True, 1),
    ("no version", f"put {ALICE}\n", True, 1),
    ("a version with a zero before it", f"put {ALICE} 02\n", True, 1),
    ("a version of too many digits", f"put {ALICE} 4294967296\n", True, 1),
    ("another name", f"put {BOB} 2\n", True, 1),
    ("a name in capital letters", f"put {ALICE.upper()} 2\n", True, 1),
    ("a name with half a digit", f"put {ALICE}6 2\n", True, 1),
    ("two spaces", f"put  {ALICE} 2\n", True, 1),
    ("a word more", f"put {ALICE} 2 2\n", True, 1),
    ("an answer to something else", f"has {ALICE} 2 {KEYS}\n", True, 1),
    ("the end of a list", "end 0\n", True, 1),
    ("an unknown reason", f"refused {ALICE} because\n", True, 1),
    ("no words", "\n", True, 1),
    ("bytes that are no text", b"\xff\xfe\n", True, 1),
    ("a line that is too long", "7" * 1_024 + "\n", True, 1),
    ("a megabyte without an end", "7" * 1_048_576, True, 1),
    ("it twice", f"put {ALICE} 2\n" * 2, True, 0),
]
# of what the KDC has
LISTS = [
    ("a name twice", f"has {ALICE} 1 {KEYS}\n" * 2 + "end 2\n"),
    ("another number at its end", listed("alice", "bob").replace("end 2", "end 3")),
    ("short keys", f"has {ALICE} 2 {'22' * 31} {'11' * 16}\nend 1\n"),
    ("keys in capital letters", f"has {ALICE} 2 {'AA' * 32} {'11' * 16}\nend 1\n"),
    ("no keys", f"has {ALICE} 2\nend 1\n"),
    ("version 0", f"has {ALICE} 0 {KEYS}\nend 1\n"),
    ("an answer to a change", f"put {ALICE} 2\n"),
    ("a line that is too long", f"has {'61' * 600} 1 {KEYS}\n"),
    ("a megabyte without an end", "has 61" + "61" * 524_288),
    ("bytes that are no text", b"has \xff 1\n"),
]
GONE = f"has {ALICE} 1 {KEYS}\nend 1\n"
HAS = [
    ("a new name", f"has {CAROL} 5 {OTHERS}\n" + listed("alice", "bob").replace("end 2", "end 3"), {**AT_FIRST, "carol": 5}),
    ("a newer version", f"has {ALICE} 3 {OTHERS}\nhas {BOB} 1 {KEYS}\nend 2\n", {**AT_FIRST, "alice": 3}),
    ("a name of two components", f"has {ALICE}/{BOB} 1 {OTHERS}\n" + listed("alice", "bob").replace("end 2", "end 3"), AT_FIRST),
    ("no more of a name", GONE, {"alice": 1}, [f"get {BOB}"], f"none {BOB}\n"),
    ("no more of a name, and then it", GONE, AT_FIRST, [f"get {BOB}"], f"has {BOB} 1 {KEYS}\n"),
]
