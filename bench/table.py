"""What `table` takes of a long journal: seconds, and the most memory.

Both are beside those of a journal that makes the same table of three records for each principal. The limits are 15 s, and 8 MB
more than that. The program is built first if a source has changed.
"""

import os
import pathlib
import sys
import tempfile
import time

from bench.build import built
from bench.restore import add_sizes, names_of, write_journal
from harness.command import Parser
from harness.sample_realm import write_configuration

RECORDS = 1_000_000
PRINCIPALS = [10_000]
# versions that the table keeps of each principal: `depth` of the configuration
DEPTH = 3
FORMS = "lines", "keys"
# seconds; MB more than the same table takes of a journal that holds each of its keys once
MOST_SECONDS, MOST_MORE = 15, 8


def cost(program, folder, form):
    """Seconds, processor seconds and the most MB of one run."""
    words = [program, "table", "--config", folder / "realm.toml", "--journal", folder / "journal", "--as", form]
    begun = time.monotonic()
    nowhere = (os.POSIX_SPAWN_OPEN, 1, "/dev/null", os.O_WRONLY, 0)
    child = os.posix_spawn(program, [str(word) for word in words], os.environ, file_actions=[nowhere])
    _, status, used = os.wait4(child, 0)
    if status != 0:
        sys.exit(f"table --as {form}: status {os.waitstatus_to_exitcode(status)}")
    return time.monotonic() - begun, used.ru_utime + used.ru_stime, used.ru_maxrss / 1024


def measure(program, records, principals):
    """Whether it keeps to both limits."""
    names = names_of(principals)
    is_good = True
    with tempfile.TemporaryDirectory(prefix="chpw-table-") as name:
        folder = pathlib.Path(name)
        write_configuration(folder / "realm.toml", names)
        memory = {}
        for count in DEPTH * principals, records:
            write_journal(folder / "journal", count, names)
            for form in FORMS:
                seconds, processor, memory[count, form] = cost(program, folder, form)
                what = f"{count} records over {principals} principals"
                print(f"table --as {form}: {what} in {seconds:.1f} s ({processor:.1f} s of a processor), "
                      f"{memory[count, form]:.0f} MB", flush=True)
                more = memory[count, form] - memory[DEPTH * principals, form]
                is_good = is_good and seconds <= MOST_SECONDS and more <= MOST_MORE
    return is_good


def main():
    parser = Parser(__doc__, "within the limits, or beyond a limit", "a limit is passed")
    add_sizes(parser, RECORDS, PRINCIPALS)
    words = parser.parse_args()
    program = built("chpw_server")
    good = [measure(program, words.records, principals) for principals in words.principals]
    print("within the limits" if all(good) else "beyond a limit")
    sys.exit(not all(good))


if __name__ == "__main__":
    main()
