"""The share of trials/ that the gate tries, within five minutes of a processor: the edits that were refused over other sources,
the oldest verdicts first, and then those that were never refused as they are."""
import concurrent.futures
import datetime
import hashlib
import resource

# The seconds of a processor that a share may take.
BUDGET = 300
# What a try is taken to cost while nobody knows.
COST = 30
# The most seconds of a processor that one task of a share may take, and the least with which one is begun.
MOST, LEAST = 150, 20


def spent():
    """The seconds of a processor that this process's children have taken, once they have ended."""
    used = resource.getrusage(resource.RUSAGE_CHILDREN)
    return used.ru_utime + used.ru_stime


def in_turn(edits, lines, today):
    """Edits, of some of which `lines` has verdicts: the oldest first, and those that have none last. Those of one day, and those
    of none, are in an order that is another one each day."""
    def turn(edit):
        return lines[edit].day if edit in lines else "none", hashlib.sha256(f"{today} {edit}".encode()).digest()

    return sorted(edits, key=turn)


def cost_of(edit, lines):
    """The seconds of a processor that a try of it took, as far as that is known."""
    known = lines[edit].seconds if edit in lines else None
    return COST if known is None else known


def chosen(edits, lines, is_known, today=None, budget=BUDGET):
    """The edits whose turn it is: the first that have no verdict over today's texts and fit into the budget together."""
    found, cost = [], 0
    for edit in in_turn(edits, lines, today or datetime.date.today()):
        own = cost_of(edit, lines)
        if cost + own <= budget and not is_known(edit):
            found.append(edit)
            cost += own
    return found


def of_crates(edits):
    """Edits named as CRATE/NAME.edit by their crates, in the order in which the crates come first."""
    found = {}
    for edit in edits:
        crate, name = edit.split("/")
        found.setdefault(crate, []).append(name)
    return found


def parted(tasks):
    """Tasks of one check each; a task is a crate, and the edits of each of its checks."""
    return [(crate, [it]) for crate, checks in tasks for it in checks]


def oldest_first(tasks, before):
    """Tasks in the order of their oldest verdicts, of which `before` has the lines, if there is one; those of edits that have
    none first."""
    def day(task):
        edits = (f"{task[0]}/{it}" for check in task[1] for it in check)
        return min(before.lines[it].day if it in before.lines else "" for it in edits)

    return sorted(tasks, key=day) if before else tasks


def within(tasks, submit, places, budget=BUDGET):
    """What comes of these tasks as they end, verdicts with their seconds, and what is left over: tasks that weren't begun, since
    too little of the budget was left. A task is begun with what it may take at the most, so that all together keep the budget."""
    left, running, cost = list(tasks), {}, 0
    while True:
        while left and len(running) < places:
            most = min(MOST, budget - cost - sum(running.values()))
            if most < LEAST:
                break
            running[submit(left.pop(0), most)] = most
        if not running:
            break
        ended, _ = concurrent.futures.wait(running, return_when=concurrent.futures.FIRST_COMPLETED)
        for it in ended:
            del running[it]
            cost += sum(seconds for _, _, seconds in it.result())
            yield it.result()
    over = [f"{crate}/{edit}" for crate, checks in left for check in checks for edit in check]
    yield [(None, f"must-fail {it}: NOT JUDGED: the time of the share is over", 0) for it in over]
