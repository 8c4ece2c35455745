"""The tasks of docs/ADMIN.md are those that tests.packages runs: each block that can be copied whole, and no other."""


from .tree import TOP


def check(tree, faults):
    if not tree.is_whole or not (TOP / "tests/packages/admin_tasks.py").is_file():
        return
    from tests.packages import admin_tasks

    printed = set(admin_tasks.printed())
    run = {(it.heading, it.number) for it in admin_tasks.BLOCKS}
    for heading, number in sorted(printed | run):
        what = f"{heading}: block {number + 1}"
        faults.check((heading, number) in run, "docs/ADMIN.md", f"{what} isn't run: tests/packages/admin_tasks.py doesn't name it")
        faults.check((heading, number) in printed, "tests/packages/admin_tasks.py", f"{what} isn't in docs/ADMIN.md")
