"""No command that ADMIN, README.Debian or a manual page prints meets a name in a directory of the service's user as root.

That user, once taken over, can put a link there under any name. A command with such a name begins with `runuser` or `setpriv`,
which make it the service's user's, and root's shell sends nothing there or takes it from there.
"""

import shlex

from .tree import TOP

AS_THE_USER = {"runuser -u boddrelyn --", "setpriv --reuid=boddrelyn --regid=boddrelyn"}


def commands(text):
    """Each simple command of a block: its words, and the files to which or from which its output or input goes."""
    for line in text.replace("\\\n", " ").splitlines():
        words, files, is_file = [], [], False
        lexer = shlex.shlex(line, posix=True, punctuation_chars=True)
        lexer.wordchars += "$@%:+,{}"
        for word in lexer:
            if word[0] in "<>":
                is_file = True
            elif word[0] in ";&|()":
                yield words, files
                words, files = [], []
            elif is_file:
                files.append(word)
                is_file = False
            else:
                words.append(word)
        yield words, files


def check(tree, faults):
    if not tree.is_whole or not (TOP / "tests/packages/planted_links.py").is_file():
        return
    from tests.packages import planted_links

    def is_of_the_user(word):
        return any(word == folder or f"{folder}/" in word for folder in planted_links.FOLDERS)

    for document, number, text in planted_links.blocks():
        for words, files in commands(text):
            is_users = any(" ".join(words).startswith(it) for it in AS_THE_USER)
            holds = not any(map(is_of_the_user, files)) and (is_users or not any(map(is_of_the_user, words)))
            said = f"root, and not the service's user, meets a name of that user's: {' '.join(words + files)}"
            faults.check(holds, f"{document}:{number}", said)
