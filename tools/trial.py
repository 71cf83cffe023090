#!/usr/bin/env python3
"""Runs the program's sources unproved, on the words given. ./fixprove does so where no proved
program is built.

Use:   python3 tools/trial.py [WORD ..]     as in   python3 tools/trial.py prove SCRIPT

The toolchain's `rt try` compiles them with checks, a minute or two each time, since it keeps
nothing. Prints what the program prints and ends with its status, or with 70 where it has none.
"""
import contextlib
import os
import re
import shutil
import signal
import subprocess
import sys
import tempfile

CRATE = f"{os.path.dirname(os.path.dirname(os.path.abspath(__file__)))}/crates/fx_main"
CANNOT_WRITE, CANNOT_RUN = 7, 70


def say(text):
    print(f"fixprove: {text}", file=sys.stderr, flush=True)


def is_text(word):
    # (Python has a byte that isn't text as half of a character)
    return not any("\ud800" <= it <= "\udfff" for it in word)


def hand_in(words, folder):
    """Copies the files that words name to the folder. Returns the words with the copies' names, and
    these names by the user's words.

    `rt try` shows a program only files below its own folder, and hands in those of the crate's
    folder by itself. So each word that may be a file's gets a name of the trial's own, but for
    numbers, which may be an option's value."""
    new, names = words[:1], {}
    for at, word in enumerate(words[1:], 1):
        is_option = word.startswith("-") and word != "-" and "--" not in words[1:at]
        if word and is_text(word) and not is_option and word not in names:
            names[word] = word if word.isdigit() else f"file-{at}"
            # what can't be read isn't there for the program either, which says so; nor does it read
            # a pipe
            if os.path.isfile(word):
                with contextlib.suppress(OSError):
                    shutil.copyfile(word, f"{folder}/{names[word]}")
        new.append(names.get(word, word))
    return new, names


def attempt(words, folder):
    """Runs `rt try` on these words and the folder's files; returns what the program printed, and
    what rt said."""
    command = ["rt", "try", "--steps", "1", "--seconds", "900000"]
    for name in os.listdir(folder):
        command += ["--data", f"{name}={folder}/{name}"]
    how = {"cwd": CRATE, "stdin": subprocess.DEVNULL, "stdout": subprocess.PIPE,
           "stderr": subprocess.PIPE}
    with subprocess.Popen([*command, "--", *words], **how) as tool:
        try:
            return tool.communicate()
        finally:
            tool.terminate()


def main(words):
    options = words[: words.index("--")] if "--" in words else words
    is_certified = (words[:1] == ["prove"]
                    and any(it.partition("=")[0] == "--cert" for it in options))
    if is_certified or words[:1] in (["upgrade"], ["fix"], ["trim"]):
        what = "--cert" if is_certified else words[0]
        say(f"{what} writes a file, which only the proved program does: ./fixprove build proves "
            "and builds it")
        return CANNOT_RUN
    if words[:1] == ["batch"]:
        # its list names files, which would have to be handed in under their own names
        say("batch reads the files that its list names, which only the proved program does: "
            "./fixprove build proves and builds it")
        return CANNOT_RUN
    say("this runs the program's sources unproved: a minute or two, and far longer for a large "
        "script; ./fixprove build proves and builds the program")
    for it in (signal.SIGTERM, signal.SIGHUP, signal.SIGINT):
        signal.signal(it, lambda number, _: sys.exit(128 + number))
    with tempfile.TemporaryDirectory(prefix="fixprove-") as folder:
        new, names = hand_in(words, folder)
        printed, said = attempt(new, folder)
    ended = re.search(rb"^run=ended status=(\d+) .*\n\Z", said, re.M)
    if not ended:
        sys.stderr.buffer.write(said)
        say("the run did not end as the program does; the lines above say why")
        return CANNOT_RUN
    for word, name in names.items():
        if printed == os.fsencode(f"read fault: {name}\n"):
            printed = os.fsencode(f"read fault: {word}\n")
            break
    try:
        sys.stdout.buffer.write(printed)
        sys.stdout.buffer.flush()
    except OSError:
        os._exit(CANNOT_WRITE)
    return int(ended[1])


if __name__ == "__main__":
    sys.exit(main(sys.argv[1:]))
