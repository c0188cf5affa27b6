#!/usr/bin/env python3
"""Runs the commands that README.md, docs/, examples/, reference/, tools/ and the manual page show, and compares what they print with what
is shown there; those of the manual page are to print `done`.

    bench/compare/documented.py [PROGRAM]

PROGRAM is what `./ioam` in the documents stands for: this repository's `ioam` where none is given. Each
document is played in a new folder with a copy of examples/, reference/ and tools/. A line for each command: `ok` or `DIFFERS`, and
then what was wanted and what came. Ends with status 1 where one differs. Commands that print nothing are shown
without lines behind them; other commands of the documents (`rt ci`, say) stand without `$` and aren't run. A command is left out
if a tool that it needs is missing (gnuplot, for those that name a picture), and then whatever follows it in its section.
"""
import os
import re
import shutil
import subprocess
import sys
import tempfile

from repository import TOP, program_at


# Tools that commands of the documents use and that may be missing.
TOOLS = ("editcap", "mergecap", "tcpdump", "tcprewrite", "tshark", "jq")


def missing(command):
    """The tools that a command needs and that aren't here."""
    words = set(re.split(r"[^\w.-]+", command))
    wanted = [tool for tool in TOOLS if tool in words] + (["gnuplot"] if ".png" in command else [])
    return [tool for tool in wanted if not shutil.which(tool)]


def shown(path):
    """The commands of a document, each with its section and the lines that are shown behind it."""
    commands = []
    inside = False
    section = ""
    for line in open(path, encoding="utf-8"):
        text = line.rstrip("\n")
        if text.startswith("    $ "):
            commands.append((section, text[6:], []))
            inside = True
        elif text.startswith("    ") and inside:
            commands[-1][2].append(text[4:])
        else:
            inside = False
            section = text if text.startswith("#") else section
    return commands


def shown_in_manual(path):
    """The commands in the displays of a manual page, each of which answers `done`."""
    commands = []
    inside = False
    for line in open(path, encoding="utf-8"):
        text = line.rstrip("\n").replace("\\e", "\\")
        if text.startswith((".Bd", ".Ed")):
            inside = text.startswith(".Bd")
        elif inside and text.startswith("$ "):
            commands.append(("", text[2:], ["done"]))
        elif inside:
            commands[-1] = "", commands[-1][1].rstrip("\\") + text.lstrip(), ["done"]
    return commands


def play(path, program):
    """Runs a document's commands in one folder; how many there are, and how many differ."""
    commands = shown_in_manual(path) if path.endswith(".1") else shown(path)
    differ = 0
    with tempfile.TemporaryDirectory() as room:
        for folder in ("examples", "reference", "tools"):
            shutil.copytree(os.path.join(TOP, folder), os.path.join(room, folder))
        os.symlink(program, os.path.join(room, "ioam"))
        left = None
        for section, command, wanted in commands:
            if missing(command) or (section and section == left):
                left = section
                print(f"left    {os.path.relpath(path, TOP)}: {command}")
                continue
            found = {**os.environ, "PATH": room + os.pathsep + os.environ["PATH"]}
            run = subprocess.run(["bash", "-c", command], cwd=room, env=found, capture_output=True, text=True)
            came = run.stdout.splitlines()
            same = came == wanted
            differ += not same
            print(f"{'ok' if same else 'DIFFERS':8}{os.path.relpath(path, TOP)}: {command}")
            if not same:
                print("  wanted:", *wanted, sep="\n    ")
                print("  came:", *(came + run.stderr.splitlines()), sep="\n    ")
    return len(commands), differ


def main():
    program = program_at(1)
    documents = [os.path.join(TOP, "README.md")]
    docs = os.path.join(TOP, "docs")
    documents += [os.path.join(docs, name) for name in sorted(os.listdir(docs)) if name.endswith((".md", ".1"))]
    examples = os.path.join(TOP, "examples")
    folders = (os.path.join(examples, name, "README.md") for name in sorted(os.listdir(examples)))
    documents += [path for path in folders if os.path.exists(path)] + [os.path.join(TOP, name, "README.md") for name in ("reference", "tools")]
    played = [play(path, program) for path in documents]
    cases, differ = (sum(column) for column in zip(*played))
    print(f"{cases} commands, {differ} differ")
    return 1 if differ else 0


if __name__ == "__main__":
    sys.exit(main())
