#!/usr/bin/env python3
"""Compares what the program answers and writes with what a second writing of the same rules, in Python, says.

    bench/compare/differential_inputs.py [COUNT] [PROGRAM] [FIRST [COMMAND]]

COUNT random inputs (1,000 where it isn't given), numbered from FIRST (0) on; one number always gives the same input. PROGRAM is
this repository's `ioam` where none is given. With COMMAND they are inputs of that command alone (of `run` faulty domain files,
of `bulk` 300 packets at most). Without, they are those of every command but `bulk`, of `run` the faulty domain files and READINGS
alone, and words of no form: captures of both forms with each of their faults, packets with IOAM options of every
kind, sound and broken, pairs of captures before and behind some node, export records, messages and parts with each of their
faults, domain files with faults of each table, key and reason. Of each the line, the status and every file are compared, octet for octet, and that no other file was made. Where something differs it
is said and the input's folder is kept; then the status is 1. At the end stands how often each answer, reason and branch of
the second writing (reference/) was reached.
"""
import os
import random
import shutil
import subprocess
import sys
import tempfile

sys.dont_write_bytecode = True
sys.path.insert(0, os.path.join(os.path.dirname(os.path.abspath(__file__)), "..", "..", "reference"))

import audit_rows  # noqa: E402
import explain_rows  # noqa: E402
import faults_reach  # noqa: E402
import messages_rows  # noqa: E402
import texts_rows  # noqa: E402
from faults_answers import answer, is_form  # noqa: E402
from faults_words import MAKERS, input_of, some_input  # noqa: E402
from repository import program_at  # noqa: E402
from run_bulk import bulk  # noqa: E402

# `bulk` with more packets takes the second writing too long
MOST_BULK = 1000


def decoded(words):
    """Words as text, none where one of them isn't."""
    try:
        return [word.decode() for word in words]
    except UnicodeDecodeError:
        return []


def is_bulk(words):
    """Whether words are those of `bulk`, with its numbers."""
    return decoded(words)[:1] == ["bulk"] and is_form(decoded(words))


def is_left_out(words):
    """Whether there is no time to ask the second writing."""
    return is_bulk(words) and int(words[2]) > MOST_BULK


def answered(words, files):
    """The line, the status and the outputs that words should give."""
    if not is_bulk(words):
        return answer(words, files)
    given = bulk(decoded(words))
    return given.line.rstrip("\n"), given.status, given.outputs


def wanted_of(words, files):
    """What an input should give: the line, the status, and the files that there then are; None where a folder can't hold them."""
    line, status, outputs = answered(words, files)
    if any(name in ("", ".", "..") or "/" in name for name in outputs):
        return None
    return line, status, {**files, **outputs}


def came_of(program, words, files, room):
    """What an input gives in a folder of its own."""
    for name, octets in files.items():
        path = os.path.join(room, name)
        os.makedirs(os.path.dirname(path), exist_ok=True)
        with open(path, "wb") as file:
            file.write(octets)
    run = subprocess.run([program, *words], cwd=room, capture_output=True, timeout=120)
    found = {}
    for folder, _, names in os.walk(room):
        for name in names:
            path = os.path.join(folder, name)
            with open(path, "rb") as file:
                found[os.path.relpath(path, room)] = file.read()
    return run.stdout, run.returncode, found


def difference(wanted, came):
    """What differs, in words; empty where nothing does."""
    line, status, files = wanted
    printed, ended, found = came
    said = []
    if printed != (line + "\n").encode():
        said.append(f"the line: wanted {line!r}, came {printed!r}")
    if ended != status:
        said.append(f"the status: wanted {status}, came {ended}")
    for name in sorted(set(files) | set(found)):
        if files.get(name) != found.get(name):
            said.append(f"the file {name!r}: " + file_difference(files.get(name), found.get(name)))
    return said


def file_difference(wanted, came):
    """Where two files begin to differ."""
    if wanted is None or came is None:
        return "should not be there" if wanted is None else "isn't there"
    place = next((at for at, pair in enumerate(zip(wanted, came)) if pair[0] != pair[1]), min(len(wanted), len(came)))
    start = max(0, place - 40)
    return f"from octet {place} on: wanted {wanted[start:place + 60]!r}, came {came[start:place + 60]!r}"


def one(number, command, program, room):
    """Compares one input; whether it is the same."""
    rng = random.Random(f"ioam {number}")
    words, files = input_of(rng, command) if command else some_input(rng)
    wanted = None if is_left_out(words) else wanted_of(words, files)
    if wanted is None:
        return True
    said = difference(wanted, came_of(program, words, files, room))
    for text in said:
        print(f"input {number}: {text}")
    if said:
        print(f"  words {words}, kept in {room}")
    return not said


def main():
    for rows in (texts_rows, audit_rows, explain_rows, messages_rows):
        rows.check()
    count = int(sys.argv[1]) if len(sys.argv) > 1 else 1000
    program = program_at(2)
    first = int(sys.argv[3]) if len(sys.argv) > 3 else 0
    command = sys.argv[4] if len(sys.argv) > 4 else None
    if command and command not in MAKERS:
        sys.exit(f"no such command: {command}")
    faults_reach.REACHED.clear()
    differ = 0
    for number in range(first, first + count):
        room = tempfile.mkdtemp(prefix=f"ioam-input-{number}-")
        if one(number, command, program, room):
            shutil.rmtree(room)
        else:
            differ += 1
    print(faults_reach.table() + f"{count} inputs, {differ} differ")
    return 1 if differ else 0


if __name__ == "__main__":
    sys.exit(main())
