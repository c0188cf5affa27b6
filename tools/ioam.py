"""`ioam` from Python: reports as dictionaries, refusals as exceptions.

    import ioam
    for packet in ioam.paths(open("examples/linux-ioam.pcap", "rb").read()):
        print(packet["number"], packet["options"])

A capture is passed as its octets, and held in memory with its report. The environment variable IOAM names the program.
"""
import os
import subprocess
import tempfile

PROGRAM = os.environ.get("IOAM", "ioam")


class Refused(Exception):
    """An answer other than `done`: its exit status, its line, and what standard error said."""

    def __init__(self, status, line, said):
        super().__init__(f"{line}{': ' + said if said else ''}")
        self.status, self.line = status, line


def _asked(command, capture, *outputs):
    with tempfile.TemporaryDirectory() as room:
        names = [os.path.join(room, output) for output in outputs]
        ran = subprocess.run([PROGRAM, command, "/dev/stdin", *names], input=capture, capture_output=True)
        if ran.returncode:
            raise Refused(ran.returncode, ran.stdout.decode().strip(), ran.stderr.decode().strip())
        return [open(name, "rb").read() for name in names]


def _packets(report):
    packets = []
    for line in report.decode("ascii").splitlines()[:-1]:
        words = line.split()
        if not line.startswith(" "):
            packets.append({"number": int(words[0]), "skip": words[2] if words[1] == "skip" else None, "options": []})
        elif line.startswith("    "):
            packets[-1]["options"][-1]["elements"].append(dict(word.split("=") for word in words))
        else:
            packets[-1]["options"].append({"line": line.strip(), "elements": []})
    return packets


def show(capture):
    """Each packet with its IOAM options: `line` as `ioam show` prints it, and the elements' fields as text."""
    return _packets(_asked("show", capture, "report")[0])


def paths(capture):
    """Each packet with its traces, likewise."""
    return _packets(_asked("paths", capture, "report")[0])


def leaks(capture):
    """The packets that leak, as a capture, and for each what it does (`carries`, `quotes`, `hidden`), by its number."""
    out, report = _asked("leaks", capture, "out", "report")
    lines = [line.split() for line in report.decode("ascii").splitlines()]
    return out, {int(words[0]): words[1] for words in lines if words[0].isdigit()}
