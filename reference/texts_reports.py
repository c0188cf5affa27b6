"""The reports of `filter`, `paths` and `show`, and what `filter` and `save` write."""

from faults_reach import reached
from foreign_packets import ioam_options, judged, outer_options
from ng_captures import CLASSIC_HEAD, NG_HEAD, classic_record, ng_block
from texts_fields import option_text, trace_text


def filtered(arrivals):
    """The boundary: a capture of the packets that may pass, and a line for each arrival."""
    out, text, kept = [CLASSIC_HEAD], [], 0
    for place, arrival in enumerate(arrivals, 1):
        reason, packet, chain = judged(arrival)
        if reason is None and ioam_options(chain):
            reason = "ioam-in"
            reached("filter: ioam-in")
        if reason is None:
            kept += 1
            out.append(classic_record(arrival.time, packet))
        text.append(f"{place} kept\n" if reason is None else f"{place} drop {reason}\n")
    text.append(f"packets {len(arrivals)} kept {kept} dropped {len(arrivals) - kept}\n")
    return b"".join(out), "".join(text).encode()


def listed(arrivals, word, lines_of):
    """Of each packet how many things its chain has, and the lines of each; or why it is skipped."""
    text = []
    for place, arrival in enumerate(arrivals, 1):
        reason, _, chain = judged(arrival)
        if reason is not None:
            text.append(f"{place} skip {reason}\n")
            continue
        lines = lines_of(chain)
        text.append(f"{place} {word} {len(lines)}\n")
        text.extend(lines)
    text.append(f"packets {len(arrivals)}\n")
    return "".join(text).encode()


def paths(arrivals):
    """The traces in front of any nested IPv6 header."""
    return listed(arrivals, "traces", lambda chain: [
        trace_text(data[2:]) for _, _, data in outer_options(chain) if len(data) >= 2 and data[1] == 0])


def option_line(kind, at, data):
    """The line of one IOAM option, and those of its elements."""
    said = option_text(data)
    reached("show: " + " ".join(said.split()[:2 if said.startswith("bad") else 1]))
    return f"  {kind:02x} at {at} {said}"


def show(arrivals):
    """Every IOAM option on each chain."""
    return listed(arrivals, "options", lambda chain: [option_line(*option) for option in ioam_options(chain)])


def saved(arrivals):
    """All arrivals as one pcapng section: interface 0 has whole packets, interface 1 Ethernet frames."""
    return NG_HEAD + b"".join(ng_block(arrival) for arrival in arrivals)
