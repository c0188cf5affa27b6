"""What to import of the reference: one name for each rule. Octets go in and come out; no file is read or written.

`arrivals` are the packets of a capture, in order; a `chain` is the headers of a packet that is whole; `kind` is a trace type of 24
bits, `element` the octets that one node wrote. Where octets may be faulty, the fault comes beside what precedes it.
"""
import os

from audit_data import Sight as KnownNode, may_become  # noqa: F401
from exports_records import collected as groups_text, read_exports  # noqa: F401
from faults_answers import answer
from faults_domain import read_domain  # noqa: F401
from faults_readings import read_readings, sample_at, stamp_of as time_stamp  # noqa: F401
from foreign_node import Node  # noqa: F401
from foreign_packets import (  # noqa: F401
    chain_of as header_chain,
    frame_of as packet_of_frame,
    ioam_options as options_of_chain,
    outer_options,
)
from foreign_traces import element_of as element, fill as fill_trace, read_trace, words as words_of_type  # noqa: F401
from leaks_reports import finding as what_leaks  # noqa: F401
from messages_ipfix import Reader as IpfixReader, written as ipfix_messages  # noqa: F401
from ng_captures import read_capture  # noqa: F401
from parts_files import held as kept_records, read_part, record_octets, spelled as part_octets  # noqa: F401
from run_bulk import bulk
from run_collect import collect
from run_program import run
from texts_fields import fields_text, option_text, read_direct, read_edge, trace_text  # noqa: F401

WHOLE = {"run": run, "collect": collect, "bulk": lambda words, _: bulk(words)}


def run_command(words, files):
    """The line, the status and the outputs by name that a command gives over files by their names."""
    if words and words[0] in WHOLE:
        given = WHOLE[words[0]](words, files)
        return given.line.rstrip("\n"), given.status, given.outputs
    return answer([os.fsencode(word) for word in words], files)
