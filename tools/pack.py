#!/usr/bin/env python3
"""Packs data into an archive that mount_tool searches: an index of Lucene 8, or lines of JSON objects.

    tools/pack.py lucene INDEX OUT --name NAME [--part-size BYTES]
    tools/pack.py lines FILE OUT --name NAME [--docs-per-segment N]

OUT is a folder, made where it is missing. The archive's manifest is the blob mount-NAME in it, and `mount_tool OUT -
term mount-NAME FIELD TERM` searches it. OUT may hold other archives, but no manifest of that name.

`lucene` takes the segments of an index's newest commit that were written with the SimpleText codec. Their files go into
the archive byte for byte, after a check that their lines are as docs/FORMATS.md says and their checksums right.

`lines` takes a JSON object a line. A member that is a string is a field to search: its terms are its runs of letters
and digits, in lower case. Each member is stored: a string as it is, a number as it stands, any other value as its JSON
text. Of members with one name the last counts, and lines of blanks are passed over. FILE may be `-` for standard input.

What was written is said in one line on standard output, and how far it is on standard error. The status is 0, or 1
where an input is refused: then OUT is as it was, and a line on standard error says why. It is 2 where the words are not
as above. Python 3.8 or later, and nothing beside its standard library.
"""
import argparse
import signal
import sys

from packing import lines, lucene
from packing.archive import Refused


def _parse(words):
    parser = argparse.ArgumentParser(prog="pack.py", description=__doc__, formatter_class=argparse.RawTextHelpFormatter)
    kinds = parser.add_subparsers(dest="kind", required=True, metavar="lucene|lines")
    index = kinds.add_parser("lucene", help="an index of Lucene 8 with the SimpleText codec")
    index.add_argument("index", metavar="INDEX")
    index.add_argument("--part-size", type=int, metavar="BYTES", help="cut files into parts of so many bytes")
    log = kinds.add_parser("lines", help="a file with a JSON object a line")
    log.add_argument("file", metavar="FILE")
    log.add_argument("--docs-per-segment", type=int, default=lines.DOCS_PER_SEGMENT, metavar="N",
                     help="the most documents of a segment (default: %(default)s)")
    for kind in (index, log):
        kind.add_argument("out", metavar="OUT")
        kind.add_argument("--name", required=True, metavar="NAME")
    return parser.parse_args(words)


def _pack(arguments):
    if arguments.kind == "lucene":
        return lucene.pack(arguments.index, arguments.out, arguments.name, arguments.part_size)
    docs = arguments.docs_per_segment
    if arguments.file == "-":
        return lines.pack(sys.stdin.buffer, "standard input", arguments.out, arguments.name, docs)
    with open(arguments.file, "rb") as stream:
        return lines.pack(stream, arguments.file, arguments.out, arguments.name, docs)


def main(words):
    """Runs the command that these words ask for, and gives its status."""
    arguments = _parse(words)
    try:
        print(_pack(arguments))
    except (Refused, OSError) as error:
        print("pack: %s" % error, file=sys.stderr)
        return 1
    return 0


if __name__ == "__main__":
    # so that what was begun is taken away
    signal.signal(signal.SIGTERM, lambda *_: sys.exit(143))
    sys.exit(main(sys.argv[1:]))
