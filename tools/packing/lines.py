"""Lines of JSON objects: each becomes a document, whose string members are searched and whose members are stored."""
from __future__ import annotations

import json
import re
import unicodedata
from functools import lru_cache
from typing import BinaryIO, Dict, Iterable, List, Tuple

from packing.archive import MOST_DOCS, Archive, FileWriter, Progress, Refused, base36
from packing.texts import LONGEST, escape

# A segment ends with this many documents where the caller does not say.
DOCS_PER_SEGMENT = 50_000
# A segment ends too once its postings take about this many bytes of memory.
_MOST_HELD = 128 << 20
# What a term and a field take beside that, about.
_TERM_COST = 250
_FIELD_COST = 1_000

_ASCII_TERM = re.compile(r"[A-Za-z0-9]+")
# The lines of a term that stands once, by its position.
_ONCE = [b"      freq 1\n      pos %d\n" % it for it in range(256)]


class Number(str):
    """A JSON number, as it stands in the line."""

    def kind(self) -> str:
        """The smallest kind of Lucene's stored fields that holds it."""
        if not self.lstrip("-").isdigit() or len(self) > 20:
            return "double"
        value = int(self)
        return "int" if -(1 << 31) <= value < 1 << 31 else "long" if -(1 << 63) <= value < 1 << 63 else "double"


@lru_cache(maxsize=None)
def _any_term() -> re.Pattern:
    """Runs of letters and digits. A word of `re` has the other numbers of Unicode too, as fractions are."""
    others = "".join(it for it in map(chr, range(0x110000)) if unicodedata.category(it) in ("Nl", "No"))
    return re.compile(r"[^\W_%s]+" % re.escape(others))


def terms_of(text: str) -> List[str]:
    """The terms of a text: its runs of letters and digits, in lower case."""
    if text.isascii():
        return _ASCII_TERM.findall(text.lower())
    return [it.lower() for it in _any_term().findall(text)]


def _positions_of(terms: List[str]) -> Iterable[Tuple[str, bytes]]:
    """Each of these terms once, with the lines of its frequency and its positions."""
    if len(terms) <= len(_ONCE) and len(set(terms)) == len(terms):
        return zip(terms, _ONCE)
    places: Dict[str, List[int]] = {}
    for place, term in enumerate(terms):
        places.setdefault(term, []).append(place)
    return [
        (term, b"      freq %d\n" % len(of_term) + b"".join([b"      pos %d\n" % it for it in of_term]))
        for term, of_term in places.items()
    ]


def _no_constant(word: str):
    raise ValueError("%s is no JSON" % word)


def object_of(line: bytes) -> Dict[str, object]:
    """The JSON object of a line. Of members with one name the last stands. Raises `ValueError` with what is wrong."""
    text = line.decode("utf-8")
    try:
        value = json.loads(text, parse_int=Number, parse_float=Number, parse_constant=_no_constant)
    except RecursionError:
        raise ValueError("too deep") from None
    if not isinstance(value, dict):
        raise ValueError("not an object")
    return value


def _json_text(value: object) -> str:
    """A value without blanks, its numbers as they stood."""
    if isinstance(value, Number):
        return value
    if isinstance(value, dict):
        return "{%s}" % ",".join("%s:%s" % (_json_text(key), _json_text(it)) for key, it in value.items())
    if isinstance(value, list):
        return "[%s]" % ",".join(map(_json_text, value))
    return json.dumps(value, ensure_ascii=False)


def stored_value(value: object) -> Tuple[str, str]:
    """The kind and the text that a member is stored with: a string as it is, a number as it stands, and any other value
    as a string with its JSON text."""
    if isinstance(value, Number):
        return value.kind(), value
    return "string", value if isinstance(value, str) else _json_text(value)


def _checked(line: bytes) -> bytes:
    if len(line) > LONGEST:
        raise ValueError("it has a member that is longer than %d bytes" % LONGEST)
    return line


class _Segment:
    """A segment that fills: its stored fields are written as documents come, its postings are kept until its end."""

    def __init__(self, archive: Archive, number: int):
        self.docs = 0
        # about how many bytes of memory the postings take
        self.held = 0
        self._archive = archive
        self._name = "_%s" % base36(number)
        self._stored = archive.begin_file(self._name + ".fld")
        # by field and term, the lines of the documents
        self._postings: Dict[str, Dict[str, bytearray]] = {}
        # by field, its number and its line
        self._fields: Dict[str, bytes] = {}

    def add(self, members: Dict[str, object]) -> None:
        """Puts a document behind the others. Raises `ValueError` where a member has no place in the formats."""
        self._store(members)
        for field, value in members.items():
            if type(value) is str:
                self._index(field, value)
        self.docs += 1

    def _store(self, members: Dict[str, object]) -> None:
        lines = [b"doc %d\n" % self.docs]
        for field, value in members.items():
            head = self._fields.get(field)
            if head is None:
                name = _checked(b"    name %s\n" % escape(field.encode()))
                head = self._fields[field] = b"  field %d\n%s" % (len(self._fields), name)
                self.held += 2 * len(name) + _FIELD_COST
            kind, text = stored_value(value)
            lines.append(b"%s    type %s\n" % (head, kind.encode()))
            lines.append(_checked(b"    value %s\n" % escape(text.encode())))
        self._stored.write(b"".join(lines))

    def _index(self, field: str, text: str) -> None:
        terms = terms_of(text)
        if not terms:
            return
        doc = b"    doc %d\n" % self.docs
        of_field = self._postings.setdefault(field, {})
        for term, positions in _positions_of(terms):
            entries = of_field.get(term)
            if entries is None:
                _checked(b"  term %s\n" % term.encode())
                entries = of_field[term] = bytearray()
                self.held += len(term) + _TERM_COST
            entries += doc
            entries += positions
            self.held += len(doc) + len(positions)

    def end(self) -> None:
        """Writes what is left of the segment's files, and puts it into the manifest."""
        _end_text(self._stored)
        stored = self._archive.end_file(self._name + ".fld", self._stored)
        postings = self._archive.begin_file(self._name + ".pst")
        for field in sorted(self._postings):
            postings.write(b"field %s\n" % escape(field.encode()))
            of_field = self._postings[field]
            for term in sorted(of_field):
                postings.write(b"  term %s\n" % term.encode())
                postings.write(of_field[term])
        _end_text(postings)
        self._archive.add_segment(self._name, self.docs, self._archive.end_file(self._name + ".pst", postings), stored)


def _end_text(file: FileWriter) -> None:
    file.write(b"END\n")
    file.write(b"checksum %020d\n" % file.crc)


def pack(stream: BinaryIO, what: str, out: str, name: str, docs_per_segment: int = DOCS_PER_SEGMENT) -> str:
    """Packs lines, which are called `what` where one is refused. Gives a line that says what was written. A line of
    blanks alone is passed over."""
    if not 1 <= docs_per_segment <= MOST_DOCS:
        raise Refused("a segment has 1 to %d documents" % MOST_DOCS)
    progress = Progress()
    with Archive(out, name) as archive:
        segments = number = 0
        segment = None
        for number, line in enumerate(iter(lambda: stream.readline(LONGEST + 1), b""), 1):
            if not line.strip(b" \t\r\n"):
                continue
            if segment is None:
                segment = _Segment(archive, segments)
                segments += 1
            _add_line(segment, line, "%s: line %d" % (what, number))
            if segment.docs == docs_per_segment or segment.held >= _MOST_HELD:
                segment.end()
                segment = None
            progress.say("%d lines, %d segments", number, segments)
        if segment is not None:
            segment.end()
        return archive.publish()


def _add_line(segment: _Segment, line: bytes, where: str) -> None:
    if len(line) > LONGEST:
        raise Refused("%s is longer than %d bytes" % (where, LONGEST))
    try:
        segment.add(object_of(line))
    except UnicodeEncodeError:
        raise Refused("%s is not packed: it has half of a surrogate pair" % where) from None
    except ValueError as error:
        raise Refused("%s is no JSON object that can be packed: %s" % (where, error)) from None
