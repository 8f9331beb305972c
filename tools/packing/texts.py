"""Texts after Lucene SimpleText: their lines and escapes, and what may stand where in postings, stored fields and live
documents. docs/FORMATS.md has the rules in words; a text is bad at the place of its first line that is not allowed."""
from __future__ import annotations

import re
import zlib
from typing import BinaryIO, Callable, Dict, Optional

# The most bytes of a line, its newline counted.
LONGEST = 16_777_216
# The greatest number in a text.
GREATEST = 2_147_483_647

_ESCAPED = re.compile(rb"\\(.)", re.DOTALL)
# What tells the form of a line: blanks, a word and one blank, or END alone.
_FORM = re.compile(rb" *[A-Za-z]+ |END\Z")
_TO_ESCAPE = re.compile(rb"([\n\\])")


def escape(content: bytes) -> bytes:
    """These bytes with a backslash before each newline and each backslash."""
    return _TO_ESCAPE.sub(rb"\\\1", content) if b"\n" in content or b"\\" in content else content


def content_of(line: bytes) -> bytes:
    """A line without its newline and without the backslashes that took a byte."""
    return _ESCAPED.sub(rb"\1", line[:-1]) if b"\\" in line else line[:-1]


def _is_newline_taken(chunk: bytes) -> bool:
    if not chunk.endswith(b"\\\n"):
        return False
    body = chunk[:-1]
    return (len(body) - len(body.rstrip(b"\\"))) % 2 == 1


def read_line(stream: BinaryIO) -> Optional[bytes]:
    """The next line with its newline: no bytes at the end of the text, None where the line is cut off or too long."""
    chunk = stream.readline(LONGEST + 1)
    if chunk[-2:] != b"\\\n" or not _is_newline_taken(chunk):
        return chunk if not chunk or (chunk.endswith(b"\n") and len(chunk) <= LONGEST) else None
    line = bytearray()
    while _is_newline_taken(chunk):
        line += chunk
        chunk = stream.readline(LONGEST + 1 - len(line))
    line += chunk
    return bytes(line) if chunk.endswith(b"\n") and len(line) <= LONGEST else None


def number_of(digits: bytes) -> Optional[int]:
    """The number that 1 to 10 digits stand for, where it is one that a text may have."""
    if not digits.isdigit() or len(digits) > 10:
        return None
    number = int(digits)
    return number if number <= GREATEST else None


class _Table:
    """A kind of text: each form of a line has a method that says whether it may stand here, and moves on.

    `after` is the last form that counted, and `start` in the beginning."""

    def __init__(self, docs: int, forms: Dict[bytes, Callable[[bytes], bool]]):
        self.docs = docs
        self.after = "start"
        self._forms = {b"END": self._end, b"checksum ": self._checksum, **forms}

    def allows(self, content: bytes) -> bool:
        """Whether a line of this content may stand after the earlier ones."""
        found = _FORM.match(content)
        allows = self._forms.get(found.group()) if found else None
        return self._is_passed_over(content) if allows is None else allows(content[found.end():])

    def is_done(self) -> bool:
        """Whether the text may end here."""
        return self.after == "checksum"

    def _is_passed_over(self, content: bytes) -> bool:
        return False

    def _may_end(self) -> bool:
        raise NotImplementedError

    def _go(self, is_allowed: bool, form: str) -> bool:
        self.after = form
        return is_allowed

    def _end(self, _rest: bytes) -> bool:
        return self._go(self._may_end(), "end")

    def _checksum(self, rest: bytes) -> bool:
        return self._go(self.after == "end" and len(rest) == 20 and rest.isdigit(), "checksum")


class Postings(_Table):
    """The lines of postings."""

    def __init__(self, docs: int):
        super().__init__(docs, {
            b"field ": self._field,
            b"  term ": self._term,
            b"    doc ": self._doc,
            b"      freq ": self._freq,
            b"      pos ": self._pos,
            b"      startOffset ": self._start_offset,
            b"      endOffset ": self._end_offset,
            b"        payload ": self._payload,
        })
        self._fields = set()
        self._last_term: Optional[bytes] = None
        self._last_doc = -1
        self._last_position = 0
        # how many positions of the document are still to come
        self._left = 0

    def _is_passed_over(self, content: bytes) -> bool:
        return self.after not in ("start", "field", "end", "checksum") and content.startswith(b"    ")

    def _is_position_whole(self) -> bool:
        return self.after in ("pos", "endOffset", "payload")

    def _is_document_whole(self) -> bool:
        return self.after in ("doc", "freq") or (self._is_position_whole() and self._left == 0)

    def _may_end(self) -> bool:
        return self.after in ("start", "field", "term") or self._is_document_whole()

    def _field(self, name: bytes) -> bool:
        is_allowed = self._may_end() and name not in self._fields
        self._fields.add(name)
        self._last_term = None
        return self._go(is_allowed, "field")

    def _term(self, term: bytes) -> bool:
        is_above = self._last_term is None or self._last_term < term
        is_allowed = (self.after in ("field", "term") or self._is_document_whole()) and is_above
        self._last_term = term
        self._last_doc = -1
        return self._go(is_allowed, "term")

    def _doc(self, digits: bytes) -> bool:
        doc = number_of(digits)
        if doc is None or not self._last_doc < doc < self.docs:
            return False
        is_allowed = self.after == "term" or self._is_document_whole()
        self._last_doc = doc
        self._last_position = 0
        return self._go(is_allowed, "doc")

    def _freq(self, digits: bytes) -> bool:
        self._left = number_of(digits) or 0
        return self._go(self.after == "doc" and self._left >= 1, "freq")

    def _pos(self, digits: bytes) -> bool:
        position = number_of(digits)
        if position is None or position < self._last_position or self._left == 0:
            return False
        is_allowed = self.after == "freq" or self._is_position_whole()
        self._last_position = position
        self._left -= 1
        return self._go(is_allowed, "pos")

    def _start_offset(self, digits: bytes) -> bool:
        return self._go(self.after == "pos" and number_of(digits) is not None, "startOffset")

    def _end_offset(self, digits: bytes) -> bool:
        return self._go(self.after == "startOffset" and number_of(digits) is not None, "endOffset")

    def _payload(self, _payload: bytes) -> bool:
        return self._go(self.after in ("pos", "endOffset"), "payload")


class Stored(_Table):
    """The lines of stored fields."""

    KINDS = (b"string", b"binary", b"int", b"long", b"float", b"double")

    def __init__(self, docs: int):
        super().__init__(docs, {
            b"doc ": self._doc,
            b"  field ": self._field,
            b"    name ": lambda _: self._go(self.after == "field", "name"),
            b"    type ": lambda kind: self._go(self.after == "name" and kind in self.KINDS, "type"),
            b"    value ": lambda _: self._go(self.after == "type", "value"),
        })
        self._count = 0

    def _may_begin(self) -> bool:
        return self.after in ("start", "doc", "value")

    def _may_end(self) -> bool:
        return self._may_begin() and self._count == self.docs

    def _doc(self, digits: bytes) -> bool:
        is_allowed = self._may_begin() and number_of(digits) == self._count and self._count < self.docs
        self._count += 1
        return self._go(is_allowed, "doc")

    def _field(self, digits: bytes) -> bool:
        return self._go(self.after in ("doc", "value") and number_of(digits) is not None, "field")


class Live(_Table):
    """The lines of live documents."""

    def __init__(self, docs: int):
        super().__init__(docs, {b"size ": self._size, b"  doc ": self._doc})
        self._last_doc = -1

    def _may_end(self) -> bool:
        return self.after in ("size", "doc")

    def _size(self, digits: bytes) -> bool:
        return self._go(self.after == "start" and number_of(digits) == self.docs, "size")

    def _doc(self, digits: bytes) -> bool:
        doc = number_of(digits)
        if doc is None or not self._last_doc < doc < self.docs:
            return False
        self._last_doc = doc
        return self._go(self._may_end(), "doc")


class Read:
    """What reading a whole text found: the place of its first bad line, or None, and whether its checksum is the CRC-32
    of the bytes before that line, as Lucene writes it."""

    def __init__(self, bad: Optional[int], checksum_at: int = 0, is_checksum_right: bool = True):
        self.bad = bad
        self.checksum_at = checksum_at
        self.is_checksum_right = is_checksum_right


def read_text(stream: BinaryIO, table: _Table, on_lines: Callable[[int], None] = lambda at: None) -> Read:
    """Reads a text to its end, or to its first line that the table does not allow. Calls `on_lines` with the place that
    it has come to, each 1,024 lines."""
    at = checksum_at = crc = count = 0
    written = None
    while True:
        line = read_line(stream)
        if line is None:
            return Read(at)
        if not line:
            return Read(None, checksum_at, written == crc) if table.is_done() else Read(at)
        content = content_of(line)
        if not table.allows(content):
            return Read(at)
        if table.is_done():
            checksum_at, written = at, int(content[-20:])
        else:
            crc = zlib.crc32(line, crc)
        at += len(line)
        count += 1
        if count % 1024 == 0:
            on_lines(at)
