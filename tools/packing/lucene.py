"""Indexes that Lucene 8 wrote with its SimpleText codec: their segments, found by the newest segments file."""
from __future__ import annotations

import io
import os
import re
import struct
import zlib
from typing import BinaryIO, Dict, List, NamedTuple, Optional, Tuple

from packing import texts
from packing.archive import LONGEST_FILE, MOST_DOCS, MOST_FILES, MOST_PARTS, MOST_SEGMENTS, Archive, Progress, Refused
from packing.archive import base36, check_limit, parts_of

_HEADER = 0x3FD76C17
_FOOTER = 0xC02893E8
# The forms of a segments file that Lucene 8 writes: since 8.0, and since 8.6, where segments have an id of their own.
_OLD_FORM, _NEW_FORM = 9, 10
_SEGMENT_NAME = re.compile(r"_[0-9a-z]{1,13}")
_PIECE = 1 << 20

_OTHER_CODEC = (
    "segment %s is written with the codec %s, and only SimpleText is read. Write the index anew into another folder: "
    "IndexWriterConfig.setCodec(new SimpleTextCodec()) of lucene-codecs 8, and then IndexWriter.addDocument for each "
    "document, or addIndexes with the readers of this index"
)
_OTHER_VERSION = (
    "%s is of Lucene %s, and only Lucene 8 is read. Write the index anew with Lucene 8 and its SimpleTextCodec"
)


class _Bytes:
    """The values of a binary file of Lucene 8, one after the other, high bytes first."""

    def __init__(self, name: str, data: bytes):
        self.name = name
        self.at = 0
        self._data = data

    def take(self, count: int) -> bytes:
        if count > len(self._data) - self.at:
            raise Refused("%s is no segments file of Lucene: it ends at byte %d" % (self.name, len(self._data)))
        self.at += count
        return self._data[self.at - count:self.at]

    def int32(self) -> int:
        return struct.unpack(">i", self.take(4))[0]

    def int64(self) -> int:
        return struct.unpack(">q", self.take(8))[0]

    def variable(self) -> int:
        """A number in groups of seven bits, low ones first."""
        value = shift = 0
        while True:
            byte = self.take(1)[0]
            value |= (byte & 127) << shift
            if byte < 128:
                return value
            shift += 7

    def text(self) -> str:
        return self.take(self.variable()).decode("utf-8", "replace")

    def skip_texts(self) -> None:
        for _ in range(self.variable()):
            self.text()


class _Commit(NamedTuple):
    """A segment as a commit has it; the generation of its live documents is -1 where none was deleted."""

    name: str
    codec: str
    live_generation: int


def _newest_segments_file(index: str) -> str:
    names = [it for it in os.listdir(index) if re.fullmatch(r"segments_[0-9a-z]{1,13}", it)]
    if not names:
        raise Refused("%s is no index of Lucene: it has no file segments_N" % index)
    return max(names, key=lambda it: int(it[len("segments_"):], 36))


def read_commit(index: str) -> List[_Commit]:
    """The segments of an index's newest commit, in order."""
    name = _newest_segments_file(index)
    with open(os.path.join(index, name), "rb") as file:
        data = file.read()
    source = _Bytes(name, data)
    form = _read_header(source)
    if len(data) < 16 or struct.unpack(">Iiq", data[-16:]) != (_FOOTER, 0, zlib.crc32(data[:-8])):
        raise Refused("%s is damaged: its checksum is not that of its bytes" % name)
    version = [source.variable() for _ in range(3)]
    if version[0] != 8:
        raise Refused(_OTHER_VERSION % (name, ".".join(map(str, version))))
    source.variable()  # the major version that made the index
    source.int64()  # how often the index has changed
    source.variable()  # the number of the next segment's name
    count = source.int32()
    check_limit("segments", count, MOST_SEGMENTS)
    for _ in range(3 if count > 0 else 0):
        source.variable()  # the least version that wrote a segment
    return [_read_segment(source, form) for _ in range(count)]


def _read_header(source: _Bytes) -> int:
    if source.int32() != _HEADER or source.text() != "segments":
        raise Refused("%s is no segments file of Lucene 8" % source.name)
    form = source.int32()
    if form not in (_OLD_FORM, _NEW_FORM):
        raise Refused("%s has the form %d, which Lucene 8 does not write" % (source.name, form))
    source.take(16)  # the commit's id
    source.take(source.take(1)[0])  # its generation
    return form


def _read_segment(source: _Bytes, form: int) -> _Commit:
    name = source.text()
    source.take(16)  # its id
    codec = source.text()
    live_generation = source.int64()
    source.int32()  # how many documents were deleted
    source.int64()  # the generation of field infos
    source.int64()  # the generation of doc values
    source.int32()  # how many documents were deleted softly, which a search finds
    if form == _NEW_FORM and source.take(1)[0] == 1:
        source.take(16)  # the id of this state of the segment
    source.skip_texts()  # the files of field infos
    for _ in range(source.int32()):
        source.int32()  # a field whose doc values were changed, and its files
        source.skip_texts()
    if not _SEGMENT_NAME.fullmatch(name):
        raise Refused("%s has a segment whose name is none of Lucene's: %r" % (source.name, name))
    return _Commit(name, codec, live_generation)


class _Slice(io.RawIOBase):
    """Some bytes of a file, as a file."""

    def __init__(self, path: str, start: int, length: int):
        self._file = open(path, "rb", 0)
        self._file.seek(start)
        self._left = length

    def readable(self) -> bool:
        return True

    def readinto(self, out) -> int:
        room = memoryview(out)[:self._left]
        count = self._file.readinto(room)
        self._left -= count
        return count

    def close(self) -> None:
        self._file.close()
        super().close()


class _Place(NamedTuple):
    """Where a file of a segment stands: a file of the index, or a range of its compound file."""

    path: str
    start: int
    length: int

    def open(self) -> BinaryIO:
        return io.BufferedReader(_Slice(self.path, self.start, self.length), _PIECE)


class _Segment(NamedTuple):
    """A segment and its files, each a physical name and a place."""

    name: str
    docs: int
    files: List[Tuple[str, _Place]]


def _whole_file(index: str, name: str) -> Optional[_Place]:
    path = os.path.join(index, name)
    return _Place(path, 0, os.path.getsize(path)) if os.path.isfile(path) else None


def _needed(place: Optional[_Place], name: str) -> _Place:
    if place is None:
        raise Refused("the index lacks the file %s" % name)
    return place


def _read_segment_info(place: _Place, name: str) -> Tuple[int, bool]:
    """How many documents a segment has, and whether it has a compound file."""
    at = 0
    found = []
    with place.open() as stream:
        for form in (rb"    version [0-9.]+", rb"    min version .*", rb"    number of documents ([0-9]{1,10})",
                     rb"    uses compound file (true|false)"):
            line = texts.read_line(stream)
            match = re.fullmatch(form, texts.content_of(line)) if line else None
            if match is None:
                raise Refused("%s: the line at byte %d is not allowed" % (name, at))
            found.append(match)
            at += len(line)
    return int(found[2].group(1)), found[3].group(1) == b"true"


def _compound_places(place: _Place, name: str) -> Dict[str, _Place]:
    """The places of the files in a compound file. Its last line says where its table of them begins."""
    with open(place.path, "rb") as file:
        file.seek(max(0, place.length - 64))
        last = re.search(rb"table of contents begins at offset: ([0-9]{19})\n\Z", file.read())
        begin = min(int(last.group(1)), place.length) if last else place.length
        file.seek(begin)
        table = file.read().decode("utf-8", "replace")
    found = re.findall(r"\n  filename: (\S+)\n    start: ([0-9]{1,19})\n    end: ([0-9]{1,19})(?=\n)", table)
    places = {it: _Place(place.path, int(start), int(end) - int(start)) for it, start, end in found}
    if not table.startswith("table of contents, size: %d\n" % len(found)) or len(places) < len(found):
        raise Refused("%s: the table at byte %d is not allowed" % (name, begin))
    for it, (_, start, length) in places.items():
        if length < 0 or start + length > begin:
            raise Refused("%s: the file %s does not lie in it" % (name, it))
    return places


def _find_segment(index: str, commit: _Commit) -> _Segment:
    """A segment's document count and the files of it that are packed."""
    name = commit.name
    if commit.codec != "SimpleText":
        raise Refused(_OTHER_CODEC % (name, commit.codec))
    info = _needed(_whole_file(index, name + ".si"), name + ".si")
    docs, is_compound = _read_segment_info(info, name + ".si")
    check_limit("documents of the segment " + name, docs, MOST_DOCS)
    within: Dict[str, _Place] = {}
    if is_compound:
        within = _compound_places(_needed(_whole_file(index, name + ".scf"), name + ".scf"), name + ".scf")
    files = [(name + ".si", info)]
    for physical_name in (name + ".pst", name + ".fld"):
        place = within.get(physical_name) if is_compound else _whole_file(index, physical_name)
        # a segment none of whose fields is searched has no postings
        if place is not None or physical_name.endswith(".fld"):
            files.append((physical_name, _needed(place, physical_name)))
    if commit.live_generation != -1:
        live = "%s_%s.liv" % (name, base36(commit.live_generation))
        files.append((live, _needed(_whole_file(index, live), live)))
    return _Segment(name, docs, files)


def _check_form(physical_name: str, place: _Place, docs: int, progress: Progress) -> None:
    """Refuses a text that the formats do not allow, by its first line that is not."""
    tables = {".pst": texts.Postings, ".fld": texts.Stored, ".liv": texts.Live}
    table = tables.get(os.path.splitext(physical_name)[1])
    if table is None:
        return
    say = lambda at: progress.say("%s: %d of %d bytes checked", physical_name, at, place.length)
    with place.open() as stream:
        read = texts.read_text(stream, table(docs), say)
    if read.bad is not None:
        raise Refused("%s: the line at byte %d is not allowed" % (physical_name, read.bad))
    if not read.is_checksum_right:
        at = read.checksum_at
        raise Refused("%s: the checksum at byte %d is not that of the bytes before it" % (physical_name, at))


def _copy(archive: Archive, physical_name: str, place: _Place, part_size: Optional[int]) -> str:
    file = archive.begin_file(physical_name, part_size)
    with place.open() as stream:
        for piece in iter(lambda: stream.read(_PIECE), b""):
            file.write(piece)
    if file.length != place.length:
        raise Refused("%s changed while it was read" % physical_name)
    return archive.end_file(physical_name, file, part_size)


def _write_no_postings(archive: Archive, physical_name: str) -> str:
    text = b"END\n"
    file = archive.begin_file(physical_name)
    file.write(text + b"checksum %020d\n" % zlib.crc32(text))
    return archive.end_file(physical_name, file)


def pack(index: str, out: str, name: str, part_size: Optional[int] = None) -> str:
    """Packs an index's newest commit, byte for byte, in parts of `part_size` bytes where that is given. Gives a line
    that says what was written. Nothing is written where an input is refused."""
    if not os.path.isdir(index):
        raise Refused("%s is no folder" % index)
    if part_size is not None and part_size < 1:
        raise Refused("a part has at least 1 byte")
    progress = Progress()
    archive = Archive(out, name)
    segments = [_find_segment(index, it) for it in read_commit(index)]
    places = [(file, segment.docs) for segment in segments for file in segment.files]
    check_limit("files", len(places), MOST_FILES)
    for (physical_name, place), _ in places:
        check_limit("bytes of the file " + physical_name, place.length, LONGEST_FILE)
    check_limit("parts", sum(parts_of(place.length, part_size) for (_, place), _ in places), MOST_PARTS)
    for (physical_name, place), docs in places:
        _check_form(physical_name, place, docs, progress)
    with archive:
        for segment in segments:
            _pack_segment(archive, segment, part_size, progress)
        return archive.publish()


def _pack_segment(archive: Archive, segment: _Segment, part_size: Optional[int], progress: Progress) -> None:
    names = {}
    for physical_name, place in segment.files:
        progress.say("%s is copied", physical_name)
        names[os.path.splitext(physical_name)[1]] = _copy(archive, physical_name, place, part_size)
    postings = names.get(".pst") or _write_no_postings(archive, segment.name + ".pst")
    archive.add_segment(segment.name, segment.docs, postings, names[".fld"], names.get(".liv"))
