"""The archive that is written: blobs and one manifest, which come into their folder at the end, or not at all."""
from __future__ import annotations

import json
import os
import re
import shutil
import sys
import tempfile
import time
import zlib
from typing import List, Optional

# The limits of a manifest, as docs/FORMATS.md has them.
MOST_FILES = 4_096
LONGEST_FILE = 1_099_511_623_680
MOST_PARTS = 1_048_576
MOST_SEGMENTS = 1_024
MOST_DOCS = 16_777_216
LONGEST_MANIFEST = 16_777_216
MOST_MANIFESTS = 65_536

_NAME = re.compile(r"[A-Za-z0-9._-]{1,128}")
_PIECE = 1 << 20


class Refused(Exception):
    """An input that is not packed, with a sentence that says why."""


class Progress:
    """Lines on standard error that say how far the work is, one in five seconds at most."""

    SECONDS = 5

    def __init__(self):
        self._next = time.monotonic() + self.SECONDS

    def say(self, text: str, *values: object) -> None:
        """Writes the text, with the values in it, where it is time for a line."""
        now = time.monotonic()
        if now >= self._next:
            print("pack: " + text % values, file=sys.stderr, flush=True)
            self._next = now + self.SECONDS


def base36(number: int) -> str:
    """A number as Lucene writes it into names: in digits and lower-case letters."""
    digits = ""
    while True:
        number, digit = divmod(number, 36)
        digits = "0123456789abcdefghijklmnopqrstuvwxyz"[digit] + digits
        if number == 0:
            return digits


def parts_of(length: int, part_size: Optional[int]) -> int:
    """How many part blobs a file of so many bytes has."""
    return 1 if part_size is None else max(1, -(-length // part_size))


class FileWriter:
    """A file of the archive, written as its part blobs."""

    def __init__(self, folder: str, name: str, part_size: Optional[int]):
        self.length = 0
        # the CRC-32 of the bytes so far
        self.crc = 0
        self._path = os.path.join(folder, name)
        self._part_size = part_size
        self._parts = 0
        self._room = 0
        self._blob = None
        self._begin_part()

    def write(self, data: bytes) -> None:
        """Puts bytes behind those that were written."""
        self.length += len(data)
        self.crc = zlib.crc32(data, self.crc)
        if self._part_size is None:
            self._blob.write(data)
            return
        rest = memoryview(data)
        while rest:
            if self._room == 0:
                self._blob.close()
                self._begin_part()
            piece = rest[:self._room]
            self._blob.write(piece)
            self._room -= len(piece)
            rest = rest[len(piece):]

    def close(self) -> None:
        """Ends the file. A file of one part has its blob under the file's own name."""
        self._blob.close()
        if self._part_size is not None and self._parts == 1:
            os.rename(self._path + ".part0", self._path)

    def _begin_part(self) -> None:
        path = self._path if self._part_size is None else "%s.part%d" % (self._path, self._parts)
        self._blob = open(path, "xb", _PIECE)
        self._parts += 1
        self._room = self._part_size or 0


class Archive:
    """An archive of one manifest, `mount-NAME`, for a folder that may hold other ones.

    Used with `with`: blobs are written into a hidden folder, which lies beside OUT, or in OUT where that is there
    already. `publish` moves them into OUT, the manifest last. Without it OUT stays as it was."""

    def __init__(self, out: str, name: str):
        if not _NAME.fullmatch(name):
            raise Refused("a name is 1 to 128 letters, digits, '-', '_' and '.': %s" % name)
        self._out = os.path.abspath(out)
        self._name = name
        self._manifest = "mount-" + name
        self._folder = ""
        self._files: List[dict] = []
        self._segments: List[dict] = []
        self._parts = 0
        self._bytes = 0
        self._check_out()

    def __enter__(self) -> Archive:
        beside = self._out if os.path.isdir(self._out) else os.path.dirname(self._out)
        self._folder = tempfile.mkdtemp(prefix=".pack-", dir=beside)
        return self

    def __exit__(self, *_error) -> None:
        shutil.rmtree(self._folder, ignore_errors=True)

    def begin_file(self, physical_name: str, part_size: Optional[int] = None) -> FileWriter:
        """A new file, for `end_file` once it is written."""
        return FileWriter(self._folder, self._blob_name(physical_name), part_size)

    def end_file(self, physical_name: str, file: FileWriter, part_size: Optional[int] = None) -> str:
        """Ends a file and puts it into the manifest. Gives its physical name."""
        file.close()
        self._parts += parts_of(file.length, part_size)
        self._bytes += file.length
        check_limit("files", len(self._files) + 1, MOST_FILES)
        check_limit("bytes of the file " + physical_name, file.length, LONGEST_FILE)
        check_limit("parts", self._parts, MOST_PARTS)
        record = {"name": self._blob_name(physical_name), "physical_name": physical_name, "length": file.length}
        if part_size is not None:
            record["part_size"] = part_size
        self._files.append(record)
        return physical_name

    def add_segment(self, name: str, docs: int, postings: str, stored: str, live: Optional[str] = None) -> None:
        """Puts a segment into the manifest, with the physical names of its files."""
        check_limit("segments", len(self._segments) + 1, MOST_SEGMENTS)
        check_limit("documents of the segment " + name, docs, MOST_DOCS)
        segment = {"name": name, "docs": docs, "postings": postings, "stored": stored}
        if live is not None:
            segment["live"] = live
        self._segments.append(segment)

    def publish(self) -> str:
        """Writes the manifest and moves all into OUT. Gives a line that says what was written."""
        text = json.dumps({"version": 1, "files": self._files, "segments": self._segments}, separators=(",", ":"))
        check_limit("bytes of the manifest", len(text), LONGEST_MANIFEST)
        with open(os.path.join(self._folder, self._manifest), "x") as manifest:
            manifest.write(text)
        self._check_out()
        if os.path.isdir(self._out):
            self._move_blobs()
        else:
            self._move_folder()
        docs = sum(it["docs"] for it in self._segments)
        counts = (len(self._segments), docs, len(self._files), self._bytes)
        return self._manifest + ": %d segments, %d documents, %d files, %d bytes" % counts

    def _blob_name(self, physical_name: str) -> str:
        return "__%s-%s" % (self._name, physical_name)

    def _check_out(self) -> None:
        if os.path.lexists(self._out) and not os.path.isdir(self._out):
            raise Refused("%s is no folder" % self._out)
        if not os.path.isdir(os.path.dirname(self._out)):
            raise Refused("%s is no folder" % os.path.dirname(self._out))
        there = os.listdir(self._out) if os.path.isdir(self._out) else []
        if self._manifest in there:
            raise Refused("%s holds the manifest %s already" % (self._out, self._manifest))
        taken = sorted(set(there).intersection(os.listdir(self._folder) if self._folder else []))
        if taken:
            raise Refused("%s holds a blob %s already" % (self._out, taken[0]))
        check_limit("manifests of the folder", sum(it.startswith("mount-") for it in there) + 1, MOST_MANIFESTS)

    def _move_blobs(self) -> None:
        # a reader finds no blob of this archive before its manifest is there
        names = sorted(it for it in os.listdir(self._folder) if it != self._manifest) + [self._manifest]
        moved = []
        try:
            for name in names:
                os.rename(os.path.join(self._folder, name), os.path.join(self._out, name))
                moved.append(name)
        except BaseException:
            for name in moved:
                os.unlink(os.path.join(self._out, name))
            raise

    def _move_folder(self) -> None:
        mask = os.umask(0)
        os.umask(mask)
        os.chmod(self._folder, 0o777 & ~mask)
        os.rename(self._folder, self._out)


def check_limit(what: str, value: int, limit: int) -> None:
    """Refuses a value above a limit of the manifest."""
    if value > limit:
        raise Refused("%d %s are more than the %d that a manifest may have" % (value, what, limit))
