#!/usr/bin/env python3
"""Tests of tools/pack.py: what it packs is read again by a reader of its own, and searched by the program.

    tools/test_pack.py [PROGRAM]

PROGRAM is the built mount_tool. Where it is not given, crates/mount_tool/out/mount_tool is taken, and where that is not
built the tests that search are skipped; so is the test that lets Lucene write an index where Lucene is not installed.
"""
import base64
import glob
import io
import json
import os
import random
import re
import shutil
import struct
import subprocess
import sys
import tempfile
import unittest
import unicodedata
import zlib
from contextlib import redirect_stderr, redirect_stdout
from unittest import mock

import pack
from packing import archive, lines, lucene, texts

HERE = os.path.dirname(os.path.abspath(__file__))
TOP = os.path.dirname(HERE)
INDEX = os.path.join(HERE, "data", "index")
BUILT = os.path.join(TOP, "crates", "mount_tool", "out", "mount_tool")
LUCENE = sorted(glob.glob("/usr/share/java/lucene-*-8.*.jar"))
PACKED = ("_0.si", "_0.pst", "_0.fld", "_0_1.liv", "_1.si", "_1.pst", "_1.fld")

# The program, where it is there.
program = None

END = b"END\nchecksum 00000000000000000000\n"
WORKED = (b"field body\n  term fox\n    doc 0\n      freq 1\n      pos 1\n    doc 2\n      freq 1\n      pos 0\n"
          b"  term red\n    doc 0\n      freq 1\n      pos 0\n" + END)
STORED = (b"doc 0\n  field 0\n    name title\n    type string\n    value red fox\ndoc 1\ndoc 2\n" + END)
DOCUMENT = b"field a\n  term b\n    doc 0\n"
POSITION = DOCUMENT + b"      freq 1\n      pos 1\n"
LIVE = b"size 3\n  doc 0\n  doc 2\n" + END


def lines_of(text):
    """The contents of a text's lines, by a reading of its own."""
    return [re.sub(rb"(?s)\\(.)", rb"\1", it[:-1]) for it in re.findall(rb"(?s)(?:[^\\\n]|\\.)*\n", text)]


def rows_of(text):
    """The documents of each field and term of a postings text, with their positions."""
    rows = {}
    for it in lines_of(text):
        if it.startswith(b"field "):
            field = it[6:]
        elif it.startswith(b"  term "):
            documents = rows.setdefault((field, it[7:]), {})
        elif it.startswith(b"    doc "):
            positions = documents.setdefault(int(it[8:]), [])
        elif it.startswith(b"      pos "):
            positions.append(int(it[10:]))
    return rows


def fields_of(text):
    """For each document of a text of stored fields, its fields: name, kind and value."""
    documents = []
    for it in lines_of(text):
        if it.startswith(b"doc "):
            documents.append([])
        elif it.startswith(b"    name "):
            name = it[9:]
        elif it.startswith(b"    type "):
            kind = it[9:].decode()
        elif it.startswith(b"    value "):
            documents[-1].append((name, kind, it[10:]))
    return documents


class Packed:
    """An archive in a folder, read without the program."""

    def __init__(self, folder, name):
        self.folder = folder
        with open(os.path.join(folder, "mount-" + name), "rb") as manifest:
            self.manifest = json.load(manifest)
        self.files = {it["physical_name"]: it for it in self.manifest["files"]}

    def bytes_of(self, physical_name):
        """A file's bytes, joined from its parts."""
        file = self.files[physical_name]
        count = max(1, -(-file["length"] // file.get("part_size", max(1, file["length"]))))
        blobs = [file["name"]] if count == 1 else ["%s.part%d" % (file["name"], k) for k in range(count)]
        data = b""
        for blob in blobs:
            with open(os.path.join(self.folder, blob), "rb") as stream:
                data += stream.read()
        assert len(data) == file["length"], physical_name
        return data

    def segments(self):
        """For each segment its name, its count of documents, its postings, stored fields and live documents."""
        for it in self.manifest["segments"]:
            live = set(range(it["docs"]))
            if "live" in it:
                numbers = re.findall(rb"  doc ([0-9]+)", self.bytes_of(it["live"]))
                live = set(map(int, numbers))
            postings, stored = self.bytes_of(it["postings"]), self.bytes_of(it["stored"])
            yield it["name"], it["docs"], rows_of(postings), fields_of(stored), live

    def hits(self):
        """The hits of each field and term."""
        found = {}
        for name, _, rows, _, live in self.segments():
            for key, documents in rows.items():
                found.setdefault(key, []).extend("%s/%d" % (name, doc) for doc in documents if doc in live)
        return found


def hits_line(hits):
    """The line that the program writes for these hits."""
    return "".join(["hits %d" % len(hits)] + [" " + it for it in hits]) + "\n"


def term_of_lucene(line):
    """The field and the term of a line of SearchIndex, and its hits."""
    _, field, term, *hits = line.split(" ")
    return (base64.b64decode(field), base64.b64decode(term)), hits


def stored_of_lucene(line):
    """The document of a line of SearchIndex, and its fields."""
    _, place, *fields = line.split(" ")
    parts = [it.split(":") for it in fields]
    return place, [(base64.b64decode(name), kind, base64.b64decode(value)) for name, kind, value in parts]


def tree_of(folder):
    """Every file below a folder, with its bytes."""
    found = {}
    for at, folders, names in os.walk(folder):
        for name in folders:
            found[os.path.join(at, name)] = None
        for name in names:
            with open(os.path.join(at, name), "rb") as file:
                found[os.path.join(at, name)] = file.read()
    return found


class PackTest(unittest.TestCase):
    """A folder for each test, and calls of the tool and the program."""

    def setUp(self):
        room = tempfile.TemporaryDirectory()
        self.addCleanup(room.cleanup)
        self.room = room.name
        self.out = os.path.join(self.room, "out")
        # a slow machine says nothing of how far it is
        quiet = mock.patch.object(archive.Progress, "SECONDS", 3600)
        quiet.start()
        self.addCleanup(quiet.stop)

    def run_pack(self, *words):
        """The status of the tool for these words, what it printed, and what it said on standard error."""
        printed, said = io.StringIO(), io.StringIO()
        with redirect_stdout(printed), redirect_stderr(said):
            status = pack.main(list(words))
        return status, printed.getvalue(), said.getvalue()

    def pack(self, *words):
        status, printed, said = self.run_pack(*words)
        self.assertEqual((status, said), (0, ""))
        return printed

    def refuse(self, *words, why):
        """Runs the tool, which refuses these words with this on standard error, and leaves the folder as it was."""
        before = tree_of(self.room)
        status, printed, said = self.run_pack(*words)
        self.assertEqual((status, printed), (1, ""))
        self.assertIn(why, said)
        self.assertEqual(tree_of(self.room), before)

    def write(self, name, data):
        path = os.path.join(self.room, name)
        with open(path, "wb") as file:
            file.write(data if isinstance(data, bytes) else data.encode())
        return path

    def index(self):
        """A copy of the small index."""
        return shutil.copytree(INDEX, os.path.join(self.room, "index"))

    def search(self, folder, manifest, field, term):
        """What the program writes for a term."""
        words = [self.program(), folder, "-", "term", manifest, field, term]
        return subprocess.run(words, stdout=subprocess.PIPE, check=False).stdout.decode()

    def program(self):
        if program is None:
            self.skipTest("mount_tool is not built (crates/mount_tool/out/mount_tool)")
        return program


# Texts for a number of documents. A ^ stands before the first line that is not allowed; without one all are.
POSTINGS_ROWS = [
    (3, WORKED),
    (2, WORKED.replace(b"    doc 2", b"^    doc 2")),
    (3, b"END\nchecksum 00000000000000000007\n"),
    (3, b"^"),
    (3, b"END\n^"),
    (3, b"END\n^checksum 0000000000000000000\n"),
    (3, b"END\n^checksum 000000000000000000000\n"),
    (3, END + b"^\n"),
    (3, END + b"^x"),
    (3, b"^END \n"),
    (3, b"^\n"),
    (3, b"^  term a\n"),
    (3, b"field a\nfield b\n^field a\n"),
    (3, b"field a\n^    doc 0\n"),
    (3, b"field a\n  term b\n^  term b\n"),
    (3, b"field a\n  term b\n^  term a\n"),
    (3, b"field a\n  term b\nfield c\n  term a\n" + END),
    (3, b"field a\n  term \x7f\n  term \xc3\xa9\n" + END),
    (3, b"field a\n  term b\\\n  term c\\\\\n  term d\n" + END),
    (3, b"field a\n  term b\n    doc 1\n^    doc 1\n"),
    (3, b"field a\n  term b\n^    doc 3\n"),
    (3, b"field a\n  term b\n^    doc x\n"),
    (3, b"field a\n  term b\n^    doc \n"),
    (3, b"field a\n  term b\n    doc 0000000002\n" + END),
    (3, b"field a\n  term b\n^    doc 00000000002\n"),
    (3, b"field a\n  term b\n^      freq 1\n"),
    (3, DOCUMENT + b"^      freq 0\n"),
    (3, DOCUMENT + b"      freq 2147483647\n" + END),
    (3, DOCUMENT + b"^      freq 2147483648\n"),
    (3, DOCUMENT + b"      freq 2\n    doc 1\n" + END),
    (3, DOCUMENT + b"^      pos 0\n"),
    (3, DOCUMENT + b"      freq 2\n    doc 1\n^      pos 0\n"),
    (3, DOCUMENT + b"      freq 2\n      pos 1\n^    doc 1\n"),
    (3, DOCUMENT + b"      freq 2\n      pos 1\n^END\n"),
    (3, DOCUMENT + b"      freq 2\n      pos 1\n^      pos 0\n"),
    (3, DOCUMENT + b"      freq 2\n      pos 1\n      pos 1\n" + END),
    (3, POSITION + b"^      pos 1\n"),
    (3, POSITION + b"      startOffset 3\n^" + END),
    (3, POSITION + b"      startOffset 3\n      endOffset 4\n        payload \n" + END),
    (3, POSITION + b"        payload x\\\ny\n" + END),
    (3, POSITION + b"        payload x\n^        payload x\n"),
    (3, POSITION + b"        payload x\n^      startOffset 3\n"),
    (3, POSITION + b"^      endOffset 3\n"),
    (3, POSITION + b"      startOffset 3\n^        payload x\n"),
    (3, b"field a\n  term b\n    skip\n    doc 0\n    skip\n      freq 1\n    skip\n      pos 1\n    skip\n"
        b"        payload x\n    skip\n" + END),
    (3, b"field a\n^    skip\n"),
    (3, b"field a\n  term b\n^   skip\n"),
    (3, b"field a\n  term b\nEND\n^    skip\n"),
    (3, b"field a\n^  term b\\\n"),
    (3, b"\\field a\n" + END),
]

STORED_ROWS = [
    (3, STORED),
    (2, STORED.replace(b"doc 2", b"^doc 2")),
    (4, STORED.replace(b"END", b"^END")),
    (0, END),
    (1, b"^" + END),
    (1, b"^doc 1\n"),
    (2, b"doc 0\n^doc 0\n"),
    (1, b"^  field 0\n"),
    (1, b"doc 0\n^    name a\n"),
    (1, b"doc 0\n^  field x\n"),
    (1, b"doc 0\n  field 0\n^" + END),
    (1, b"doc 0\n  field 0\n    name a\n^    value b\n"),
    (1, b"doc 0\n  field 0\n    name a\n^    type text\n"),
    (1, b"doc 0\n  field 0\n    name a\n    type int\n^" + END),
    (1, b"doc 0\n  field 0\n    name \n    type double\n    value \n" + END),
    (1, b"doc 0\n  field 0\n    name a\\\nb\n    type binary\n    value c\\\\\n" + END),
    (1, b"doc 0\n^    skip\n"),
    (1, b"doc 0\n" + END + b"^doc 1\n"),
]

LIVE_ROWS = [
    (3, LIVE),
    (2, b"^" + LIVE),
    (4, b"^" + LIVE),
    (3, b"size 3\n" + END),
    (3, b"size 3\n^size 3\n"),
    (3, b"size 3\n  doc 2\n^  doc 0\n"),
    (3, b"size 3\n  doc 2\n^  doc 2\n"),
    (3, b"size 3\n^  doc 3\n"),
    (3, b"size 3\n^  doc x\n"),
    (3, b"^  doc 0\n"),
    (3, b"^" + END),
    (3, b"size 3\n^    skip\n"),
    (3, LIVE + b"^  doc 2\n"),
]


def text_of(row):
    """A row's number of documents, its text, and the place of its first bad line, or None."""
    docs, text = row
    place = text.find(b"^")
    return docs, text.replace(b"^", b""), None if place < 0 else place


class Forms(PackTest):
    """The places of bad lines."""

    def bad_place(self, table, docs, text):
        return texts.read_text(io.BytesIO(text), table(docs)).bad

    def test_bad_places(self):
        """each form of a line, allowed and not"""
        for table, rows in ((texts.Postings, POSTINGS_ROWS), (texts.Stored, STORED_ROWS), (texts.Live, LIVE_ROWS)):
            for docs, text, place in map(text_of, rows):
                self.assertEqual(self.bad_place(table, docs, text), place, text)

    def test_prefixes(self):
        """a text that is cut off is bad where its last line begins"""
        for table, text in ((texts.Postings, WORKED), (texts.Stored, STORED), (texts.Live, LIVE)):
            for length in range(len(text)):
                cut = text[:length]
                self.assertEqual(self.bad_place(table, 3, cut), cut.rfind(b"\n") + 1, cut)

    def test_long_lines(self):
        """a line of 16,777,216 bytes is allowed, and a longer one is not"""
        self.assertEqual(texts.LONGEST, 16_777_216)
        for longest, filling in ((texts.LONGEST, b"x"), (100, b"\\\n"), (101, b"\\\n"), (100, b"\\x")):
            count, rest = divmod(longest - len(b"  term \n"), len(filling))
            text = b"field a\n  term " + filling * count + b"y" * rest
            with mock.patch.object(texts, "LONGEST", longest):
                self.assertIsNone(self.bad_place(texts.Postings, 1, text + b"\n" + END))
                self.assertEqual(self.bad_place(texts.Postings, 1, text + b"z\n" + END), len(b"field a\n"))

    def test_program_agrees(self):
        """the program names the same places"""
        for table, rows in (("postings", POSTINGS_ROWS), ("live", LIVE_ROWS)):
            for number, (docs, text, place) in enumerate(map(text_of, rows)):
                folder = os.path.join(self.room, "%s%d" % (table, number))
                os.mkdir(folder)
                files = {"postings": END, table: text}
                segment = {"name": "_0", "docs": docs, **{it: "_0." + it for it in files}}
                records = []
                for it, data in files.items():
                    with open(os.path.join(folder, "__" + it), "wb") as blob:
                        blob.write(data)
                    records.append({"name": "__" + it, "physical_name": "_0." + it, "length": len(data)})
                with open(os.path.join(folder, "mount-x"), "w") as manifest:
                    json.dump({"version": 1, "files": records, "segments": [segment]}, manifest)
                wanted = "hits 0\n" if place is None else "bad shard _0.%s %d\n" % (table, place)
                self.assertEqual(self.search(folder, "mount-x", "no field", "x"), wanted, text)


class Lucene(PackTest):
    """Indexes that Lucene wrote."""

    def check_hits(self, folder, name, said):
        """Compares an archive's hits and stored fields with the lines that SearchIndex wrote."""
        packed = Packed(folder, name)
        wanted = dict(map(term_of_lucene, (it for it in said if it.startswith("term "))))
        self.assertTrue(any(not it for it in wanted.values()) and any(len(it) > 2 for it in wanted.values()))
        self.assertEqual(packed.hits(), wanted)
        stored = dict(map(stored_of_lucene, (it for it in said if it.startswith("stored "))))
        found = {"%s/%d" % (segment, doc): fields[doc]
                 for segment, _, _, fields, live in packed.segments() for doc in live}
        self.assertEqual(found, stored)
        return wanted

    def check_bytes(self, folder, name, index):
        packed = Packed(folder, name)
        self.assertEqual(list(packed.files), list(PACKED))
        for it in PACKED:
            with open(os.path.join(index, it), "rb") as file:
                self.assertEqual(packed.bytes_of(it), file.read())

    def hits_said(self):
        with open(os.path.join(HERE, "data", "index-hits.txt")) as file:
            return file.read().splitlines()

    def test_small_index(self):
        """two segments, a deletion and payloads, byte for byte, with Lucene's hits"""
        printed = self.pack("lucene", INDEX, self.out, "--name", "a")
        self.assertRegex(printed, r"\Amount-a: 2 segments, 4 documents, 7 files, [0-9]+ bytes\n\Z")
        self.check_bytes(self.out, "a", INDEX)
        self.check_hits(self.out, "a", self.hits_said())
        packed = Packed(self.out, "a")
        self.assertEqual(packed.manifest["segments"], [
            {"name": "_0", "docs": 3, "postings": "_0.pst", "stored": "_0.fld", "live": "_0_1.liv"},
            {"name": "_1", "docs": 1, "postings": "_1.pst", "stored": "_1.fld"},
        ])
        self.assertEqual(packed.manifest["version"], 1)
        blobs = [it["name"] for it in packed.files.values()]
        self.assertEqual(sorted(os.listdir(self.out)), sorted(blobs + ["mount-a"]))

    def test_small_index_searched(self):
        """the program finds what Lucene found"""
        self.program()
        self.pack("lucene", INDEX, self.out, "--name", "a", "--part-size", "100")
        for (field, term), hits in self.check_hits(self.out, "a", self.hits_said()).items():
            self.assertEqual(self.search(self.out, "mount-a", field.decode(), term.decode()), hits_line(hits))

    def test_parts(self):
        """parts of a size, and files of one part under their own names"""
        self.pack("lucene", INDEX, self.out, "--name", "a", "--part-size", "100")
        self.check_bytes(self.out, "a", INDEX)
        names = os.listdir(self.out)
        self.assertIn("__a-_0.pst.part14", names)
        self.assertNotIn("__a-_0.pst.part15", names)
        self.assertIn("__a-_0_1.liv", names)
        self.assertEqual({os.path.getsize(os.path.join(self.out, "__a-_0.pst.part%d" % k)) for k in range(14)}, {100})

    def test_two_archives(self):
        """a folder that holds another archive already"""
        self.pack("lucene", INDEX, self.out, "--name", "a")
        before = tree_of(self.out)
        self.pack("lucene", INDEX, self.out, "--name", "a-b")
        self.pack("lines", self.write("log", '{"a":"b"}\n'), self.out, "--name", "c")
        after = tree_of(self.out)
        self.assertEqual({it: after.get(it) for it in before}, before)
        self.assertEqual(sum("mount-" in it for it in after), 3)
        self.check_bytes(self.out, "a-b", INDEX)

    def test_fresh_index(self):
        """Lucene writes an index now, and its hits are compared"""
        if not LUCENE or shutil.which("javac") is None:
            self.skipTest("Lucene 8 is not installed (Debian's liblucene8-java, and a JDK)")
        path = ":".join(LUCENE + [self.room])
        sources = sorted(glob.glob(os.path.join(TOP, "bench", "lucene", "*.java")))
        subprocess.run(["javac", "-cp", path, "-d", self.room, *sources], check=True)
        index, written = os.path.join(self.room, "index"), os.path.join(self.room, "written")
        subprocess.run(["java", "-cp", path, "WriteArchive", index, written], check=True)
        search = ["java", "-cp", path, "SearchIndex", index]
        said = subprocess.run(search, stdout=subprocess.PIPE, check=True).stdout.decode()
        self.pack("lucene", index, self.out, "--name", "a")
        self.check_bytes(self.out, "a", index)
        hits = self.check_hits(self.out, "a", said.splitlines())
        for (field, term), of_term in hits.items() if program else ():
            self.assertEqual(self.search(self.out, "mount-a", field.decode(), term.decode()), hits_line(of_term))

    def test_compound_files(self):
        """segments whose files stand in one compound file"""
        index = self.index()
        for segment in ("_0", "_1"):
            data, table = b"", b""
            names = [segment + it for it in (".fld", ".inf", ".len", ".pst")]
            for name in names:
                data += b"cfs entry for: %s\n" % name.encode()
                start = len(data)
                with open(os.path.join(index, name), "rb") as file:
                    data += file.read()
                os.unlink(os.path.join(index, name))
                table += b"  filename: %s\n    start: %d\n    end: %d\n" % (name.encode(), start, len(data))
            table = b"table of contents, size: 4\n" + table
            end = b"table of contents begins at offset: %019d\n" % len(data)
            self.write("index/%s.scf" % segment, data + table + end)
            self.change(index, segment + ".si", b"compound file false", b"compound file true")
        self.pack("lucene", index, self.out, "--name", "a")
        packed = Packed(self.out, "a")
        for it in ("_0.pst", "_0.fld", "_0_1.liv", "_1.pst", "_1.fld"):
            with open(os.path.join(INDEX, it), "rb") as file:
                self.assertEqual(packed.bytes_of(it), file.read())
        self.change(index, "_1.scf", b"  filename: _1.pst\n    start: 1853", b"  filename: _1.pst\n    start: 9853")
        self.refuse("lucene", index, self.out, "--name", "b", why="_1.scf: the file _1.pst does not lie in it")

    def test_old_form(self):
        """the list of segments as Lucene 8.0 to 8.5 wrote it, without the ids of the segments' states"""
        index = self.index()
        with open(os.path.join(index, "segments_3"), "rb") as file:
            data = file.read()
        data = data.replace(b"segments\0\0\0\x0a", b"segments\0\0\0\x09")
        data, count = re.subn(rb"(?s)(SimpleText.{32})\x01.{16}", rb"\1", data)
        self.assertEqual(count, 2)
        self.write("index/segments_3", data[:-8] + struct.pack(">q", zlib.crc32(data[:-8])))
        self.pack("lucene", index, self.out, "--name", "a")
        self.check_bytes(self.out, "a", INDEX)

    def test_no_postings(self):
        """a segment none of whose fields is searched has an empty text of postings"""
        index = self.index()
        os.unlink(os.path.join(index, "_1.pst"))
        self.pack("lucene", index, self.out, "--name", "a")
        self.assertEqual(Packed(self.out, "a").bytes_of("_1.pst"), b"END\nchecksum %020d\n" % zlib.crc32(b"END\n"))

    def change(self, index, name, old, new):
        """Changes a text that stands once in a file of the index. Gives its place."""
        with open(os.path.join(index, name), "rb") as file:
            data = file.read()
        self.assertEqual(data.count(old), 1)
        place = data.index(old)
        data = data.replace(old, new)
        if name.startswith("segments_"):
            data = data[:-8] + struct.pack(">q", zlib.crc32(data[:-8]))
        with open(os.path.join(index, name), "wb") as file:
            file.write(data)
        return place

    def test_refused(self):
        """what is refused, with its reason, and OUT as it was"""
        # a %d is the place of the text that is changed
        rows = [
            ("_0.pst", b"      startOffset 4\n      endOffset 7\nfield freqs",
             b"      endOffset 4\n      endOffset 7\nfield freqs", "_0.pst: the line at byte %d is not allowed"),
            ("_0.pst", b"field freqs\n", b"field body\n", "_0.pst: the line at byte %d is not allowed"),
            ("_1.fld", b"    type int\n", b"    type short\n", "_1.fld: the line at byte %d is not allowed"),
            ("_0_1.liv", b"  doc 2\n", b"  doc 3\n", "_0_1.liv: the line at byte %d is not allowed"),
            ("_0_1.liv", b"  doc 2\n", b"  doc 1\n",
             "_0_1.liv: the checksum at byte 27 is not that of the bytes before it"),
            ("_0.si", b"    number of documents 3", b"    number of documents x",
             "_0.si: the line at byte %d is not allowed"),
            ("_0.si", b"number of documents 3", b"number of documents 16777217",
             "16777217 documents of the segment _0 are more than the 16777216 that a manifest may have"),
            ("segments_3", b"\x02_0", b"\x02/0", "segments_3 has a segment whose name is none of Lucene's: '/0'"),
            ("segments_3", b"\x02_1", b"\x03_1", "segments_3 is no segments file of Lucene: it ends at byte"),
            ("segments_3", b"\x013\x08\x08\x01", b"\x013\x09\x08\x01",
             "segments_3 is of Lucene 9.8.1, and only Lucene 8 is read"),
            ("segments_3", b"segments\0\0\0\x0a", b"segments\0\0\0\x0b",
             "segments_3 has the form 11, which Lucene 8 does not write"),
        ]
        for name, old, new, why in rows:
            index = self.index()
            place = self.change(index, name, old, new)
            self.refuse("lucene", index, self.out, "--name", "a", why=why.replace("%d", str(place)))
            shutil.rmtree(index)

    def test_refused_files(self):
        """files that are not there, another codec, a damaged list of segments"""
        index = self.index()
        data = open(os.path.join(index, "segments_3"), "rb").read().replace(b"\x0aSimpleText", b"\x08Lucene87")
        self.write("index/segments_z", data[:-8] + struct.pack(">q", zlib.crc32(data[:-8])))
        self.refuse("lucene", index, self.out, "--name", "a", why="segment _0 is written with the codec Lucene87")
        self.refuse("lucene", index, self.out, "--name", "a", why="IndexWriterConfig.setCodec(new SimpleTextCodec())")
        self.write("index/segments_10", data)
        self.refuse("lucene", index, self.out, "--name", "a", why="segments_10 is damaged")
        self.write("index/segments_11", b"?" * 99)
        self.refuse("lucene", index, self.out, "--name", "a", why="segments_11 is no segments file of Lucene 8")
        for name in ("segments_z", "segments_10", "segments_11"):
            os.unlink(os.path.join(index, name))
        for name in ("_1.fld", "_0_1.liv", "_0.si"):
            os.unlink(os.path.join(index, name))
            self.refuse("lucene", index, self.out, "--name", "a", why="the index lacks the file " + name)
        os.unlink(os.path.join(index, "segments_3"))
        self.refuse("lucene", index, self.out, "--name", "a", why="is no index of Lucene: it has no file segments_N")
        self.refuse("lucene", self.room + "/none", self.out, "--name", "a", why="none is no folder")

    def test_refused_outs(self):
        """an OUT that holds the manifest or a blob already, that is no folder, names that are none"""
        self.pack("lucene", INDEX, self.out, "--name", "a")
        log = self.write("log", '{"a":"b"}\n')
        self.refuse("lucene", INDEX, self.out, "--name", "a", why="holds the manifest mount-a already")
        self.refuse("lines", log, self.out, "--name", "a", why="holds the manifest mount-a already")
        self.refuse("lines", log, log, "--name", "a", why="log is no folder")
        self.refuse("lines", log, self.room + "/none/out", "--name", "a", why="none is no folder")
        os.unlink(os.path.join(self.out, "mount-a"))
        self.refuse("lucene", INDEX, self.out, "--name", "a", why="holds a blob __a-_0.fld already")
        for name in ("", "a/b", "a b", "a" * 129, "é"):
            self.refuse("lines", log, self.out, "--name", name, why="a name is 1 to 128 letters")
        self.refuse("lucene", INDEX, self.out, "--name", "b", "--part-size", "0", why="a part has at least 1 byte")
        with mock.patch.object(lucene, "MOST_PARTS", 40):
            words = ["lucene", INDEX, self.out, "--name", "b", "--part-size", "100"]
            self.refuse(*words, why="parts are more than the 40")
        with mock.patch.object(lucene, "MOST_FILES", 6):
            self.refuse("lucene", INDEX, self.out, "--name", "b", why="7 files are more than the 6")
        with mock.patch.object(lucene, "MOST_SEGMENTS", 1):
            self.refuse("lucene", INDEX, self.out, "--name", "b", why="2 segments are more than the 1")
        with mock.patch.object(lucene, "LONGEST_FILE", 1000):
            self.refuse("lucene", INDEX, self.out, "--name", "b", why="bytes of the file _0.pst are more than the 1000")

    def test_failed_write(self):
        """a file system that fails in the middle"""
        self.pack("lucene", INDEX, self.out, "--name", "a")
        rename, calls = os.rename, []

        def fail_at_third(source, to):
            calls.append(to)
            if len(calls) == 3:
                raise OSError(28, "No space left on device", to)
            rename(source, to)

        with mock.patch.object(os, "rename", fail_at_third):
            self.refuse("lucene", INDEX, self.out, "--name", "b", why="No space left on device")


def made_lines(count):
    """Log lines, some with letters beyond ASCII, escapes, numbers and values that are no strings."""
    draw = random.Random(5)
    words = ["started", "Stopped", "disk-full", "user_42", "ÉTÉ", "C:\\temp\\x", "two\nlines", "x" * 40, "ß", "naïve"]
    for number in range(count):
        line = {"time": "2026-11-%02dT10:00:00Z" % (number % 28 + 1), "id": number, "unit": "unit-%d" % (number % 7)}
        line["message"] = " ".join(draw.choice(words) for _ in range(draw.randrange(12)))
        if number % 3 == 0:
            line["odd\nname\\"] = draw.choice(words)
        if number % 5 == 0:
            line["more"] = [True, None, {"a": "\\"}]
        yield line


def terms_of(text):
    """The terms of a text, letter by letter."""
    terms, term = [], ""
    for it in text + " ":
        if unicodedata.category(it)[0] == "L" or unicodedata.category(it) == "Nd":
            term += it
        elif term:
            terms.append(term.lower())
            term = ""
    return terms


class Lines(PackTest):
    """Lines of JSON objects."""

    def wanted_hits(self, objects, docs_per_segment):
        hits = {}
        for number, line in enumerate(objects):
            place = "_%s/%d" % (archive.base36(number // docs_per_segment), number % docs_per_segment)
            for field, value in line.items():
                for term in set(terms_of(value)) if isinstance(value, str) else ():
                    hits.setdefault((field.encode(), term.encode()), []).append(place)
        return hits

    def pack_made(self, count, docs_per_segment):
        objects = list(made_lines(count))
        text = [json.dumps(it, ensure_ascii=number % 2 == 0) + "\n" for number, it in enumerate(objects)]
        log = self.write("log", "".join(text))
        self.pack("lines", log, self.out, "--name", "log", "--docs-per-segment", str(docs_per_segment))
        return objects, Packed(self.out, "log")

    def test_thousand_lines(self):
        """1,000 lines: each term's hits and positions, each stored field, and the form of every text"""
        objects, packed = self.pack_made(1000, 300)
        self.assertEqual([it["docs"] for it in packed.manifest["segments"]], [300, 300, 300, 100])
        self.assertEqual(packed.hits(), self.wanted_hits(objects, 300))
        for part, (name, docs, rows, fields, _) in enumerate(packed.segments()):
            for doc, line in enumerate(objects[part * 300:part * 300 + docs]):
                self.assertEqual([it[0] for it in fields[doc]], [it.encode() for it in line])
                for (_, kind, value), member in zip(fields[doc], line.values()):
                    text = member if isinstance(member, str) else json.dumps(member, separators=(",", ":"))
                    self.assertEqual((kind, value.decode()), ("int" if isinstance(member, int) else "string", text))
                for position, term in enumerate(terms_of(line["message"])):
                    self.assertIn(position, rows[b"message", term.encode()][doc])
            for ending, table in ((".pst", texts.Postings), (".fld", texts.Stored)):
                read = texts.read_text(io.BytesIO(packed.bytes_of(name + ending)), table(docs))
                self.assertEqual((read.bad, read.is_checksum_right), (None, True))

    def test_scripts_run(self):
        """the program runs scripts from its standard input"""
        sample = os.path.join(TOP, "crates", "mount_tool", "data", "x")
        rows = [
            (["region=4096"], b"mount logs mount-x\nsearch logs 10 {\"term\":{\"body\":\"fox\"}}\n",
             b"1 mounted 1 files 3 docs\n2 hits 2 _0/0 _0/2\n", 0),
            ([], b"mount logs mount-x\nread logs _0.pst 98 4", b"1 mounted 1 files 3 docs\n2 bytes 4 20726564\n", 0),
            ([], b"", b"", 0),
            ([], b"mount logs mount-x\nfind logs\n", b"line 2\n", 3),
            (["workers=9"], b"", b"usage\n", 2),
        ]
        for words, script, wanted, status in rows:
            done = subprocess.run([self.program(), sample, "-", "run"] + words, input=script, stdout=subprocess.PIPE,
                                  check=False)
            self.assertEqual((done.stdout, done.returncode), (wanted, status))

    def test_thousand_lines_searched(self):
        """the program finds every term of ten documents"""
        self.program()
        objects, _ = self.pack_made(1000, 300)
        hits = self.wanted_hits(objects, 300)
        asked = set()
        for number in range(0, 1000, 100):
            for field, value in objects[number].items():
                asked.update((field, term) for term in (terms_of(value) if isinstance(value, str) else ()))
        self.assertGreater(len(asked), 30)
        for field, term in sorted(asked):
            found = self.search(self.out, "mount-log", field, term)
            self.assertEqual(found, hits_line(hits[field.encode(), term.encode()]))
        self.assertEqual(self.search(self.out, "mount-log", "message", "nothing"), "hits 0\n")

    def test_whole_text(self):
        """the texts of two lines, byte for byte"""
        log = self.write("log", '{"b":"Fox, fox \\\\ Über","a\\n":"1½x","n":-2}\n \n'
                         '{"n":1.50,"b":"","t":true,"l":[ 1.0,"\\u00e9"]}')
        self.pack("lines", log, self.out, "--name", "x")
        packed = Packed(self.out, "x")
        text = ("field a\\\n\n  term 1\n    doc 0\n      freq 1\n      pos 0\n"
                "  term x\n    doc 0\n      freq 1\n      pos 1\n"
                "field b\n  term fox\n    doc 0\n      freq 2\n      pos 0\n      pos 1\n"
                "  term über\n    doc 0\n      freq 1\n      pos 2\nEND\n").encode()
        self.assertEqual(packed.bytes_of("_0.pst"), text + b"checksum %020d\n" % zlib.crc32(text))
        text = ("doc 0\n  field 0\n    name b\n    type string\n    value Fox, fox \\\\ Über\n"
                "  field 1\n    name a\\\n\n    type string\n    value 1½x\n"
                "  field 2\n    name n\n    type int\n    value -2\n"
                "doc 1\n  field 2\n    name n\n    type double\n    value 1.50\n"
                "  field 0\n    name b\n    type string\n    value \n"
                "  field 3\n    name t\n    type string\n    value true\n"
                "  field 4\n    name l\n    type string\n    value [1.0,\"é\"]\nEND\n").encode()
        self.assertEqual(packed.bytes_of("_0.fld"), text + b"checksum %020d\n" % zlib.crc32(text))
        self.assertEqual(packed.manifest, {"version": 1, "files": [
            {"name": "__x-_0.fld", "physical_name": "_0.fld", "length": len(text) + 30},
            {"name": "__x-_0.pst", "physical_name": "_0.pst", "length": packed.files["_0.pst"]["length"]},
        ], "segments": [{"name": "_0", "docs": 2, "postings": "_0.pst", "stored": "_0.fld"}]})

    def test_terms(self):
        """terms are runs of letters and digits, of every kind"""
        many = [*range(0x3000), *range(0x3000, 0x110000, 7)]
        every = "".join(chr(it) + "a" for it in many if not 0xD800 <= it < 0xE000)
        self.assertEqual(lines.terms_of(every), terms_of(every))
        self.assertEqual(lines.terms_of("a_B-9 \0x"), ["a", "b", "9", "x"])

    def test_kinds(self):
        """the kinds of numbers"""
        kinds = {"int": ("0", "-2147483648", "2147483647"), "long": ("2147483648", "-9223372036854775808"),
                 "double": ("9223372036854775808", "-9223372036854775809", "1" * 5000, "1.0", "1E5")}
        for text, kind in ((it, kind) for kind, some in kinds.items() for it in some):
            members = lines.object_of(b'{"n":%s}' % text.encode())
            self.assertEqual(lines.stored_value(members["n"]), (kind, text))

    def test_segments_fill(self):
        """a segment ends early where its postings take much memory"""
        with mock.patch.object(lines, "_MOST_HELD", 50_000):
            objects, packed = self.pack_made(1000, 1000)
        self.assertGreater(len(packed.manifest["segments"]), 3)
        self.assertEqual(sum(it["docs"] for it in packed.manifest["segments"]), 1000)
        documents = [it for _, _, _, fields, _ in packed.segments() for it in fields]
        self.assertEqual([it[1] for it in documents], [(b"id", "int", b"%d" % it) for it in range(1000)])

    def test_no_lines(self):
        """a file without lines is an archive without segments"""
        self.pack("lines", self.write("log", "\n \n"), self.out, "--name", "x")
        self.assertEqual(Packed(self.out, "x").manifest, {"version": 1, "files": [], "segments": []})

    def test_refused(self):
        """lines that are no JSON objects, by their number, and OUT as it was"""
        good = b'{"a":"b"}\n'
        rows = [
            (b"{", "line 3 is no JSON object"),
            (b"[]", "line 3 is no JSON object that can be packed: not an object"),
            (b'"a"', "line 3 is no JSON object that can be packed: not an object"),
            (b'{"a":NaN}', "line 3 is no JSON object that can be packed: NaN is no JSON"),
            (b'{"a":"\xff"}', "line 3 is no JSON object"),
            (b'\xef\xbb\xbf{"a":"b"}', "line 3 is no JSON object"),
            (b'{"a":"\t"}', "line 3 is no JSON object"),
            (b'{"a":"\\ud800"}', "line 3 is not packed: it has half of a surrogate pair"),
            (b'{"\\udc00":1}', "line 3 is not packed: it has half of a surrogate pair"),
            (b'{"a":"b"} {}', "line 3 is no JSON object"),
            (b'{"a":' + b"[" * 100_000, "line 3 is no JSON object that can be packed: too deep"),
            (b'{"a":"' + b"b" * texts.LONGEST + b'"}', "line 3 is longer than 16777216 bytes"),
            (b'{"a":"' + b"b" * (texts.LONGEST - 9) + b'"}',
             "line 3 is no JSON object that can be packed: it has a member that is longer than 16777216 bytes"),
        ]
        for bad, why in rows:
            log = self.write("log", good + good + bad + b"\n" + good)
            self.refuse("lines", log, self.out, "--name", "x", "--docs-per-segment", "1", why=log + ": " + why)
        os.mkdir(self.out)
        self.refuse("lines", log, self.out, "--name", "x", "--docs-per-segment", "1", why=why)
        self.refuse("lines", self.room + "/none", self.out, "--name", "x", why="No such file")
        log = self.write("log", good * 5)
        for count in ("0", "16777217"):
            self.refuse("lines", log, self.out, "--name", "x", "--docs-per-segment", count,
                        why="a segment has 1 to 16777216 documents")
        with mock.patch.object(archive, "MOST_SEGMENTS", 4):
            words = ["lines", log, self.out, "--name", "x", "--docs-per-segment", "1"]
            self.refuse(*words, why="5 segments are more than the 4")

    def test_script(self):
        """the tool as a program: standard input, progress, bad words"""
        script = [sys.executable, "-B", os.path.join(HERE, "pack.py")]
        run = lambda words, data=b"": subprocess.run(script + words, input=data, stdout=subprocess.PIPE,
                                                     stderr=subprocess.PIPE, check=False)
        done = run(["lines", "-", self.out, "--name", "x"], b'{"a":"b"}\n' * 3)
        self.assertEqual((done.returncode, done.stdout[:35]), (0, b"mount-x: 1 segments, 3 documents, 2"))
        self.assertEqual(run(["lines", "-", self.out, "--name", "y"], b"x").returncode, 1)
        self.assertEqual(run(["lines", "-", self.out]).returncode, 2)
        self.assertEqual(run([]).returncode, 2)
        said = io.StringIO()
        with redirect_stdout(io.StringIO()), redirect_stderr(said), mock.patch.object(archive.Progress, "SECONDS", 0):
            pack.main(["lucene", INDEX, self.out, "--name", "z"])
        self.assertIn("pack: _0.pst is copied\n", said.getvalue())


def main(words):
    """Runs the tests, with the program that the words name, and gives the status."""
    global program
    if words or os.path.isfile(BUILT):
        program = os.path.abspath(words[0] if words else BUILT)
        if not os.access(program, os.X_OK):
            print("tools: there is no program %s" % program)
            return 1
    suite = unittest.defaultTestLoader.loadTestsFromModule(sys.modules[__name__])
    result = unittest.TextTestRunner(stream=sys.stdout, verbosity=1).run(suite)
    for test, why in result.skipped:
        print("tools: skipped: %s: %s" % (test.shortDescription(), why))
    return 0 if result.wasSuccessful() else 1


if __name__ == "__main__":
    sys.exit(main(sys.argv[1:]))
