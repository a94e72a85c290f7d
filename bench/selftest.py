"""bench/run --selftest: the documents, by xmllint or expat, by tools/exi-xml and by the program; the words that report.py finds for
ratios; and that what stands in the repository is what bench/results.json gives. The last line counts."""
import json
import os
import shutil
import subprocess
import sys
import tempfile

import documents
import report
from exi import encoded, no_program, plain, program


class Tests:
    def __init__(self, top, exi, folder):
        self.top, self.exi, self.folder = top, exi, folder
        self.passed, self.failed = 0, 0

    def check(self, what, holds):
        if holds:
            self.passed += 1
        else:
            self.failed += 1
            print(f"bench/run: {what}")

    def runs(self, *words):
        """Status and output of a program."""
        ran = subprocess.run(words, stdout=subprocess.PIPE, stderr=subprocess.DEVNULL, check=False)
        return ran.returncode, ran.stdout

    def saved(self, name):
        with open(f"{self.folder}/{name}", "rb") as file:
            return file.read()

    def document(self, name):
        documents.save(self.folder, [name])
        base, lines = f"{self.folder}/{name}", self.saved(f"{name}.events")
        schema = documents.SCHEMAS.get(name.split("-")[0])
        if shutil.which("xmllint"):
            checked = ["--schema", f"{self.top}/bench/{schema}"] if schema else []
            self.check(f"{name}: xmllint refuses it", self.runs("xmllint", "--noout", *checked, f"{base}.xml")[0] == 0)
        printed = self.runs(sys.executable, f"{self.top}/bench/expat_events.py", f"{base}.xml")
        self.check(f"{name}: expat finds other events in the XML", printed == (0, lines))
        for options in ([], ["--byte-aligned"]):
            status, stream = self.runs(self.exi, "write", f"{base}.events", *options)
            self.check(f"{name} {options}: it is not written", status == 0 and stream)
            made = encoded(self.top, self.exi, f"{base}.xml", "--keep-space", *options)
            self.check(f"{name} {options}: tools/exi-xml makes no stream of the XML, or another", made == stream)
            self.comes_back(name, stream, lines, options)
        if schema:
            with open(f"{self.folder}/{schema}.exi", "wb") as file:
                file.write(encoded(self.top, self.exi, f"{self.top}/bench/{schema}", "--prefixes") or b"")
            options = ["--strict", "--schema", f"{self.folder}/{schema}.exi"]
            status, strict = self.runs(self.exi, "write", f"{base}.events", *options)
            self.check(f"{name}: by its schema it is not written in fewer bytes", status == 0 and len(strict) < len(stream))
            self.comes_back(name, strict, lines, options)

    def comes_back(self, name, stream, lines, options):
        with open(f"{self.folder}/stream", "wb") as file:
            file.write(stream)
        status, read = self.runs(self.exi, "read", f"{self.folder}/stream", *options)
        self.check(f"{name} {options}: its stream is read as other events", status == 0 and plain(read) == lines)

    def expat_in_c(self):
        if not shutil.which("gcc"):
            print("bench/run: there is no gcc, and expat_events.c is left out")
            return
        source, made = f"{self.top}/bench/expat_events.c", f"{self.folder}/expat_events"
        if self.runs("gcc", "-O2", "-o", made, source, "-lexpat")[0]:
            print("bench/run: expat_events.c can't be built here, and is left out")
            return
        for name in ("order-small", "book-medium"):
            printed = self.runs(made, f"{self.folder}/{name}.xml")
            self.check(f"{name}: expat_events.c finds other events", printed == (0, self.saved(f"{name}.events")))

    def words_for_ratios(self):
        said = {
            "is 2.0 times as fast (a) to 3.0 times as slow (c) as x": [(0.5, "a"), (2, "b"), (3, "c")],
            "takes 1.5 (a) to 20 (b) times as long as x": [(1.5, "a"), (20, "b")],
            "is 2.0 (b) to 4.0 (a) times as fast as x": [(0.25, "a"), (0.5, "b")],
            "takes 2.0 times as long as x": [(2, "a")],
        }
        for words, pairs in said.items():
            found = report.times(pairs, "x")
            self.check(f"ratios {pairs} are said as: {found}", found == words)
        shown = [report.short(it) for it in (0.994, 0.996, 9.94, 9.96)]
        self.check(f"numbers are shown as {shown}", shown == ["0.99", "1.0", "9.9", "10"])

    def results(self):
        """What stands in the repository is made of results.json, and that of the documents of today."""
        path = f"{self.top}/bench/results.json"
        if not os.path.exists(path):
            print("bench/run: there is no bench/results.json yet")
            return
        with open(path, encoding="utf-8") as file:
            found = json.load(file)
        for name, text in report.files(found, self.top).items():
            with open(f"{self.top}/{name}", encoding="utf-8") as file:
                self.check(f"{name} is not what bench/run --draw makes", file.read() == text)
        for name, it in found["documents"].items():
            if name.endswith(("small", "medium")):
                today = len(self.saved(f"{name}.xml")), self.saved(f"{name}.events").count(b"\n")
                self.check(f"{name} is another document than was measured", today == (it["bytes"]["xml"], it["events"]))


def run(top):
    measured = program(top)
    if measured is None:
        print(f"bench/run: {no_program()}\n0 passed, 1 failed")
        return 1
    with tempfile.TemporaryDirectory() as folder:
        tests = Tests(top, measured, folder)
        if not shutil.which("xmllint"):
            print("bench/run: there is no xmllint, and its checks are left out")
        for name in documents.NAMES:
            if not name.endswith("large"):
                tests.document(name)
        tests.expat_in_c()
        tests.words_for_ratios()
        tests.results()
    print(f"{tests.passed} passed, {tests.failed} failed")
    return 1 if tests.failed else 0
