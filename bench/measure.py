"""The measuring part of bench/run, whose head says how it is used.

All programs are timed in turn within a round, and what counts is the median of the rounds. Before the rounds each runs once more,
and what it prints is compared: `exi read` and its peers have to print the same lines, and a stream that `exi write` makes has to be
read as the lines that it was made of. Output goes to /dev/null.
"""
import glob
import json
import os
import platform
import re
import shutil
import statistics
import subprocess
import sys
import tempfile
import time
from xml.parsers import expat

import documents
import exi
import report
import selftest

HERE = os.path.dirname(os.path.abspath(__file__))
TOP = os.path.dirname(HERE)
JAR = "/usr/share/java/FastInfoset.jar"
WARM = 0.7  # seconds that the Java peer is warmed for, for each document and direction


class Failed(Exception):
    """What is wrong with the measurement itself."""


# ---- programs that are run


def output(*commands):
    """What the last of the commands prints; each reads what the one before it prints."""
    data = None
    for words in commands:
        ran = subprocess.run(words, input=data or b"", stdout=subprocess.PIPE, check=False)
        if ran.returncode:
            said = ran.stdout[-100:].decode("utf-8", "replace").strip()
            raise Failed(f"{os.path.basename(words[0])} ends with status {ran.returncode}: {said}")
        data = ran.stdout
    return data


def start(words, source, target):
    """Starts a program that reads the descriptor `source` and writes to `target`, which are closed here."""
    actions = [(os.POSIX_SPAWN_DUP2, source, 0), (os.POSIX_SPAWN_DUP2, target, 1)]
    child = os.posix_spawnp(words[0], words, os.environ, file_actions=actions)
    os.close(source)
    os.close(target)
    return child


def nanoseconds(*commands):
    """The time from the start of the first command to the end of the last, in a pipeline that ends in /dev/null."""
    before, children = time.perf_counter_ns(), []
    source = os.open(os.devnull, os.O_RDONLY)
    for words in commands[:-1]:
        following, target = os.pipe()
        children.append(start(words, source, target))
        source = following
    children.append(start(commands[-1], source, os.open(os.devnull, os.O_WRONLY)))
    statuses = [os.waitpid(child, 0)[1] for child in children]
    after = time.perf_counter_ns()
    if any(statuses):
        raise Failed(f"{' | '.join(os.path.basename(it[0]) for it in commands)} ends with a status that is not 0")
    return after - before


class Java:
    """The Fast Infoset peer, which stays alive and answers a line with a line."""

    def __init__(self, folder):
        words = ["java", "-Xmx2g", "-cp", f"{folder}:{JAR}", "FastInfoset"]
        self.process = subprocess.Popen(words, stdin=subprocess.PIPE, stdout=subprocess.PIPE, text=True)

    def ask(self, *words):
        self.process.stdin.write(" ".join(words) + "\n")
        self.process.stdin.flush()
        answer = self.process.stdout.readline()
        if not answer:
            raise Failed("the Fast Infoset peer ended")
        return int(answer)

    def warm(self, word):
        until = time.monotonic() + WARM
        for _ in range(3):
            self.ask(word)
        while time.monotonic() < until:
            self.ask(word)

    def close(self):
        self.process.stdin.close()
        self.process.wait()


# ---- what there is on this machine


def builds(words):
    try:
        return subprocess.run(words, stdout=subprocess.DEVNULL, stderr=subprocess.DEVNULL, check=False).returncode == 0
    except OSError:
        return False


def version(*words):
    """The version that a program says."""
    ran = subprocess.run(words, stdout=subprocess.PIPE, stderr=subprocess.STDOUT, check=False)
    return version_in(ran.stdout.decode("utf-8", "replace"))


def version_in(text):
    found = re.search(r"[0-9]+(\.[0-9]+)+", text)
    return found.group() if found else "of an unknown version"


class Tools:
    """The program, and the peers that are here."""

    def __init__(self, folder):
        self.exi, self.missing, self.versions = exi.program(TOP), [], [f"python {platform.python_version()}"]
        if self.exi is None:
            raise Failed(exi.no_program())
        self.expat, self.expat_name = [f"{folder}/expat_events"], "expat"
        if builds(["gcc", "-O2", "-o", self.expat[0], f"{HERE}/expat_events.c", "-lexpat"]):
            self.versions.append(f"expat {version(*self.expat, '--version')}, built with gcc {version('gcc', '--version')}")
        else:
            self.expat = [sys.executable, f"{HERE}/expat_events.py"]
            self.missing.append("gcc or the header of expat, so that expat is run by python3, which is slower")
            self.expat_name = "expat in python3"
            self.versions.append(f"expat {version_in(expat.EXPAT_VERSION)} by python3")
        for name in ("gzip", "zstd"):
            setattr(self, name, shutil.which(name) is not None)
            if getattr(self, name):
                self.versions.append(f"{name} {version(name, '--version')}")
            else:
                self.missing.append(name)
        self.java = None
        if not shutil.which("java") or not os.path.exists(JAR):
            self.missing.append("Java or Fast Infoset (libfastinfoset-java)")
        elif not builds(["javac", "-nowarn", "-Xlint:none", "-d", folder, "-cp", JAR, f"{HERE}/FastInfoset.java"]):
            self.missing.append("a Java compiler, so that Fast Infoset is left out")
        else:
            self.java = Java(folder)
            named = " ".join(glob.glob(JAR.replace(".jar", "-[0-9]*.jar")))
            self.versions.append(f"FastInfoset {version_in(named)}, Java {version('java', '-version')}")

    def close(self):
        if self.java:
            self.java.close()


# ---- one document


class Case:
    """A document, its streams, and how each program is timed on it: a list of (key, function that answers nanoseconds)."""

    def __init__(self, name, folder, tools):
        self.name, self.base, self.tools = name, f"{folder}/{name}", tools
        self.bytes, self.read, self.write = {}, [], []
        documents.save(folder, [name])
        self.lines = self.content("events")
        self.events = self.lines.count(b"\n")
        self.bytes["xml"] = os.path.getsize(f"{self.base}.xml")
        schema = documents.SCHEMAS.get(name.split("-")[0])
        self.stream("exi-bit", [])
        self.stream("exi-byte", ["--byte-aligned"])
        if schema:
            self.stream("exi-strict", ["--strict", "--schema", f"{folder}/{schema}.exi"])
        self.peers()
        self.read.append(("start", self.command(["true"])))
        self.write.append(("start", self.command(["true"])))

    def content(self, end):
        with open(f"{self.base}.{end}", "rb") as file:
            return file.read()

    def keep(self, end, data):
        with open(f"{self.base}.{end}", "wb") as file:
            file.write(data)

    def remove(self):
        for path in glob.glob(f"{self.base}.*"):
            os.unlink(path)

    @staticmethod
    def command(*commands):
        return lambda: nanoseconds(*commands)

    def same(self, what, lines):
        if lines != self.lines:
            raise Failed(f"{self.name}: {what} does not print the lines of the document")

    def stream(self, key, options):
        write = [self.tools.exi, "write", f"{self.base}.events", *options]
        read = [self.tools.exi, "read", f"{self.base}.{key}", *options]
        self.keep(key, output(write))
        self.bytes[key] = os.path.getsize(f"{self.base}.{key}")
        self.same(f"exi read ({key})", exi.plain(output(read)))
        self.read.append((key, self.command(read)))
        self.write.append((key, self.command(write)))

    def peers(self):
        base, prints = f"{self.base}.xml", self.tools.expat
        self.same("expat", output([*prints, base]))
        self.read.append(("expat", self.command([*prints, base])))
        self.read.append(("expat-quiet", self.command([*prints, "-q", base])))
        if self.tools.gzip:
            self.packed("gzip", "gzip-6", "gz", ["gzip", "-6", "-c"], ["gzip", "-dc"])
            self.bytes["gzip-9"] = len(output(["gzip", "-9", "-c", base]))
            self.write.insert(-1, ("gzip-1", self.command(["gzip", "-1", "-c", base])))
        if self.tools.zstd:
            self.packed("zstd", "zstd-3", "zst", ["zstd", "-3", "-q", "-c", "--single-thread"], ["zstd", "-dcq"])
            self.bytes["zstd-19"] = len(output(["zstd", "-19", "-q", "-c", base]))
            self.bytes["exi-byte-zstd"] = len(output(["zstd", "-3", "-q", "-c", f"{self.base}.exi-byte"]))
        if self.tools.java:
            java = self.tools.java
            self.bytes["fi"] = java.ask("load", base, f"{self.base}.fi")
            java.ask("text", f"{self.base}.text")
            self.same("Fast Infoset", self.content("text"))
            self.read.append(("fi", lambda: java.ask("read")))
            self.write.append(("fi", lambda: java.ask("write")))

    def packed(self, name, key, end, pack, unpack):
        self.keep(end, output([*pack, f"{self.base}.xml"]))
        self.bytes[key] = os.path.getsize(f"{self.base}.{end}")
        chain = [*unpack, f"{self.base}.{end}"], self.tools.expat
        self.same(f"{name} and expat", output(*chain))
        self.read.append((f"{name}-expat", self.command(*chain)))
        self.write.append((key, self.command([*pack, f"{self.base}.xml"])))

    def timed(self, rounds):
        """The median milliseconds of each program, by direction."""
        rows = [("read", *it) for it in self.read] + [("write", *it) for it in self.write]
        taken = {row[:2]: [] for row in rows}
        if self.tools.java:
            self.tools.java.warm("read")
            self.tools.java.warm("write")
        for _ in range(rounds):
            for direction, key, run in rows:
                taken[direction, key].append(run())
        found = {"read": {}, "write": {}}
        for (direction, key), times in taken.items():
            found[direction][key] = float(f"{statistics.median(times) / 1e6:.3g}")
        return found


def schemas(folder, tools):
    """The schemas as streams, made by tools/exi-xml."""
    for schema in documents.SCHEMAS.values():
        stream = exi.encoded(TOP, tools.exi, f"{HERE}/{schema}", "--prefixes")
        if stream is None:
            raise Failed(f"tools/exi-xml makes no stream of {schema}")
        with open(f"{folder}/{schema}.exi", "wb") as file:
            file.write(stream)


# ---- the whole


def machine():
    with open("/proc/cpuinfo", encoding="utf-8") as file:
        model = re.search(r"^model name\s*: (.*)$", file.read(), re.MULTILINE)
    with open("/proc/meminfo", encoding="utf-8") as file:
        memory = int(file.readline().split()[1]) / 2**20
    try:
        with open("/etc/os-release", encoding="utf-8") as file:
            system = re.search(r'^PRETTY_NAME="?([^"\n]*)', file.read(), re.MULTILINE)
    except OSError:
        system = None
    system = system.group(1) if system else "an unknown system"
    processors = len(os.sched_getaffinity(0))
    name = model.group(1).strip() if model else platform.machine()
    return f"{name}, {processors} processors, {memory:.0f} GiB, {system}, {platform.system()} {platform.release()}"


def command(rounds):
    named = "EXI=.. " if "EXI" in os.environ else ""
    return f"{named}ROUNDS={rounds} bench/run"


def measure(rounds):
    with tempfile.TemporaryDirectory() as folder:
        tools = Tools(folder)
        for it in tools.missing:
            print(f"not here: {it}", file=sys.stderr)
        found = {
            "date": time.strftime("%d %B %Y").lstrip("0"),
            "machine": machine(),
            "load": round(os.getloadavg()[0], 1),
            "command": command(rounds),
            "rounds": rounds,
            "versions": tools.versions,
            "missing": tools.missing,
            "expat": tools.expat_name,
            "documents": {},
        }
        try:
            schemas(folder, tools)
            for name in documents.NAMES:
                print(f"measuring {name}", file=sys.stderr)
                case = Case(name, folder, tools)
                found["documents"][name] = {"events": case.events, "bytes": case.bytes, **case.timed(rounds)}
                case.remove()
        finally:
            tools.close()
    return found


def main(words):
    if words == ["--selftest"]:
        return selftest.run(TOP)
    if words not in ([], ["--draw"]):
        print("usage: bench/run [--draw | --selftest]", file=sys.stderr)
        return 2
    rounds = os.environ.get("ROUNDS", "7")
    if not re.fullmatch("[1-9][0-9]{0,3}", rounds):
        print("bench/run: ROUNDS is a number from 1", file=sys.stderr)
        return 2
    path = f"{HERE}/results.json"
    try:
        if not words:
            found = measure(int(rounds))
            with open(path, "w", encoding="utf-8") as file:
                json.dump(found, file, indent=1)
                file.write("\n")
        elif not os.path.exists(path):
            raise Failed("there is no bench/results.json, which bench/run without a word makes")
        with open(path, encoding="utf-8") as file:
            found = json.load(file)
    except (Failed, OSError) as fault:
        print(f"bench/run: {fault}", file=sys.stderr)
        return 1
    for name, text in report.files(found, TOP).items():
        with open(f"{TOP}/{name}", "w", encoding="utf-8") as file:
            file.write(text)
    print(report.tables(found), end="")
    return 0


if __name__ == "__main__":
    os.environ["LC_ALL"] = "C"
    sys.exit(main(sys.argv[1:]))
