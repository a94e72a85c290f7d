#!/usr/bin/env python3
"""expat_events.py [-q] [FILE]: what expat_events.c does, by the expat of python3. It is measured only where that can't be built."""
import sys
from xml.parsers import expat

ESCAPES = str.maketrans({"\\": "\\\\", '"': '\\"', "\n": "\\n", "\r": "\\r", "\t": "\\t"})


def quoted(text):
    return f'"{text.translate(ESCAPES)}"'


def name(text):
    uri, _, local = text.rpartition("\n")
    return f"{quoted(uri)} {quoted(local)}"


class Lines:
    """Prints an event as a line."""

    def __init__(self):
        self.put, self.characters = sys.stdout.write, []

    def ended(self):
        if self.characters:
            self.put(f"CH text {quoted(''.join(self.characters))}\n")
            self.characters.clear()

    def start(self, tag, attributes):
        self.ended()
        self.put(f"SE {name(tag)}\n")
        for at in range(0, len(attributes), 2):
            self.put(f"AT {name(attributes[at])} text {quoted(attributes[at + 1])}\n")

    def end(self, tag):
        self.ended()
        self.put("EE\n")


def main(words):
    parser = expat.ParserCreate(namespace_separator="\n")
    parser.ordered_attributes = True
    parser.buffer_text = True
    if "-q" in words:
        nothing = lambda *parts: None
        parser.StartElementHandler = parser.EndElementHandler = parser.CharacterDataHandler = nothing
        lines = None
    else:
        lines = Lines()
        parser.StartElementHandler, parser.EndElementHandler = lines.start, lines.end
        parser.CharacterDataHandler = lines.characters.append
        lines.put("SD\n")
    paths = [it for it in words if it != "-q"]
    with open(paths[0], "rb") if paths else sys.stdin.buffer as file:
        parser.ParseFile(file)
    if lines:
        lines.put("ED\n")


sys.stdout.reconfigure(encoding="utf-8", newline="\n")
main(sys.argv[1:])
