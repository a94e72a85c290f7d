#!/usr/bin/env python3
"""documents.py FOLDER: makes the documents that are measured, each as XML and as the event text that `exi write` takes.

There are four kinds, each small, medium and large: `order` (elements and attributes, few different values), `meter` (numbers and
times), `records` (many attributes of many names) and `book` (running text with marks in it). Each run makes the same bytes: chance
comes from `random.Random(seed).random()`, whose sequence Python keeps from version to version. order.xsd and meter.xsd are the
schemas of the first two; values stand in their canonical text, so that a stream by the schema tells the same texts.
"""
import os
import random
import sys

SIZES = {
    "order": {"small": 1, "medium": 1150, "large": 46000},
    "meter": {"small": 1, "medium": 980, "large": 39000},
    "records": {"small": 1, "medium": 630, "large": 25500},
    "book": {"small": 1, "medium": 215, "large": 8600},
}
SCHEMAS = {"order": "order.xsd", "meter": "meter.xsd"}
NAMES = [f"{kind}-{size}" for kind in SIZES for size in ("small", "medium", "large")]

IN_XML = str.maketrans({"&": "&amp;", "<": "&lt;", ">": "&gt;", '"': "&quot;"})
IN_LINE = str.maketrans({"\\": "\\\\", '"': '\\"', "\n": "\\n", "\r": "\\r", "\t": "\\t"})


class Document:
    """XML and event text of one document, made side by side. All its elements are of one namespace, its attributes of none."""

    def __init__(self, uri):
        self.uri, self.open = uri, []
        self.xml, self.lines = ['<?xml version="1.0" encoding="UTF-8"?>\n'], ["SD\n"]

    def start(self, name, **attributes):
        space = "" if self.open else f' xmlns="{self.uri}"'
        told = "".join(f' {it}="{value.translate(IN_XML)}"' for it, value in attributes.items())
        self.xml.append(f"<{name}{space}{told}>")
        self.lines.append(f'SE "{self.uri}" "{name}"\n')
        for it, value in attributes.items():
            self.lines.append(f'AT "" "{it}" text "{value.translate(IN_LINE)}"\n')
        self.open.append(name)

    def text(self, text):
        self.xml.append(text.translate(IN_XML))
        self.lines.append(f'CH text "{text.translate(IN_LINE)}"\n')

    def end(self):
        self.xml.append(f"</{self.open.pop()}>")
        self.lines.append("EE\n")

    def leaf(self, name, text, **attributes):
        self.start(name, **attributes)
        self.text(text)
        self.end()

    def done(self):
        while self.open:
            self.end()
        self.lines.append("ED\n")
        return "".join(self.xml).encode(), "".join(self.lines).encode()


class Chance:
    def __init__(self, seed):
        self.next = random.Random(seed).random

    def below(self, count):
        return int(self.next() * count)

    def one_of(self, items):
        return items[self.below(len(items))]

    def often_early(self, items):
        """One of the items, the first ones more often, as words of a language are."""
        return items[int(len(items) ** self.next()) - 1]

    def word(self, least, most):
        pairs = ("ba", "de", "gi", "lo", "mu", "ra", "se", "ti", "no", "ka", "ve", "pi")
        return "".join(self.one_of(pairs) for _ in range(least + self.below(most - least + 1)))

    def words(self, count):
        """So many different words, in the order of their making."""
        found = {}
        while len(found) < count:
            found[self.word(1, 5)] = None
        return list(found)


def order(count):
    chance = Chance(1)
    goods = [f"{chance.one_of('ABCDEF')}-{1000 + chance.below(9000)}" for _ in range(400)]
    notes = [" ".join(chance.word(2, 3) for _ in range(3)) for _ in range(30)]
    document = Document("urn:example:order")
    document.start("order", number="4711")
    document.leaf("customer", "Ångström & Söhne")
    for _ in range(count):
        document.start("line", sku=chance.often_early(goods))
        document.leaf("count", str(1 + chance.below(200)))
        cents = 5 * (1 + chance.below(60000))
        document.leaf("price", f"{cents // 100}.{cents % 100:02d}".removesuffix("0"), currency=chance.one_of(("EUR", "EUR", "SEK")))
        if chance.below(4) == 0:
            document.leaf("note", chance.one_of(notes))
        document.end()
    return document.done()


def meter(count):
    chance, total = Chance(2), 1000000
    document = Document("urn:example:meter")
    document.start("readings", meter="1EMH0012345678", unit="Wh")
    for at in range(count):
        quality = {"quality": chance.one_of(("estimated", "replaced"))} if chance.below(10) == 0 else {}
        document.start("reading", **quality)
        day, minute = divmod(15 * at, 1440)
        date = f"{2024 + day // 336}-{day // 28 % 12 + 1:02d}-{day % 28 + 1:02d}"
        document.leaf("start", f"{date}T{minute // 60:02d}:{minute % 60:02d}:00Z")
        document.leaf("duration", "900")
        total += chance.below(5000)
        document.leaf("value", str(total))
        document.end()
    return document.done()


def records(count):
    chance = Chance(3)
    names = chance.words(460)
    elements, attributes = names[:60], names[60:]
    shapes = {name: sorted({chance.one_of(attributes) for _ in range(24)}) for name in elements}
    states = chance.words(40)
    document = Document("urn:example:records")
    document.start("records")
    for _ in range(count):
        name = chance.often_early(elements)
        told = {}
        for at, it in enumerate(shapes[name]):
            if chance.below(3):
                continue
            number = f"{chance.below(100000)}"
            told[it] = (chance.one_of(states), number, f"{chance.below(360) - 180}.{number}")[at % 3]
        document.start(name, **told)
        document.end()
    return document.done()


def book(count):
    chance = Chance(4)
    words = chance.words(12000)
    for at in range(0, len(words), 37):
        words[at] = words[at].replace("a", "ä").replace("o", "ø").replace("e", "é")

    def run(least, most):
        said = [chance.often_early(words) for _ in range(least + chance.below(most - least + 1))]
        return " ".join(said).capitalize() + chance.one_of((". ", ", ", "? ", " & "))

    document = Document("urn:example:book")
    document.start("book", title=run(3, 5))
    for at in range(count):
        if at % 40 == 0:
            if at:
                document.end()
            document.start("chapter", number=str(at // 40 + 1))
        document.start("p")
        document.text(run(12, 60))
        for _ in range(chance.below(3)):
            document.leaf(chance.one_of(("em", "b", "q")), run(1, 3))
            document.text(run(8, 30))
        document.end()
    return document.done()


def make(name):
    """The XML and the event text of the document of this name."""
    kind, size = name.split("-")
    return {"order": order, "meter": meter, "records": records, "book": book}[kind](SIZES[kind][size])


def save(folder, names):
    for name in names:
        for end, data in zip(("xml", "events"), make(name)):
            with open(os.path.join(folder, f"{name}.{end}"), "wb") as file:
                file.write(data)


if __name__ == "__main__":
    if len(sys.argv) != 2:
        sys.exit("usage: documents.py FOLDER")
    save(sys.argv[1], NAMES)
