"""Two plots as SVG, with nothing but text. Each document has a band, and each program a lane in it with a mark at its number, on a
logarithmic scale; grey text and colours of middle brightness can be read on a light and on a dark page."""
from math import log10
from xml.sax.saxutils import escape

WIDTH, LEFT, RIGHT = 880, 100, 36
LANE, GAP, HEAD, LEGEND_LINE = 8, 12, 30, 22
GREY = "#6e7884"
FONT = "font-family=\"'Segoe UI', 'DejaVu Sans', Helvetica, Arial, sans-serif\""

# what is drawn: its colour, its form and whether it is filled; the program's own marks are filled
OWN = {"exi-bit": ("#e8590c", "disc"), "exi-byte": ("#e8a30c", "square"), "exi-strict": ("#e64980", "diamond")}
PEERS = {
    "gzip-1": ("#228be6", "right"),
    "gzip-6": ("#228be6", "up"),
    "gzip-expat": ("#228be6", "up"),
    "zstd-3": ("#12b886", "down"),
    "zstd-expat": ("#12b886", "down"),
    "expat": ("#9775fa", "square"),
    "expat-quiet": ("#9775fa", "cross"),
    "fi": ("#a08060", "disc"),
}
STYLES = {**{key: (*it, True) for key, it in OWN.items()}, **{key: (*it, False) for key, it in PEERS.items()}}


def mark(key, x, y):
    colour, form, is_filled = STYLES[key]
    paint = f'fill="{colour}" stroke="{colour}"' if is_filled else f'fill="none" stroke="{colour}"'
    size = 4.2
    shapes = {
        "disc": f'<circle cx="{x:.1f}" cy="{y:.1f}" r="{size}"',
        "square": f'<rect x="{x - 3.8:.1f}" y="{y - 3.8:.1f}" width="7.6" height="7.6"',
        "diamond": path((x, y - 5.2), (x + 5.2, y), (x, y + 5.2), (x - 5.2, y)),
        "up": path((x, y - 4.8), (x + 4.8, y + 3.6), (x - 4.8, y + 3.6)),
        "right": path((x - 3.6, y - 4.6), (x + 4.8, y), (x - 3.6, y + 4.6)),
        "down": path((x, y + 4.8), (x + 4.8, y - 3.6), (x - 4.8, y - 3.6)),
        "cross": f'<path d="M{x - 4:.1f} {y - 4:.1f}L{x + 4:.1f} {y + 4:.1f}M{x - 4:.1f} {y + 4:.1f}L{x + 4:.1f} {y - 4:.1f}"',
    }
    return f'{shapes[form]} {paint} stroke-width="1.8"/>'


def path(*points):
    return f'<path d="M{"L".join(f"{x:.1f} {y:.1f}" for x, y in points)}Z"'


def text(x, y, said, anchor="start", size=13, weight="normal"):
    style = f'text-anchor="{anchor}" font-size="{size}" font-weight="{weight}" fill="{GREY}"'
    return f'<text x="{x:.1f}" y="{y:.1f}" {style}>{escape(said)}</text>'


class Scale:
    """From a number to its place, by powers."""

    def __init__(self, numbers, steps=(1, 2, 5)):
        low, high = min(numbers), max(numbers)
        every = [step * 10.0**power for power in range(-6, 9) for step in steps]
        self.low = max(it for it in every if it <= low)
        self.high = min(it for it in every if it >= high)
        self.ticks = [it for it in every if self.low <= it <= self.high]

    def at(self, number):
        part = log10(number / self.low) / log10(self.high / self.low)
        return LEFT + part * (WIDTH - LEFT - RIGHT)


class Picture:
    def __init__(self, title, said):
        self.title = f"<title>{escape(title)}: {escape(said)}</title>"
        self.parts, self.y = [text(0, 18, title, size=16, weight="bold"), text(0, 40, said)], 52

    def legend(self, keys, names):
        x, self.y = 6, self.y + 14
        for key in keys:
            wide = 34 + 6.7 * len(names[key])
            if x + wide > WIDTH:
                x, self.y = 6, self.y + LEGEND_LINE
            self.parts += [mark(key, x, self.y - 4.5), text(x + 12, self.y, names[key])]
            x += wide
        self.y += 14

    def heading(self, said):
        self.parts.append(text(0, self.y + 18, said, weight="bold"))
        self.y += HEAD

    def panel(self, rows, keys, scale, unit, is_last):
        """Rows are pairs of a label and the numbers by key."""
        top = self.y
        for at, (label, numbers) in enumerate(rows):
            tall = LANE * len(keys) + GAP
            if at % 2 == 0:
                place = f'x="0" y="{self.y}" width="{WIDTH - RIGHT}" height="{tall}"'
                self.parts.append(f'<rect {place} fill="{GREY}" fill-opacity="0.12"/>')
            self.parts.append(text(8, self.y + tall / 2 + 4.5, label))
            for lane, key in enumerate(keys):
                if key in numbers:
                    self.parts.append(mark(key, scale.at(numbers[key]), self.y + GAP / 2 + LANE * (lane + 0.5)))
            self.y += tall
        grid = "".join(f"M{scale.at(it):.1f} {top}V{self.y}" for it in scale.ticks)
        self.parts.insert(2, f'<path d="{grid}" stroke="{GREY}" stroke-opacity="0.35" fill="none"/>')
        if is_last:
            self.parts += [text(scale.at(it), self.y + 18, f"{it:g}{unit}", "middle", 12) for it in scale.ticks]
            self.y += 22
        self.y += 8

    def svg(self):
        lines = "\n".join(self.parts)
        size = f'width="{WIDTH}" height="{self.y}" viewBox="0 0 {WIDTH} {self.y}"'
        return f'<svg xmlns="http://www.w3.org/2000/svg" role="img" {size} {FONT}>\n{self.title}\n{lines}\n</svg>\n'


def drawn(keys, rows):
    return [key for key in keys if any(key in numbers for _, numbers in rows)]


def of_bytes(found, names):
    keys = ["exi-bit", "exi-byte", "exi-strict", "gzip-6", "zstd-3", "fi"]
    panels = []
    for size in ("small", "medium", "large"):
        rows, xml = [], []
        for name, it in found["documents"].items():
            if name.endswith(size):
                whole = it["bytes"]["xml"]
                xml.append(whole)
                rows.append((name.split("-")[0], {key: 100 * it["bytes"][key] / whole for key in keys if key in it["bytes"]}))
        ends = list(dict.fromkeys([amount(min(xml)), amount(max(xml))]))
        panels.append((f"{size}: {' to '.join(ends)} of XML", rows))
    every = [row for _, rows in panels for row in rows]
    keys = drawn(keys, every)
    scale = Scale([100, *[it for _, numbers in every for it in numbers.values()]])
    picture = Picture("Bytes", "as a part of the XML's, on a logarithmic scale; further left is smaller")
    picture.legend(keys, names)
    for at, (heading, rows) in enumerate(panels):
        picture.heading(heading)
        picture.panel(rows, keys, scale, " %", at == len(panels) - 1)
    return picture.svg()


def amount(count):
    return f"{count:.0f} bytes" if count < 10000 else f"{count / 1000:.0f} kB" if count < 1000000 else f"{count / 1000000:.1f} MB"


def of_times(found, readers, writers):
    large = {name: it for name, it in found["documents"].items() if name.endswith("large")}
    xml = [it["bytes"]["xml"] for it in large.values()]
    size = " to ".join(dict.fromkeys([amount(min(xml)), amount(max(xml))]))
    picture = Picture("Time", f"milliseconds for a large document ({size} of XML), on a logarithmic scale; further left is faster")
    for heading, part, names in (("Reading", "read", readers), ("Writing", "write", writers)):
        keys = [key for key in names if key != "start"]
        rows = [(name.split("-")[0], {key: it[part][key] for key in keys if key in it[part]}) for name, it in large.items()]
        keys = drawn(keys, rows)
        scale = Scale([it for _, numbers in rows for it in numbers.values()])
        picture.heading(heading)
        picture.legend(keys, names)
        picture.panel(rows, keys, scale, " ms", True)
    return picture.svg()
