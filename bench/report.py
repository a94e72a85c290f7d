"""What is made of bench/results.json: tables, sentences and plots. No number in them is written by hand."""
import os
import statistics

import plots

MARKS = "<!-- bench -->", "<!-- /bench -->"
SIZES = ("small", "medium", "large")
FORMATS = {
    "xml": "XML",
    "gzip-6": "XML, gzip -6",
    "gzip-9": "XML, gzip -9",
    "zstd-3": "XML, zstd -3",
    "zstd-19": "XML, zstd -19",
    "fi": "Fast Infoset",
    "exi-bit": "EXI, bit-packed",
    "exi-byte": "EXI, byte-aligned",
    "exi-strict": "EXI, strict by a schema",
    "exi-byte-zstd": "EXI, byte-aligned, then zstd -3",
}
READERS = {
    "exi-bit": "exi read, bit-packed",
    "exi-byte": "exi read, byte-aligned",
    "exi-strict": "exi read, strict by a schema",
    "expat": "expat prints",
    "expat-quiet": "expat parses only",
    "gzip-expat": "gzip -d, expat prints",
    "zstd-expat": "zstd -d, expat prints",
    "fi": "Fast Infoset prints (warm Java)",
    "start": "a program that does nothing",
}
WRITERS = {
    "exi-bit": "exi write, bit-packed",
    "exi-byte": "exi write, byte-aligned",
    "exi-strict": "exi write, strict by a schema",
    "gzip-1": "gzip -1 of the XML",
    "gzip-6": "gzip -6 of the XML",
    "zstd-3": "zstd -3 of the XML",
    "fi": "XML to Fast Infoset (warm Java)",
    "start": "a program that does nothing",
}


# ---- numbers as text


def short(number):
    """A number with two or three digits that count."""
    return f"{number:.0f}" if number >= 9.95 else f"{number:.1f}" if number >= 0.995 else f"{number:.2f}"


def readers(found):
    """Their names, with that of the expat that was there."""
    return {key: it.replace("expat", found["expat"]) for key, it in READERS.items()}


def kind(name):
    return name.split("-")[0]


def of_size(found, size):
    return {name: it for name, it in found["documents"].items() if name.endswith(size)}


def ratios(documents, part, own, peer):
    """How often `peer` goes into `own`, from least to greatest, with the documents' kinds; those alone that have both."""
    both = [(kind(name), it[part]) for name, it in documents.items() if own in it[part] and peer in it[part]]
    return sorted((it[own] / it[peer], of) for of, it in both)


def span(least, greatest):
    """Both ends, each with its kind of document, or one number where they do not differ."""
    if short(least[0]) == short(greatest[0]):
        return short(least[0])
    return " to ".join(f"{short(number)} ({of})" for number, of in (least, greatest))


def times(pairs, peer):
    """`takes 1.2 (order) to 2.0 (book) times as long as PEER`, or how much faster it is, or both where it goes either way."""
    least, greatest = pairs[0], pairs[-1]
    faster = (1 / greatest[0], greatest[1]), (1 / least[0], least[1])
    if least[0] >= 1:
        return f"takes {span(least, greatest)} times as long as {peer}"
    if greatest[0] <= 1:
        return f"is {span(*faster)} times as fast as {peer}"
    return f"is {short(faster[1][0])} times as fast ({least[1]}) to {short(greatest[0])} times as slow ({greatest[1]}) as {peer}"


# ---- sentences


def sentences(found):
    expat = found["expat"]
    return "\n".join(
        [
            *said_of_times(found, "read", "Reading a large document without a schema, bit-packed, `exi read`", "exi-bit", {
                "expat": f"{expat} that prints the same lines of the XML",
                "expat-quiet": f"{expat} that only parses it",
                "gzip-expat": f"gzip -d with {expat} behind it, which prints",
                "zstd-expat": f"zstd -d with {expat} behind it, which prints",
                "fi": "Fast Infoset in a warm Java machine, which prints to memory",
            }),
            *said_of_times(found, "write", "Writing it from event text, `exi write`", "exi-bit", {
                "gzip-1": "gzip -1 of the XML",
                "gzip-6": "gzip -6",
                "zstd-3": "zstd -3",
                "fi": "Fast Infoset made of the XML in a warm Java machine",
            }),
            *said_of_itself(found),
            *said_of_starts(found),
            "",
            said_of_bytes(found),
        ]
    )


def said_of_times(found, part, head, own, peers):
    large = of_size(found, "large")
    told = [times(pairs, said) for peer, said in peers.items() if (pairs := ratios(large, part, own, peer))]
    return [f"- {head}", *listed(told)]


def listed(told):
    return [f"  - {it}{'.' if at == len(told) - 1 else ','}" for at, it in enumerate(told)]


def said_of_itself(found):
    """The program beside itself: alignment and schema."""
    large, lines = of_size(found, "large"), []
    for part, program in (("read", "exi read"), ("write", "exi write")):
        aligned = times(ratios(large, part, "exi-byte", "exi-bit"), "bit-packed")
        strict = times(ratios(large, part, "exi-strict", "exi-bit"), "without one")
        lines.append(f"- Byte-aligned `{program}` {aligned}; with a schema, strict, it {strict}.")
    return lines


def said_of_starts(found):
    """The time of small documents, which is that of the program's start."""
    small = of_size(found, "small").values()
    middle = lambda key: f"{short(statistics.median(it['read'][key] for it in small if key in it['read']))} ms"
    return [
        f"- A small document is read in {middle('exi-bit')} by `exi read`, in {middle('expat')} by {found['expat']}, and in"
        f" {middle('exi-strict')} by `exi read` with a schema, whose document is read anew in each run; a program that does nothing"
        f" takes {middle('start')}."
    ]


def said_of_bytes(found):
    """A stream's bytes beside those of each peer, by the size of the document."""
    heads = [f"{size}{form}" for form in ("", ", schema") for size in SIZES]
    rows = [["bytes of EXI, as a multiple of", *heads], ["---", *["---:" for _ in heads]]]
    for peer in ("xml", "gzip-6", "gzip-9", "zstd-3", "zstd-19", "fi"):
        cells = [ratios(of_size(found, size), "bytes", own, peer) for own in ("exi-bit", "exi-strict") for size in SIZES]
        if any(cells):
            rows.append([FORMATS[peer], *[span(it[0], it[-1]) if it else "" for it in cells]])
    return "\n".join(f"| {' | '.join(row)} |" for row in rows)


# ---- tables


def facts(found):
    lines = [
        f"Measured on {found['date']} by `{found['command']}`; each time is the median of {found['rounds']}.",
        f"Machine: {found['machine']}; its load was {found['load']} at the start.",
        f"Beside it: {'; '.join(found['versions'])}.",
    ]
    lines += [f"Not there: {it}." for it in found["missing"]]
    return "\n".join(lines)


def table(found, part, names, form):
    there = [key for key in names if any(key in it[part] for it in found["documents"].values())]
    rows = [
        ["document", "events", *[names[key] for key in there]],
        ["---", "---:", *["---:" for _ in there]],
    ]
    for name, it in found["documents"].items():
        numbers = [form(it[part][key]) if key in it[part] else "" for key in there]
        rows.append([name.replace("-", ", "), f"{it['events']:,}", *numbers])
    return "\n".join(f"| {' | '.join(row)} |" for row in rows)


def tables(found):
    return "\n\n".join(
        [
            facts(found),
            "## In short",
            sentences(found),
            "## Bytes",
            table(found, "bytes", FORMATS, lambda it: f"{it:,}"),
            "## Milliseconds: reading",
            table(found, "read", readers(found), short),
            "## Milliseconds: writing",
            table(found, "write", WRITERS, short) + "\n",
        ]
    )


def in_readme(found):
    pictures = "![Bytes of each format](bench/bytes.svg)\n\n![Milliseconds for the large documents](bench/time.svg)"
    return "\n\n".join([pictures, facts(found), sentences(found) + "\n"])


# ---- files


def between_marks(text, block, marks=MARKS):
    before, mark, rest = text.partition(marks[0])
    _, end, after = rest.partition(marks[1])
    return f"{before}{mark}\n\n{block}\n{end}{after}" if mark and end else None


def files(found, top):
    """The files that are made of the results, by name: a text that has the marks keeps what stands around them."""
    made = {"bench/bytes.svg": plots.of_bytes(found, FORMATS), "bench/time.svg": plots.of_times(found, readers(found), WRITERS)}
    for name, block in (("bench/RESULTS.md", tables(found)), ("README.md", in_readme(found))):
        with open(os.path.join(top, name), encoding="utf-8") as file:
            text = between_marks(file.read(), block)
        if text is not None:
            made[name] = text
    return made
