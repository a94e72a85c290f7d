"""The program that is measured, what tools/exi-xml makes by it, and what it prints."""
import os
import re
import subprocess
import sys


def program(top):
    """The program that EXI names, or that of this repository; None where there is none."""
    named = os.environ.get("EXI")
    for path in [named] if named else [f"{top}/crates/exi_cli/out/exi_cli", f"{top}/exi"]:
        if os.path.isfile(path) and os.access(path, os.X_OK):
            return os.path.abspath(path)
    return None


def no_program():
    return f"there is no program {os.environ.get('EXI', '')}: `make` builds it, or EXI names it"


def encoded(top, exi, path, *options):
    """The stream that tools/exi-xml makes of an XML document; None where it makes none."""
    words = [sys.executable, f"{top}/tools/exi-xml", "encode", path, *options]
    ran = subprocess.run(words, stdout=subprocess.PIPE, check=False, env={**os.environ, "EXI": exi})
    return None if ran.returncode else ran.stdout


def plain(lines):
    """What `exi read` printed, with each value as a text and without the last line, as the documents' event text is; None where
    the stream was not read to its end."""
    kept, _, last = lines.removesuffix(b"\n").rpartition(b"\n")
    if not last.startswith(b"done "):
        return None
    return re.sub(rb'^(CH|AT "[^"]*" "[^"]*") [a-z0-9]+ "', rb'\1 text "', kept + b"\n", flags=re.MULTILINE)
