#!/usr/bin/env python3
"""quantlist.py REFERENCE: makes crates/quantlist/stdin and crates/quantlist/stdout.

REFERENCE is a Python file that has document 01's quantlist(header), which gives the bytes to write, written from the document
and not from this repository. The header is that of crates/readheader, a band list and 16 default kinds; before it is used
the reference must write `default=1` for byte 01 and refuse a raw header."""
import importlib.util
import os
import sys

CRATES = os.path.join(os.path.dirname(os.path.abspath(__file__)), "..", "crates")


def main():
    spec = importlib.util.spec_from_file_location("reference", sys.argv[1])
    reference = importlib.util.module_from_spec(spec)
    spec.loader.exec_module(reference)
    assert reference.quantlist(bytes([1])) == b"default=1\n"
    assert reference.quantlist(bytes.fromhex("4e0001")) == b"refused=5\nkind=0\nbit=20\n"
    with open(os.path.join(CRATES, "readheader", "stdin"), "rb") as f:
        header = f.read()
    with open(os.path.join(CRATES, "quantlist", "stdin"), "wb") as f:
        f.write(header)
    with open(os.path.join(CRATES, "quantlist", "stdout"), "wb") as f:
        f.write(reference.quantlist(header))


main()
