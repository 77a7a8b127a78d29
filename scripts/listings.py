#!/usr/bin/env python3
"""Runs target/bin/importer and target/bin/matrixlist on the headers of those vectors of tests/vectors that have the digest of what
such a program must list, and compares. Says how many agree; fails on a difference, and where there is no such vector."""
import hashlib
import os
import subprocess
import sys

from cases import ROOT, vectors


def main():
    agree, differ = 0, []
    for name, v in vectors():
        if v["call"] not in ("importer", "matrixlist") or "want.text.sha256" not in v:
            continue
        program = os.path.join(ROOT, "target", "bin", v["call"])
        listed = subprocess.run([program], input=bytes.fromhex(v["header"]), stdout=subprocess.PIPE, check=True).stdout
        if hashlib.sha256(listed).hexdigest() == v["want.text.sha256"]:
            agree += 1
        else:
            differ.append(name)
    print("listings: %d agree" % agree, *differ)
    return bool(differ) or not agree


sys.exit(main())
