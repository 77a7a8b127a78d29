#!/usr/bin/env python3
"""Shows of the machine code that the whole root multiplies and divides nowhere and uses no float (docs/DECISIONS.md, 31).

    python3 scripts/check_root.py LIBRARY

LIBRARY is the static library of capi, in a repository whose crates are proved. Its two places where roots are worked out, eight side
by side, are inlined, and known by the digits that they bring down: a shift to the right by 30. From such a loop on, before it and
behind it, there is nothing but moves, shifts, compares, logic, sums and differences, up to an instruction that belongs to what the
root is of, and to those that belong to what is made of it: they are named below, and any other one fails. The root of one number is
in no call of the library, so it is compiled alone, and all that is compiled has to be of those kinds.

A sum in the code is a counter, an address, or the compiler's form of a shift by one or of a difference; the source has none in a root.
"""
import pathlib
import re
import shutil
import subprocess
import sys
import tempfile

ROOT = pathlib.Path(__file__).resolve().parent.parent
PLAIN = re.compile(
    r"mov(zx|sx|sxd|d|q|dqa|dqu|aps|ups|abs)?|cmov\w+|lea|push|pop|nop|ret|pshufd|punpck\w+|pinsr[dq]|pextr[dq]|pmovzx\w+|extractps|insertps|p?blend\w+|"
    r"sh[lr]d?|sar|psll[dq]|psrl[dq]|psrad|"
    r"cmp|test|set\w+|j\w+|pcmp(gt|eq)d|"
    r"not|and|or|xor|pand|pandn|por|pxor|andps|andnps|orps|xorps|"
    r"add|sub|inc|dec|neg|sbb|adc|padd[dq]|psub[dq]"
)
# Where roots stand in the library: the last instruction before them that is of another kind, and the first ones behind them, one after the
# other, since a float step of a root could begin with a load as well. The chains: the copy of the numbers whose roots they are; a band's load
# and the ratio of two bands, its test and its first digit, of which the starts are made. The distances: the sum of the two squares; the
# product and the ratio that make positions of distances, and the first test of one.
PLACES = {
    "bands::three::chains": ("call memcpy", "movss", "divss", "ucomiss", "bsr"),
    "matrix::lists::fill_bands": ("addps", "mulps", "divps", "mulps", "divps", "ucomiss"),
}
ALONE = """// The whole root, alone.
#![tactic(auto)]

#[unsafe(no_mangle)]
pub extern "C" fn root_alone(x: u64) -> u64 {
    bands::whole_root(x)
}
"""
BELOW = ("transform", "bitstream", "bands")
PREFIXES = ("data16", "cs", "ds", "rep", "repz", "repnz", "bnd", "notrack")


def disassembler():
    """A program that reads x86-64 code, here or from Debian's packages."""
    for name in ("x86_64-linux-gnu-objdump", "objdump", "llvm-objdump", "llvm-objdump-14"):
        if shutil.which(name) and "x86-64" in subprocess.run([name, "--info" if "llvm" not in name else "--version"], capture_output=True, text=True).stdout:
            return name
    subprocess.run(["apt-get", "install", "-y", "binutils-x86-64-linux-gnu"], check=True, stdout=subprocess.DEVNULL)
    return "x86_64-linux-gnu-objdump"


def functions(library):
    """The instructions of each function, as mnemonic and operands."""
    name = disassembler()
    syntax = ["--x86-asm-syntax=intel"] if "llvm" in name else ["-M", "intel"]
    text = subprocess.run([name, "-dr", "--no-show-raw-insn", *syntax, str(library)], capture_output=True, text=True, check=True).stdout
    found, here = {}, None
    for line in text.splitlines():
        # (what the linker fills in stands behind its instruction: of a call, which function it is of)
        if moved := re.match(r"\s*[0-9a-f]+: R_X86_64_\w+\s+(\w*)", line):
            if here and here[-1][0] == "call":
                here[-1] = (f"call {moved.group(1)}", "")
        elif head := re.fullmatch(r"[0-9a-f]+ <(.+)>:", line):
            here = found.setdefault(head.group(1), [])
        elif here is not None and (step := re.match(r"\s*[0-9a-f]+:\s+(.+)", line)):
            words = step.group(1).split(None, 1)
            while words[0] in PREFIXES and len(words) > 1:
                words = words[1].split(None, 1)
            # (the two-byte form of a nop)
            step = ("nop", "") if words == ["xchg", "ax,ax"] else (words[0], words[1] if len(words) > 1 else "")
            here.append(step)
    return found


def brings_down(step):
    return step[0] == "psrld" and re.search(r",\s*(0x1e|30)\b", step[1])


def around(steps, behind):
    """What stands before the plain instructions around the digits' loop, and the first ones of another kind behind it."""
    at = [i for i, step in enumerate(steps) if brings_down(step)]
    first = at[0]
    while first > 0 and PLAIN.fullmatch(steps[first][0]):
        first -= 1
    others = [step[0] for step in steps[at[-1]:] if not PLAIN.fullmatch(step[0])]
    return steps[first][0], *others[:behind]


def compiled_alone():
    """The instructions of a library of one function, which calls `whole_root`."""
    with tempfile.TemporaryDirectory() as room:
        room = pathlib.Path(room)
        for name in BELOW:
            shutil.copytree(ROOT / "crates" / name, room / "crates" / name, ignore=shutil.ignore_patterns("out"))
        listed = [line for line in (ROOT / "crates.txt").read_text().splitlines() if line.split(":")[0] in BELOW]
        (room / "crates.txt").write_text("\n".join(listed) + "\nroot_alone staticlib: bands\n")
        (room / ".gitignore").write_text("out/\n")
        (room / "crates/root_alone/src").mkdir(parents=True)
        (room / "crates/root_alone/src/lib.rt").write_text(ALONE)
        subprocess.run(["rt", "lib"], cwd=room / "crates/root_alone", check=True, capture_output=True)
        found = functions(room / "crates/root_alone/out/libroot_alone.a")
    return [step for steps in found.values() for step in steps]


def main():
    bad = []
    found = {name: steps for name, steps in functions(sys.argv[1]).items() if any(map(brings_down, steps))}
    if set(found) != set(PLACES):
        bad.append(f"roots stand in {sorted(found)}, not in {sorted(PLACES)}")
    for name in set(found) & set(PLACES):
        stands = around(found[name], len(PLACES[name]) - 1)
        if stands != PLACES[name]:
            bad.append(f"{name}: {stands} around the roots, not {PLACES[name]}")
    alone = compiled_alone()
    others = sorted({step[0] for step in alone if not PLAIN.fullmatch(step[0])})
    if others or not alone:
        bad.append(f"whole_root alone: {others or 'nothing'}")
    for line in bad:
        print("root:", line, file=sys.stderr)
    if not bad:
        print(f"root: {len(alone)} instructions alone and two places in the library: no product, divide or float")
    return bool(bad)


if __name__ == "__main__":
    sys.exit(main())
