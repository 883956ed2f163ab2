#!/usr/bin/env python3
"""Compares the listings of the number machine's tests with other tools: each row's words with what GNU as makes of its assembly, and
what the row leaves in r3 with what the same program leaves there under qemu (user mode, POWER10).

Run it at the repository's top: scripts/programs_against_qemu.py. It is skipped, with status 0, where powerpc64le-linux-gnu-as,
its objcopy or qemu-ppc64le is missing.
"""
import re
import shutil
import struct
import subprocess
import sys
import tempfile
from pathlib import Path

TESTS = Path("crates/power_machine/src")
AS, OBJCOPY, QEMU = "powerpc64le-linux-gnu-as", "powerpc64le-linux-gnu-objcopy", "qemu-ppc64le"
DATA, TEXT = 0x1000, 0x1040


def constants(text):
    return {name: value.removeprefix("\\\n") for name, value in re.findall(r'const (\w+): &str =\s+"(.*?)";', text, re.S)}


def listings(text, known):
    """(rows, words before, words after) of each test that runs a listing."""
    word = r'(\w+|"[^"]*")'
    for rows, before, after in re.findall(rf"all_leave\(\s*&rt,\s*rt\.alloc\(\),\s*(\w+),\s*{word},\s*{word},?\s*\)", text):
        yield rows, *(w.strip('"') if w.startswith('"') else known[w] for w in (before, after))


def assembled(folder, assembly):
    source, made, binary = folder / "row.s", folder / "row.o", folder / "row.bin"
    source.write_text("\n".join(line.strip() for line in assembly.split(";")) + "\n")
    subprocess.run([AS, "-mregnames", "-mpower10", "-o", made, source], check=True)
    subprocess.run([OBJCOPY, "-O", "binary", "-j", ".text", made, binary], check=True)
    return [word for (word,) in struct.iter_unpack("<I", binary.read_bytes())]


def executable(numbers, words):
    body = struct.pack("<QQ", *numbers) + bytes(TEXT - DATA - 16) + struct.pack(f"<{len(words)}I", *words)
    head = b"\x7fELF\x02\x01\x01".ljust(16, b"\0")
    head += struct.pack("<HHIQQQIHHHHHH", 2, 21, 1, TEXT, 64, 0, 2, 64, 56, 1, 64, 0, 0)
    head += struct.pack("<IIQQQQQQ", 1, 7, 0x1000, DATA, DATA, len(body), len(body), 0x1000)
    return head.ljust(0x1000, b"\0") + body


def left_in_r3(folder, numbers, words):
    """The eight bytes that the program writes, as a number."""
    program = folder / "program"
    program.write_bytes(executable(numbers, words))
    program.chmod(0o755)
    run = subprocess.run([QEMU, "-cpu", "power10", program], capture_output=True, timeout=60)
    return int.from_bytes(run.stdout, "little") if run.returncode == 0 and len(run.stdout) == 8 else None


def hex_words(text):
    return [int(word, 16) for word in text.split()]


def main():
    if not all(map(shutil.which, (AS, OBJCOPY, QEMU))):
        print("skipped: GNU as for powerpc64le or qemu-ppc64le is missing")
        return 0
    text = (TESTS / "insn_tests.rt").read_text()
    known = constants((TESTS / "test_programs.rt").read_text()) | constants(text)
    count = wrong = 0
    with tempfile.TemporaryDirectory() as name:
        folder = Path(name)
        for rows, before, after in listings(text, known):
            for row in known[rows].splitlines():
                assembly, words, numbers, wanted = (column.strip() for column in row.split("|"))
                program = " ".join((known["START"], before, words, after, known["END"]))
                same = assembled(folder, assembly) == hex_words(words)
                left = left_in_r3(folder, hex_words(numbers), hex_words(program))
                count += 1
                if not same or left != int(wanted, 16):
                    wrong += 1
                    print(f"{rows}: {row}: the words agree: {same}; qemu leaves {'nothing' if left is None else f'{left:X}'}")
    print(f"{count} rows, {wrong} disagree")
    return 1 if wrong or not count else 0


sys.exit(main())
