#!/usr/bin/env python3
"""Compares `ppclink show` with `readelf -SsrW`, line by line, on objects that a real assembler wrote.

Run it after `rt ci`, at the repository's top: scripts/show_against_readelf.py [PROGRAM]. Where the program isn't there it says so and ends with 2. It is
skipped, with status 0 and a line that says what is missing, where there is no assembler for powerpc64le (powerpc64le-linux-gnu-as, or clang that has the
target) or no readelf.
"""
import re
import shutil
import subprocess
import sys
import tempfile
from pathlib import Path

PROGRAM = Path(sys.argv[1] if len(sys.argv) > 1 else "crates/ppclink/out/ppclink").resolve()
TYPES = {"NULL": 0, "PROGBITS": 1, "SYMTAB": 2, "STRTAB": 3, "RELA": 4, "NOTE": 7, "NOBITS": 8, "REL": 9,
         "INIT_ARRAY": 14, "FINI_ARRAY": 15, "GROUP": 17, "LLVM_ADDRSIG": 0x6FFF4C03}
FLAGS = {"W": 1, "A": 2, "X": 4, "M": 0x10, "S": 0x20, "I": 0x40, "L": 0x80, "G": 0x200, "T": 0x400, "C": 0x800, "E": 0x80000000}
KINDS = {"NOTYPE": 0, "OBJECT": 1, "FUNC": 2, "SECTION": 3, "FILE": 4, "COMMON": 5, "TLS": 6}
BINDINGS = {"LOCAL": 0, "GLOBAL": 1, "WEAK": 2}
INDICES = {"UND": 0, "ABS": 0xFFF1, "COM": 0xFFF2}

SOURCES = {
    "calls": """
        .abiversion 2
        .text
        .globl _start
        .type _start,@function
_start: addis 2,12,.TOC.-_start@ha
        addi 2,2,.TOC.-_start@l
        .localentry _start,.-_start
        addis 3,2,value@toc@ha
        ld 3,value@toc@l(3)
        bl other
        nop
        blr
        .size _start,.-_start
        .data
        .p2align 3
value:  .quad _start+16
        .quad value-8
        .bss
        .space 64
        .comm shared,24,8
        .weak missing
        .section .debug_info,"",@progbits
        .quad _start
    """,
    "empty": "\t.abiversion 2\n",
    "tables": "\t.abiversion 2\n\t.text\n" + "".join(f"\t.globl f{i}\nf{i}:\tbl f{(i * 7 + 3) % 300}\n\tnop\n" for i in range(300)),
}


def assembler():
    if shutil.which("powerpc64le-linux-gnu-as"):
        return lambda source, out: ["powerpc64le-linux-gnu-as", "-o", out, source]
    clang = shutil.which("clang")
    if clang and "ppc64le" in subprocess.run([clang, "--print-targets"], capture_output=True, text=True).stdout:
        return lambda source, out: [clang, "--target=powerpc64le-linux-gnu", "-c", "-o", out, source]
    return None


def readelf(option, path):
    return subprocess.run(["readelf", option, path], capture_output=True, text=True, check=True).stdout.splitlines()


def sections(path):
    row = re.compile(r"\s*\[\s*(\d+)\] (.*?)\s+(\S+)\s+[0-9a-f]{16} [0-9a-f]+ ([0-9a-f]+) [0-9a-f]+ (.{3})\s+\d+\s+(\d+)\s+(\d+)$")
    found = {}
    for line in readelf("-SW", path):
        m = row.match(line)
        if m and m[3] in TYPES:
            flags = sum(FLAGS[c] for c in m[5].strip())
            found[int(m[1])] = (m[2].strip(), TYPES[m[3]], flags, int(m[7]), int(m[4], 16), int(m[6]))
    return found


def expected(path):
    table = sections(path)
    lines = [f"section {i} {t:08x} {f:016x} {a:016x} {s:016x} {n}" for i, (n, t, f, a, s, _) in sorted(table.items()) if i]
    symbol = re.compile(r"\s*(\d+): ([0-9a-f]{16})\s+(\w+) (\w+)\s+(\w+)\s+(\w+)\s+(?:\[(.*?)\]\s+)?(\w+)\s?(.*)$")
    for line in readelf("-sW", path):
        m = symbol.match(line)
        if m and int(m[1]):
            other = re.search(r"(\d+)$", m[7] or "")
            bits = {0: 0, 1: 1, 4: 2, 8: 3, 16: 4, 32: 5, 64: 6}[int(other[1])] << 5 if other else 0
            info = BINDINGS[m[5]] * 16 + KINDS[m[4]]
            index = INDICES.get(m[8]) if m[8] in INDICES else int(m[8])
            name = "" if m[4] == "SECTION" else m[9].strip()
            lines.append(f"symbol {m[1]} {info:02x} {bits:02x} {index:04x} {int(m[2], 16):016x} {int(m[3], 0):016x} {name}")
    names = {n: i for i, (n, *_) in table.items()}
    record = re.compile(r"([0-9a-f]{16})\s+([0-9a-f]{16}) \S+\s+(.*)$")
    current, count = None, 0
    for line in readelf("-rW", path):
        head = re.match(r"Relocation section '(.*?)'", line)
        if head:
            current, count = names[head[1]], 0
        m = record.match(line)
        if m and current is not None:
            if table[table[current][5]][2] & 2:
                sign = re.search(r"([+-] )?([0-9a-f]+)$", m[3])
                addend = int(sign[2], 16) * (-1 if sign[1] == "- " else 1) if sign else 0
                info = int(m[2], 16)
                lines.append(f"record {current} {count} {int(m[1], 16):016x} {info & 0xFFFFFFFF} {info >> 32} {addend % 2 ** 64:016x}")
            count += 1
    return lines


def main():
    if not PROGRAM.is_file():
        print(f"no program {PROGRAM}: `rt ci` leaves it there, or name one")
        return 2
    make = assembler()
    if not make:
        print("skipped: no assembler for powerpc64le: neither powerpc64le-linux-gnu-as nor a clang with that target")
        return 0
    if not shutil.which("readelf"):
        print("skipped: no readelf")
        return 0
    failed = 0
    with tempfile.TemporaryDirectory() as folder:
        for name, text in SOURCES.items():
            source, out = f"{folder}/{name}.s", f"{folder}/{name}.o"
            Path(source).write_text(text)
            made = subprocess.run(make(source, out), capture_output=True, text=True)
            if made.returncode:
                print(f"{name}: skipped: the assembler doesn't take it: {made.stderr.strip()}")
                continue
            shown = subprocess.run([PROGRAM, "show", out], capture_output=True, text=True)
            wanted = expected(out)
            same = shown.returncode == 0 and shown.stdout.splitlines() == wanted
            print(f"{name}: {len(wanted)} lines {'agree' if same else 'DIFFER'}")
            if not same:
                failed = 1
                for a, b in zip(shown.stdout.splitlines(), wanted):
                    if a != b:
                        print(f"  show    {a}\n  readelf {b}")
    return failed


sys.exit(main())
