#!/usr/bin/env python3
"""Counts the places in src/ that docs/DESIGN-PASS.md speaks of: older forms, by a pattern each.

places.py [--list] [TREE]: a line for each pattern with its point and count; --list shows the places too."""
import glob
import re
import sys

KINDS = [
    # point, what it counts, the pattern of a line
    (1, "a field or parameter `number: usize`", r"^\s*(pub )?number: usize,|\(number: usize|, number: usize"),
    (1, "a test `.number != 0`", r"\.number != 0"),
    (1, "`number: 0,` in an answer", r"^\s*number: 0,"),
    (1, "a flag beside a value: `more`, `missing`, `ends`, `ok`", r"^\s*(pub )?(more|missing|ends|ok): bool,"),
    (1, "a comment that a number stands for none", r"^\s*//.*(0 for none|0 if none|0 where there is none|, 0 if neither|65,536 (where|for|when)|64 where there is none"
     r"|32 where it has none|n where there is none|that of all names where|, else 0\.|0 and 0 for none)"),
    (1, "a kind byte compared", r"kind [!=]= b'"),
    (1, "an enum of the shape of Option", r"^\s*Nothing,$"),
    (2, "a function of a pair of twins that the reading found", r"fn (write[2345]|write_advanced|write_asked|mark|unmark|is_marked|set_bit|clear_bit|all_symbols|is_blank"
     r"|after_(line_start|named|named_spaced|open|open_spaced|filled|filled_spaced|noted)|report_lines|codes_lines|explain_lines|too_short|row_words|has_record)\("),
    (3, "`while`", r"^\s*('\w+: )?while "),
    (3, "`loop`", r"^\s*('\w+: )?loop \{"),
    (4, "an arm `=> true,` or `=> false,`", r"=> (true|false),"),
    (4, "`return true;` or `return false;`", r"return (true|false);"),
    (4, "a cast by `as`", r" as (u8|u16|u32|u64|usize)\b"),
    (4, "a function that the library has: `larger`, `least`, `one_if`, `both`, `either`, `wide`, `narrow`, `same_name`, `or_else`",
     r"fn (larger|least|one_if|both|either|wide|narrow|same_name|or_else)\("),
    (5, "the fact that names stand in a table, of five parameters", r"Table text\.now entries"),
    (5, "the fact that bits, reasons and index are ready", r"Ready bits\.old"),
    (5, "the fact that flags are 0 or 1", r"Bits (flags|useful)\."),
    (5, "the fact that a record has twelve bytes", r"length bytes\.now ≡ 12"),
    (5, "the fact that an array of keys has room for 256", r"length keys\.old ≡ 256|length kept\.old"),
    (5, "the fact that a bit table is long enough", r"bits_size ≤ length"),
    (5, "the fact that keys are those of rules", r"requires rules \{ Keys "),
    (6, "a part of an array by its count: `&x[0..n]`", r"&\w+\[0\.\.\w+\]"),
    (6, "a buffer with its count as parameters", r"(keys: &(mut )?\[u32\], n: usize|items: &mut \[u16\], kept: usize|letters: &mut \[u8\], taken: usize"
     r"|entries: &(mut )?\[u16\],|out: &mut \[u8\], at: usize)"),
    (7, "a switch passed: `write: bool`, `there: bool`, `direction`", r"(write|there): bool|direction: Direction"),
]


def main():
    args = [a for a in sys.argv[1:] if a != "--list"]
    tree = args[0] if args else "."
    sources = sorted(glob.glob(f"{tree}/crates/*/src/*.rt"))
    for point, what, pattern in KINDS:
        found = []
        for path in sources:
            for number, line in enumerate(open(path), 1):
                if re.search(pattern, line) and not line.lstrip().startswith("ghost use"):
                    found.append(f"{path[len(tree) + 1:]}:{number}: {line.strip()}")
        print(f"{point}  {len(found):4}  {what}")
        if "--list" in sys.argv:
            print("".join(f"         {place}\n" for place in found), end="")
    answers = glob.glob(f"{tree}/crates/*/proofs/**/Answers.antt", recursive=True)
    invariants = glob.glob(f"{tree}/crates/*/proofs/**/Invariants.antt", recursive=True)
    lines = sum(len(open(path).readlines()) for path in answers + invariants)
    print(f"8  {len(answers):4}  functions with a file of answers")
    print(f"8  {lines:4}  lines of answers and invariants")


main()
