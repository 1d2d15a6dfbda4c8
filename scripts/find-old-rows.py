#!/usr/bin/env python3
"""Looks for the rows of tests of an earlier commit among the lines of vx_vectors and vx_cases, and lists those that it doesn't find.

usage: scripts/find-old-rows.py COMMIT

COMMIT still has the tests, which were in nine crates. A row is a literal of them: bytes (a byte string, an array, hexadecimal digits), or a
line of a text of items, tiles, places in bits or printed lines. Bytes are found if they are a word of a line, the payload of a unit, or
part of a stream after a start code. A text is found if each of its parts is in a line. If a refusal follows bytes in the test, the output
of the line that has them has to name it. The script doesn't look at what a line does, nor at what a test composes by calls or loops.
"""
import pathlib
import re
import subprocess
import sys

from bit_text import hexadecimal

TESTS = r"crates/vx_(?:ptl|rpl|sps|pps|ph|sh|pic|assemble|report)/src/(?:tests\w*|cases)\.rt"
TOP = pathlib.Path(__file__).resolve().parent.parent
NUMBER = r"(?:0[xb][0-9A-Fa-f_]+|\d+)"
LITERAL = re.compile(rf'b?"(?:[^"\\]|\\.|\\\n)*"|\[\s*{NUMBER}(?:\s*,\s*{NUMBER})*\s*,?\s*\]', re.S)
TEXT = re.compile(r'\d=-?\d|^sps \d|\{"|^[A-Z]\d+\b|^field=|^columns=|^unpartitioned|^\d+ Err|^[ls]\d|Refused')
REFUSAL = re.compile(r"(Profile|Limit|structure)\s*(?:\{\s*code:|\()\s*(\d+)"
                     r"|(?:syntax|outside|refused)\(\s*(\d+),\s*(\d+)(?:,\s*BitCause::(\w+))?\s*\)")
TOLD = re.compile(r"(?:Err\()?Refused\((?:Syntax \{ field: (\d+), bit: (\d+), cause: (\w+) \}|Limit \{ code: (\d+) \})\)+")


def git(*words):
    return subprocess.run(["git", *words], cwd=TOP, capture_output=True, text=True, check=True).stdout


def lines_of(crate, name):
    return (TOP / "crates" / crate / name).read_text().splitlines()


def answered():
    """Returns the last word of each line of vx_vectors, and each stream that vx_cases shows, with the output; without the pictures of
    streams.
    """
    asked = [line.split(" ")[-1] for line in lines_of("vx_vectors", "stdin") if line != "pictures"]
    answers = [line for line in lines_of("vx_vectors", "stdout") if line and not line.startswith(("picture ", "slice subpicture="))]
    lines = [line.split(" ") for line in lines_of("vx_cases", "stdin")]
    streams = {name: "".join(parts) for word, name, *parts in filter(lambda words: words[0] == "stream", lines)}
    cases, told = [words[1:] for words in lines if words[0] == "case"], lines_of("vx_cases", "stdout")
    assert len(asked) == len(answers) and len(cases) == len(told)
    return [*zip(asked, answers), *((streams[case[1]], answer) for case, answer in zip(cases, told) if len(case) == 2 and case[1] in streams)]


ANSWERED = answered()
ALL = "\n".join(line for crate in ("vx_vectors", "vx_cases") for name in ("stdin", "stdout") for line in lines_of(crate, name))
WORDS = set(re.split("[ =\n]", ALL))


def value(literal):
    """Returns the bytes or the lines of a literal; None if it is no row."""
    if literal.startswith("["):
        numbers = [int(number.replace("_", ""), 0) for number in re.findall(NUMBER, literal)]
        return bytes(numbers) if re.search("0[xb]", literal) or len(numbers) > 3 and not any(numbers) else None
    text = re.sub(r"\\\n\s*", "", literal[literal.index('"') + 1:-1]).encode().decode("unicode_escape")
    if TEXT.search(text):
        return None if re.search(r"\{\w*(:\?)?\}", text) else text.splitlines()
    return text.encode("latin-1") if literal[0] == "b" else bytes.fromhex(text) if re.fullmatch("(?:[0-9a-f]{2})+", text) else None


def are_found(row, refusal, front):
    """Returns whether bytes are in a line, whose output has the refusal if one is given. `front` zero bytes come before them in a word.
    """
    digits, payload = row.hex() or "-", re.sub(rb"\0\0(?=[\0-\3])", b"\0\0\3", row).hex()
    start = "" if digits.startswith("000001") else "000001"
    word = re.compile(rf"{'00' * front}{digits}|[0-9a-f]{{4}}{payload}|[0-9a-f]*{start}{digits}.*")
    if refusal is None:
        return any(map(word.fullmatch, WORDS))
    kind, code, field, bit, cause = refusal.groups("OutOfRange")
    told = rf"refused {kind[0]} code={code}\b|err={kind[0].upper()}{code}_|refused Y field={field} bit={bit} cause={cause}"
    return any(re.search(told, answer) and word.fullmatch(asked) for asked, answer in ANSWERED)


def is_found(line, front):
    """Returns whether each part of a line of a text is in a line; bits are searched in hexadecimal."""
    def told(is_):
        return f"= refused L code={is_[4]}" if is_[4] else f"= refused Y field={is_[1]} bit={int(is_[2]) + 8 * front} cause={is_[3]}"
    line = re.sub(r"^(\d+) (?=.*(?:Ok|Err)\()", r"at=\1 = ", TOLD.sub(told, line)).replace("Ok(())", "")
    parts = [part.strip() for side in re.split("(?:^| )[=:] ", line) for part in re.split(r"(?<![=\d,])(?=\d+=)|^sps ", side, maxsplit=1)]
    return all(any(found in ALL for found in (part, part.replace(" ", ","), part.encode().hex()))
               or re.fullmatch("[01]+", part) and hexadecimal(part) in WORDS for part in parts if part)


def rows_of(text, front):
    """Returns the rows of a file of tests, each with whether it is found. `front` zero bytes come before them in the words of lines."""
    text = re.sub(r"^\s*//.*$", "", text, flags=re.M)
    rows = [(at, value(at.group())) for at in LITERAL.finditer(text) if value(at.group()) is not None]
    for (at, row), end in zip(rows, [*(at.start() for at, _ in rows[1:]), len(text)]):
        if isinstance(row, bytes):
            yield row.hex(" "), are_found(row, REFUSAL.search(text, at.end(), end), front)
        else:
            yield from ((line, is_found(line, front)) for line in row)


for path in git("ls-tree", "-r", "--name-only", sys.argv[1]).splitlines():
    if re.fullmatch(TESTS, path):  # slice headers come after an id of eight bits
        found = list(rows_of(git("show", f"{sys.argv[1]}:{path}"), int(path == "crates/vx_sh/src/tests.rt")))
        print(f"{path}: {len(found)} rows, {sum(is_there for _, is_there in found)} found")
        print("".join(f"  not found: {row[:100]}\n" for row, is_there in found if not is_there), end="")
