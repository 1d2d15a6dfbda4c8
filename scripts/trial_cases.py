"""Cases of `trial`: the lines of an independent model, arguments in their ranges and out of them, and writes that fail."""
from case_lines import Expected
from told_cases import not_understood, say
from worked_cases import failed


def add_trials(cases, path):
    """Adds the lines of a file of an independent model, `SEED SOURCES PICTURES | LINE` and `generate SEED SOURCES PICTURES source K
    BYTES`, and arguments.
    """
    told = dict(line.strip().split(" | ") for line in open(path) if " | " in line)
    cases.about("trial: lines of an independent model, twice each, and a byte a write")
    for numbers, line in told.items():
        text = line.encode() + b"\n"
        cases.case(f"trial {numbers}", Expected(out=text))
        cases.case(f"trial {numbers}", Expected(out=text), "pieces out 1")
    cases.about("trial: the bytes of streams that it makes")
    for line in filter(lambda line: line.startswith("generate "), open(path)):
        numbers, stream = line.removeprefix("generate ").split(" source ")
        number, made = stream.split()
        cases.line(f"generated {numbers} {number}", made)
    cases.about("trial: writes that fail")
    words, text = "trial 1 1 1", told["1 1 1"].encode() + b"\n"
    for call in (0, 1, len(text) - 1):
        say(cases, words, failed("write fault", text[:call]), "pieces out 1", f"fail out {call}")
    cases.case(words, Expected(out=text), "pieces out 1", f"fail out {len(text)}")
    say(cases, words, failed("write fault"), "fail out 0")
    cases.about("trial: numbers out of their ranges, or spelled otherwise, and other words")
    none = ("1 0 1", "1 17 1", "1 1 0", "1 1 1001", "4294967296 1 1", "01 1 1", "1 01 1", "1 1 01", "+1 1 1", "-1 1 1", "1 1", "1", "1 1 1 1", "a 1 1",
            "1 a 1", "1 1 a", "1.0 1 1", "18446744073709551617 1 1", "--level 51 1 1 1")
    not_understood(cases, "trial", *(f"trial {numbers}" for numbers in none), "Trial 1 1 1", "check trial 1 1 1", "--trial 1 1 1")
