#!/usr/bin/env python3
"""Cases of `--explain`: the texts of all rules and of every fifth field, and arguments that it doesn't know.

Run alone, it replaces these cases in crates/vx_cases. scripts/make-cases.py makes all cases, but reads files that aren't in the repository.
"""
from explanations import ROOT, fields, pages, rules
from case_lines import Cases, Expected
from told_cases import GRAY_LINES, not_understood, say
from worked_cases import A, failed

# Every how many fields one is a case.
STRIDE = 5


def add_explained(cases):
    refusals, numbers = pages()
    told = {text.split()[0]: text.encode() for text in [*rules(refusals), *list(fields(numbers))[::STRIDE]]}
    cases.about("explain: each rule, and every fifth field")
    for word, text in told.items():
        cases.case(f"--explain {word}", Expected(out=text))
    cases.about("explain: a byte a write, and writes that fail")
    words, text = "--explain M8", told["M8"]
    cases.case(words, Expected(out=text), "pieces out 1")
    for call in (0, 1, len(text) - 1):
        say(cases, words, failed("write fault", text[:call]), "pieces out 1", f"fail out {call}")
    cases.case(words, Expected(out=text), "pieces out 1", f"fail out {len(text)}")
    say(cases, words, failed("write fault"), "fail out 0")
    cases.about("explain: behind another command it is a file's name")
    cases.named("--explain", A)
    cases.case("show --explain", Expected(out=GRAY_LINES))
    cases.case("extract 0 --explain", Expected(out=A))
    cases.about("explain: words that are no rule and no number of a field, and other places of it")
    none = ("m8", "M", "M0", "M17", "M08", "M8x", "Y1", "L12", "X1", "field", "0", "4", "24", "736", "0606", "+606", "606.", "99999999999999999999",
            "--explain", "M8|", "|M8")
    not_understood(cases, *(f"--explain {word}" for word in none), "--explain", "--explain M8 M9", "--explain M8 606", "M8", "M8 --explain",
                   "--explain=M8", "--Explain M8", "--help M8", "check --explain M8", "extract --explain M8")


def main():
    """Replaces the lines of these cases: from their first heading to the next heading that isn't theirs."""
    cases = Cases()
    add_explained(cases)
    files = [ROOT / "crates/vx_cases" / name for name in ("stdin", "stdout")]
    given, made = (file.read_text().split("\n") for file in files)
    first = given.index(cases.given[1]) - 1
    behind = next(i for i in range(first + 1, len(given)) if given[i].startswith("# ") and not given[i].startswith("# explain: ")) - 1
    outputs = [sum(line.startswith(("case", "pushed ", "generated ")) for line in given[:i]) for i in (first, behind)]
    given[first:behind] = cases.given
    made[outputs[0]:outputs[1]] = cases.made
    for file, lines in zip(files, (given, made)):
        file.write_text("\n".join(lines))


if __name__ == "__main__":
    main()
