#!/usr/bin/env python3
"""Checks the pages: README.md, CHANGELOG.md, docs/ and what scripts make for them. Takes some seconds and needs no compiler except `cc`.

    scripts/check-docs.py [--words | --make]

It checks that

- generated pages and texts, and the cases of vx_cases, are what their scripts make;
- links lead to files and anchors that are there;
- files, scripts, functions and definitions in backticks exist;
- numbers between marks are right (scripts/page_numbers.py);
- code blocks are of the kinds that doc_blocks.py names, C blocks compile, and shown texts of `--explain` and `--help` are right;
- each page says at its beginning who it is for, and has at most its number of words;
- no sentence has more than 45 words, and those of a page at most 25 on average;
- words that the style rules exclude don't stand on a page, nor in the comments of the crates of MOVED_CRATES.

A fault is a line `FILE:LINE: what`. The last line is `N passed, M failed, K skipped`, and the status is 1 if anything failed. --words
prints the words of each page and its mean sentence instead, and --make runs the scripts that make pages and texts, in their order.
"""
import argparse
import functools
import os
import pathlib
import re
import shutil
import subprocess
import sys
import tempfile
from concurrent.futures import ThreadPoolExecutor

import believed
import page_numbers
from case_lines import Expected
from doc_blocks import BadPage, agrees, blocks, commands

ROOT = pathlib.Path(__file__).resolve().parent.parent
LONGEST, MEAN, LINES_OF_README = 45, 25, 140
# The most words of each page, and whether it is one for users.
PAGES = {
    "README.md": (1650, True),
    "docs/GUIDE.md": (2200, True),
    "docs/COMMANDS.md": (1800, True),
    "docs/ENCODING.md": (2200, True),
    "docs/REFUSALS.md": (3000, True),
    "docs/LIBRARY.md": (1300, True),
    "docs/SPEED.md": (900, True),
    "docs/ASSURANCE.md": (2000, False),
    "docs/PROMISE.md": (4000, False),
    "docs/DEFINITIONS.md": (3500, False),
    "docs/TESTED.md": (1500, False),
    "docs/WORDS.md": (1400, False),
    "docs/CONTRIBUTING.md": (2200, False),
    "docs/ARCHITECTURE.md": (3000, False),
    "docs/TABLES.md": (4000, False),
    "docs/DECISIONS.md": (4500, False),
    "CHANGELOG.md": (None, True),
    "examples/film/README.md": (None, True),
}
# What makes generated pages and texts, each after what it reads. A script that isn't there is skipped.
MADE = (
    ("scripts/list-fields.sh", "docs/generated/FIELDS.md"),
    ("scripts/field_names.py", "crates/vx_fields/src/text.rt"),
    ("scripts/explanations.py", "crates/vx_explain/src/text.rt"),
    ("scripts/believed.py", "docs/generated/BELIEVED.md and believed/"),
    ("scripts/contracts.py", "docs/generated/CONTRACTS.md"),
    ("scripts/costs-page.py", "docs/generated/COSTS.md"),
    ("scripts/speed-chart.py", "docs/images/speed.svg, docs/generated/MEASURED.md and docs/SPEED.md"),
    ("scripts/draw-crates.py", "docs/images/crates.svg"),
    ("scripts/doc_cases.py", "crates/vx_cases/stdin and stdout"),
)
# What --make runs too; other checks see whether it is up to date.
ALSO_MADE = ("scripts/explain_cases.py", "scripts/numbers.py")
# Words that stand on no page, each with what to write instead. A phrase in ALLOWED may have them anywhere, and a page in EXCEPT one of them.
BANNED = (
    # Common words (rule 7).
    (r"behind", "after"),
    (r"(?:comes?|came|coming) to(?! (?:(?:a|an|the|its) )?end| which)", "means, is"),
    (r"(?:stands?|stood) for", "means, is"),
    (r"but for", "except"),
    (r"aside", "except"),
    (r"alone", "only"),
    (r"(?:for )?want of", "lack of"),
    (r"(?<!in )(?:front|fronts) of|(?:a|the|that|this|proper|its) fronts?", "prefix"),
    (r"tells|told|telling", "returns, reports, prints, says"),
    (r"answers? (?:that|with|none|by|how|whether|the|a)|(?:is|are|was|were|be) answered", "returns, reports"),
    (r"beside (?:this|that|these|those|which|what)", "with, as well as, besides"),
    # Present state (rule 4).
    (r"this text|(?:first|last|earlier|later|present|an older|the older) texts?", "say it of the program, or in CHANGELOG"),
    (r"landings?", "leave it out"),
    (r"no longer|any ?more|formerly|until now|(?:an|the) earlier versions?", "say how it is"),
    (r"(?:was|were|wasn't|weren't) (?:measured|slower|faster)(?: before)?|(?:wasn't|weren't) seen", "say how it is, with a link to the measurement"),
    (r"the last change", "leave it out"),
    # Numbers (rule 5).
    (r"some (?:\d[\d,]*|two|three|four|five|ten|hundreds?|thousands?|dozens?)", "the number"),
    (r"as machines go|give or take", "name the machine"),
    # Persons (rule 13).
    (r"we|us|somebody|someone|whoever|anybody", "you, or the part that does it"),
    (r"(?:(?<=[.,;:] )|(?<=\bif )|(?<=\bwhen )|(?<=\bthat )|(?<=\bas )|(?<=\bhow )|(?<=\bwhat )|(?<=\band )|(?<=\bwhich ))one (?:can|may|has|needs|should|must|would|sees|gets|wants|knows|reads)", "you, or the part that does it"),
    # The repository stands alone.
    (r"issues? #?\d+|#\d+|[DTRW]\d{1,2}", "say the thing itself"),
    (r"\.\./shared|/(?:work|root|opt|tmp|home)/\S*", "no path of a machine"),
)
# On pages for users.
BANNED_FOR_USERS = ((r"words?(?! of the [Ss]tandard)", "argument"),)
ALLOWED = re.compile(
    r"(?:decoded|decode|decodes|decoding|played|plays|play|read|stands?|standing|run|runs|leaves?|left|each|it|itself|compiled|built|tested|tried|proved|refused|region) alone"
    # A comment of crates/vx_run/specs/Show.antt, which would prove vx_run and all crates above it again: to be mended with the next change there.
    r"|what is told if it is asked for"
    r"|one step aside|(?:in|by) other words|words not understood|(?:in|of) ordinary words|key ?words?|[\d,<>a-zA-Z-]+ words at most|U\.S|contiguous us|WORDS",
    re.I,
)
EXCEPT = {
    "CHANGELOG.md": {"it speaks of earlier versions": ("no longer", "earlier", "was", "were", "#")},
    "docs/CONTRIBUTING.md": {"it names the rules of style": ("behind", "words", "we", "alone")},
    "docs/WORDS.md": {"it explains words": ("word", "words")},
}
# Crates whose comments have been written anew, and may not have the words of COMMENT_BANNED.
MOVED_CRATES = """
    vx_again vx_annexb vx_app vx_aps vx_assemble vx_bits vx_c vx_calls vx_cases vx_explain vx_extract vx_fields vx_fit
    vx_frame vx_gen vx_io vx_layout vx_merge vx_ph vx_pic vx_play vx_pps vx_ptl vx_push vx_report vx_rpl vx_run
    vx_segments vx_sei vx_sh vx_sps vx_table vx_trial vx_vectors vx_verify vx_write
""".split()
COMMENT_BANNED = tuple(
    (form, other) for form, other in BANNED if other not in ("leave it out", "the number", "only", "except", "say how it is", "you, or the part that does it")
)
# Names in backticks that stand in no file of the repository.
FOREIGN = set(
    "ffmpeg ffprobe jq cat gcc clang cc ar rt git sh bash python python3 perf valgrind mandoc mp4box MP4Box vvenc vvdec VTM NAL GPAC gpac vvencapp "
    "vvencFFapp EncoderApp DecoderApp malloc realloc free stdin stdout stderr errno ctypes pkg-config Cargo memcpy setts "
    # Options of encoders, in ENCODING.
    "SliceLevelRpl SliceLevelDblk SliceLevelSao SliceLevelDeltaQp IntraPeriod DecodingRefreshType MaxNumALFAPS".split()
)
EXTENSIONS = ("rt", "antt", "md", "sh", "py", "h", "c", "tsv", "json", "txt", "edit", "twin", "svg", "png", "266")
FOLDERS = ("scripts", "docs", "crates", "examples", "include", "tests", ".ci", "src", "specs", "proofs", "must-fail")


class Report:
    """What passed, what failed and what was skipped."""

    def __init__(self):
        self.passed = self.failed = self.skipped = 0

    def take(self, what, faults):
        """Counts a check, with its faults."""
        for fault in dict.fromkeys(faults):
            print(fault)
        self.failed += bool(faults)
        self.passed += not faults

    def skip(self, what, reason):
        """Counts a check that isn't made."""
        print(f"{what}: skipped, {reason}")
        self.skipped += 1


# ---- the text of pages

FENCE = re.compile(r"^( *)(`{3,})[^\n]*\n(.*?\n)?\1\2`* *$", re.M | re.S)
SPAN = re.compile(r"(?<!`)(`+)(?!`)(.+?)(?<!`)\1(?!`)", re.S)
COMMENT = re.compile(r"<!--.*?-->", re.S)
LINK = re.compile(r"(!?)\[((?:[^\[\]]|\[[^\[\]]*\])*)\]\(([^)\s]*)(?: \"[^\"]*\")?\)")


def blank(text):
    """A text of as many lines, with nothing in them."""
    return "\n" * text.count("\n")


def without_blocks(text):
    """The text without its fenced blocks, in lines as before."""
    return FENCE.sub(lambda m: blank(m[0]), text)


def line_at(text, place):
    """The number of the line of a place."""
    return text.count("\n", 0, place) + 1


def prose(text):
    """The paragraphs, items and cells of a page: the line where each begins, its text with `CODE` for code, and whether it is a cell or a heading."""
    text = COMMENT.sub(lambda m: blank(m[0]), without_blocks(text))
    text = SPAN.sub(lambda m: "CODE" + blank(m[2]), text)
    text = LINK.sub(lambda m: ("" if m[1] else m[2]) + blank(m[3]), text)
    found, begun = [], None
    for number, line in enumerate(text.split("\n"), 1):
        bare = line.strip()
        item = re.match(r"(?:[-*+]|\d+\.) +(.*)", bare)
        bare = item[1] if item else bare.removeprefix("> ").removeprefix(">")
        if not bare or bare.startswith(("#", "|")) or item:
            begun = None
        if bare.startswith("#"):
            found.append([number, bare.lstrip("# "), True])
        elif bare.startswith("|"):
            cells = (cell.strip() for cell in bare.strip("|").split("|"))
            found += [[number, cell, True] for cell in cells if re.search(r"\w", cell)]
        elif bare and begun is None:
            begun = [number, bare, False]
            found.append(begun)
        elif bare:
            begun[1] += "\n" + bare
    return [tuple(one) for one in found]


SENTENCE = re.compile(r"(?<=[.!?:])(?:[\"')*_]*)\s+(?=[\"'(*_]*(?:[A-Z0-9]|CODE))")


def sentences(text):
    """The sentences of a page: line, number of words, text, and whether it stands in a cell or heading."""
    for line, part, apart in prose(text):
        at = 0
        for end in [*(m.end() for m in SENTENCE.finditer(part) if ends_here(part, m.start())), len(part)]:
            one = part[at:end]
            yield line + part.count("\n", 0, at), len(re.findall(r"\S*\w\S*", one)), " ".join(one.split()), apart
            at = end


def ends_here(part, place):
    """A point or a colon ends a sentence: a colon only at the end of a line before a list, so never within a text; and no point of an abbreviation."""
    return part[place - 1] != ":" and not re.search(r"(?:\b(?:e\.g|i\.e|vs|cf|No|clauses?|Dr)|\s\.)\.$", part[:place])


def slug(heading):
    """The anchor of a heading."""
    heading = LINK.sub(r"\2", heading)
    heading = re.sub(r"[^\w\- ]", "", SPAN.sub(r"\2", heading).strip().lower())
    return heading.replace(" ", "-")


@functools.cache
def anchors(path):
    """The anchors of a page."""
    text, found, seen = without_blocks(path.read_text()), set(), {}
    for m in re.finditer(r"^#+ +(.*?) *#*$", text, re.M):
        one = slug(m[1])
        found.add(f"{one}-{seen[one]}" if one in seen else one)
        seen[one] = seen.get(one, 0) + 1
    return found | set(re.findall(r'<a (?:id|name)="([^"]*)"', text))


# ---- the checks of a page


def link_faults(path, text):
    """Links that lead nowhere."""
    plain = without_blocks(text)
    plain = SPAN.sub(lambda m: m[0] if "](" in m[0] else "CODE" + blank(m[2]), plain)
    for m in LINK.finditer(plain):
        target, _, anchor = m[3].partition("#")
        if re.match(r"[a-z]+:", target):
            continue
        file = (path.parent / target).resolve() if target else path
        if not file.exists():
            yield line_at(plain, m.start()), f"no file {m[3]}"
        elif anchor and file.suffix == ".md" and anchor not in anchors(file):
            yield line_at(plain, m.start()), f"no anchor {m[3]}"


def words_of(path):
    """The words of a file."""
    return re.findall(r"[^\W\d][\w']*|◌\S+◌", path.read_text(errors="replace"))


@functools.cache
def in_proofs(word):
    """The word stands in a proof."""
    folders = [str(path) for path in (ROOT / "crates").glob("*/proofs")]
    return not subprocess.run(["grep", "-rqwF", "--", word, *folders], stderr=subprocess.DEVNULL).returncode


@functools.cache
def house():
    """All words of the code, all files by their names, and all paths in crates."""
    words, names, paths = set(FOREIGN), set(), set()
    folders = ("crates", "scripts", "include", "examples", "tests", "docs", ".ci")
    for folder in folders:
        for path in (ROOT / folder).rglob("*"):
            if path.name == "__pycache__" or path.suffix == ".pyc":
                continue
            names |= {path.name, path.stem}
            parts = path.relative_to(ROOT).parts
            paths.add("/".join(parts))
            if folder == "crates" and len(parts) > 2:
                paths.add("/".join(parts[2:]))
            if path.is_file() and path.suffix in (".rt", ".antt", ".h", ".c", ".py", ".sh") and "proofs" not in parts:
                words.update(words_of(path))
    names |= {path.name for path in ROOT.iterdir()} | {path.stem for path in ROOT.iterdir()}
    return words, names, paths | {path.name for path in ROOT.iterdir()}


def path_exists(name, page):
    """A path in backticks exists: from the root, from the page, or in a crate; NAME, CRATE and the like stand for anything."""
    _, _, paths = house()
    name = name.rstrip("/").removeprefix("./")
    if name in paths or f"{name}.antt" in paths or (page.parent / name).exists() or (ROOT / name).exists():
        return True
    if "*" not in name and not re.search(r"\b[A-Z][A-Z_0-9]*\b", name):
        return False
    parts = [re.escape(part).replace(r"\*", "[^/]*") for part in name.split("/")]
    parts = [".*" if part == "[^/]*[^/]*" else re.sub(r"\b[A-Z][A-Z_0-9]*\b(?=$|\\\.)", "[^/]*", part) for part in parts]
    form = re.compile("/".join(parts))
    return any(form.fullmatch(path) for path in paths)


def name_faults(path, text):
    """Files and names in backticks that aren't there."""
    words, names, _ = house()
    plain = without_blocks(text)
    fenced = " ".join(m[3] or "" for m in FENCE.finditer(text))
    for m in SPAN.finditer(plain):
        code, line = m[2].strip(), line_at(plain, m.start())
        for file in re.findall(r"(?<![\w./-])((?:scripts|docs|crates|examples|include|tests)/[\w.*/-]*[\w*/])", code):
            if not path_exists(file, path):
                yield line, f"no file `{file}`"
        if re.search(r"[\s<>=(){},;|&$\"%+]", code.removesuffix("()")) or code.startswith("-"):
            continue
        if "/" in code:
            if code.split("/")[0] in FOLDERS and not path_exists(code, path):
                yield line, f"no file `{code}`"
        elif re.fullmatch(rf"[\w.*-]+\.(?:{'|'.join(EXTENSIONS)})", code):
            if not path_exists(code, path) and not re.match(r"[A-Z]+\.", code) and code not in names and code not in fenced and "*" not in code:
                yield line, f"no file `{code}`"
        elif re.fullmatch(r"[^\W\d][\w']*(?:(?:::|\.)[^\W\d][\w']*)*(?:\(\))?", code):
            for word in re.findall(r"[^\W\d][\w']*", code):
                if word not in words and word not in names and not re.fullmatch(r"[A-Z][A-Z_]*", word) and word not in fenced and not in_proofs(word):
                    yield line, f"no name `{code}`"
                    break


def mark_faults(path, text):
    """Numbers between marks that are wrong."""
    return [(1, fault) for fault in page_numbers.faults_of(path)]


KINDS = ("console", "c", "sh", "json", "text", "rust", "xml", "python", "diff")


def block_faults(path, text):
    """Blocks that are of no kind, or not of a form that is run."""
    try:
        found = blocks(path)
        for block in found:
            if block.kind not in KINDS:
                yield block.line, f"a block of the kind {block.kind or 'nothing'}"
            elif block.kind == "sh" and not block.reason:
                yield block.line, "a block of sh without `not-run: REASON`"
            elif block.kind in ("text", "json", "rust") and re.search(r"^\$ |^ *(?:goosequince|rt|scripts/\S+\.sh) ", block.text, re.M):
                yield block.line, f"a command in a block of {block.kind}"
            elif block.kind == "console":
                commands(block)
    except BadPage as fault:
        place, _, what = str(fault).partition(": ")
        yield int(place.rpartition(":")[2]), what
    plain, before = without_blocks(text).split("\n"), ""
    for number, line in enumerate(plain, 1):
        if line.startswith("    ") and not before.strip() and not in_list(plain, number - 1):
            yield number, "an indented block; write a fenced one"
        before = line


def in_list(lines, at):
    """The line stands in an item of a list."""
    while at > 0:
        at -= 1
        if lines[at].strip() and not lines[at].startswith(" "):
            return bool(re.match(r"(?:[-*+]|\d+\.) ", lines[at]))
    return False


def compiles(code):
    """What the C compiler says of code, as a file or as the body of a function; nothing if it compiles."""
    with tempfile.TemporaryDirectory() as folder:
        file, declared = pathlib.Path(folder) / "block.c", set()
        head = "#include <goosequince.h>\n#include <stdio.h>\n#include <stdlib.h>\n#include <string.h>\n"
        said = ""
        for form in ("%s", "int block(void);\nint block(void) {\n%s\nreturn 0;\n}\n"):
            for _ in range(30):
                file.write_text(head + "".join(f"int {name}();\n" for name in sorted(declared)) + form % code)
                flags = "-std=c99 -Wall -Wextra -Werror -Wno-unused -Wno-unused-parameter -Wno-strict-prototypes -Wno-return-type -fsyntax-only".split()
                made = subprocess.run(["cc", *flags, f"-I{ROOT / 'include'}", file], capture_output=True, text=True, env={"LC_ALL": "C", "PATH": "/usr/bin:/bin:/usr/local/bin"})
                if not made.returncode:
                    return ""
                missing = set(re.findall(r"(?:implicit declaration of function|call to undeclared function) '(\w+)'", made.stderr)) - declared
                if not missing:
                    break
                declared |= missing
            said = "; ".join(re.findall(r"error: (.*)", made.stderr)[:2]) or "it doesn't compile"
        return said


def c_faults(path, text):
    """C blocks that don't compile, each by itself or after those before it on the page."""
    before = ""
    try:
        found = [block for block in blocks(path) if block.kind == "c" and not block.reason]
    except BadPage:
        return
    for block in found:
        said = compiles(block.text)
        if said and before and not compiles(before + block.text):
            said = ""
        if said:
            yield block.line, f"C that doesn't compile: {said}"
        before += block.text


@functools.cache
def printed():
    """What `--explain WORD`, `--help` and `--version` print, by the command, as the texts of crates/ have it."""
    explained = re.search(r'\*b"(.*)"', (ROOT / "crates/vx_explain/src/text.rt").read_text(), re.S)[1]
    found = {f"--explain {part.split()[0]}": part for part in explained.split("|")}
    about = (ROOT / "crates/vx_run/src/about.rt").read_text()
    texts = re.findall(r'fn (help|version)\(\).*?b"(.*?)"\n', about, re.S)
    plain = {f"--{name}": text.replace("\\n", "\n").replace('\\"', '"').replace("\\\\", "\\") for name, text in texts}
    return {words: text.rstrip("\n").split("\n") for words, text in {**found, **plain}.items()}


def text_faults(path, text):
    """Shown texts of `--explain`, `--help` and `--version` that the program doesn't print."""
    try:
        found = [command for block in blocks(path) if block.kind == "console" for command in commands(block)]
    except BadPage:
        return
    for command in found:
        shown = "\n".join(command.shown).rstrip().split("\n")
        words = " ".join(command.words)
        if command.program == "goosequince" and words in printed() and not command.output and not agrees(shown, printed()[words]):
            yield command.line, f"`goosequince {words}` prints: {' / '.join(printed()[words])[:160]} .."


def word_count(text):
    """The words of a page: what `wc -w` counts, without the marks of numbers, and without the bars and dashes of tables."""
    return len(re.findall(r"\S*\w\S*", re.sub(r"<!-- from: .*? -->|<!-- / -->", "", text)))


def size_faults(path, text):
    """A page that is too long, or doesn't say who it is for."""
    name = str(path.relative_to(ROOT))
    most = PAGES.get(name, (None, False))[0]
    if most and word_count(text) > most:
        yield 1, f"{word_count(text):,} words, and at most {most:,} are allowed"
    if name == "README.md" and text.count("\n") > LINES_OF_README:
        yield 1, f"{text.count(chr(10))} lines, and at most {LINES_OF_README} are allowed"
    first = [part for _, part, apart in prose(text) if not apart][:2]
    if most and not any(re.search(r"\b[Ff]or\b", part) for part in first):
        yield 1, "its first two lines don't say who it is for"


def sentence_faults(path, text):
    """Sentences that are too long."""
    counted = []
    for line, count, one, apart in sentences(text):
        if count > LONGEST:
            yield line, f"a sentence of {count} words: {one[:70]} .."
        if not apart and count > 2:
            counted.append(count)
    if counted and sum(counted) > MEAN * len(counted):
        yield 1, f"a mean sentence of {sum(counted) / len(counted):.1f} words, and at most {MEAN} are allowed"


@functools.cache
def patterns(forms):
    """The forms of a list, compiled: all at once, and each with what to write instead."""
    all_forms = [(rf"(?<![\w`/.-])(?:{form})(?![\w`])", re.I if not form.startswith(("issues", r"\.\.")) else 0, other) for form, other in forms]
    any_form = re.compile("|".join(f"(?i:{form})" for form, _, _ in all_forms))
    return any_form, [(re.compile(form, flags), other) for form, flags, other in all_forms]


def banned_in(text, forms):
    """The words of a list in a text: the place of each, the word, and what to write instead."""
    any_form, each = patterns(forms)
    if not any_form.search(text):
        return
    free = [m.span() for m in ALLOWED.finditer(text)]
    for form, other in each:
        for m in form.finditer(text):
            if m[0] != "US" and not any(begin <= m.start() and m.end() <= end for begin, end in free):
                yield m.start(), m[0], other


def style_faults(path, text):
    """Words that stand on no page."""
    name = str(path.relative_to(ROOT))
    free = [word for words in EXCEPT.get(name, {}).values() for word in words]
    for_users = PAGES.get(name, (None, False))[1] and name != "CHANGELOG.md"
    for line, part, _ in prose(text):
        for place, word, other in banned_in(part, BANNED + BANNED_FOR_USERS if for_users else BANNED):
            if not any(word.lower().startswith(one) for one in free):
                yield line + part.count("\n", 0, place), f'"{" ".join(word.split())}": {other}'


CHECKS = {
    "links": link_faults,
    "names": name_faults,
    "numbers": mark_faults,
    "blocks": block_faults,
    "C": c_faults,
    "texts": text_faults,
    "size": size_faults,
    "sentences": sentence_faults,
    "style": style_faults,
}


# ---- what isn't of one page


def makers(report):
    """Checks what scripts make."""

    def ask(script):
        done = subprocess.run([ROOT / script, "--check"], capture_output=True, text=True, cwd=ROOT)
        return (done.stderr or done.stdout).strip().split("\n")[-1] if done.returncode else ""

    def ask_believed(script):
        # In this process, which needs its numbers too.
        wrong = believed.differing(believed.pages())
        return f"{', '.join(path.name for path in wrong)} differ: run {script}" if wrong else ""

    there = [(script, made) for script, made in MADE if (ROOT / script).exists()]
    with ThreadPoolExecutor() as pool:
        asked = [pool.submit(ask_believed if script.endswith("believed.py") else ask, script) for script, _ in there]
        for (script, made), answer in zip(there, asked):
            said = answer.result()
            report.take(script, [f"{script} --check: {made}: {said}"] if said else [])
    for script, made in MADE:
        if not (ROOT / script).exists():
            report.skip(made, f"there is no {script}")


def man_page(report):
    """Checks that scripts/man-page.py makes a page of what `--help` prints."""
    text = (ROOT / "crates/vx_run/src/about.rt").read_text()
    help_text = re.search(r'fn help\(\).*?b"(.*?)"\n', text, re.S)
    if not help_text:
        report.take("man page", ["crates/vx_run/src/about.rt: no text of --help is found"])
        return
    plain = help_text[1].replace("\\n", "\n").replace('\\"', '"').replace("\\\\", "\\")
    made = subprocess.run([ROOT / "scripts/man-page.py"], input=plain, capture_output=True, text=True)
    good = not made.returncode and all(f".Sh {part}" in made.stdout for part in ("NAME", "SYNOPSIS", "EXIT STATUS"))
    report.take("man page", [] if good else [f"scripts/man-page.py: {made.stderr.strip().split(chr(10))[-1] or 'it makes no page of --help'}"])


def stored_texts(report):
    """Checks that the stored answers of vx_cases to `--explain`, `--help` and `--version` are the texts of crates/."""
    given, answers = ((ROOT / "crates/vx_cases" / name).read_text().split("\n") for name in ("stdin", "stdout"))
    answers, settings, wrong = iter(answers), False, []
    for number, line in enumerate(given, 1):
        verb, _, words = line.partition(" ")
        if verb in ("case", "pushed", "generated"):
            answer = next(answers, "")
            text = printed().get(words) if verb == "case" and not settings else None
            if text and answer != Expected(out="".join(f"{one}\n" for one in text).encode()).line():
                wrong.append(f"crates/vx_cases/stdin:{number}: the stored answer to `{words}` isn't what the program prints")
            settings = False
        elif verb and verb not in ("stream", "#"):
            settings = True
    report.take("stored texts", wrong)


def comment_faults(crate):
    """Words in comments of a crate that stand on no page."""
    for path in sorted((ROOT / "crates" / crate).rglob("*")):
        if path.suffix not in (".rt", ".antt") or path.relative_to(ROOT).parts[2] not in ("src", "specs"):
            continue
        mark = r"(?:///?|//!)" if path.suffix == ".rt" else r"--(?!-)"
        for number, line in enumerate(path.read_text().split("\n"), 1):
            if m := re.match(rf"\s*{mark}\s?(.*)", line):
                said = SPAN.sub("CODE", m[1])
                for _, word, other in banned_in(said, COMMENT_BANNED):
                    yield f'{path.relative_to(ROOT)}:{number}: "{word}": {other}'


def comments(report):
    """Checks the comments of crates that were written anew, and counts what stands in those of the others."""
    counts = {}
    for crate in sorted(path.name for path in (ROOT / "crates").iterdir() if path.is_dir()):
        faults = list(comment_faults(crate))
        if crate in MOVED_CRATES:
            report.take(crate, faults)
        elif faults:
            counts[crate] = len(faults)
    if counts:
        print(f"comments: {sum(counts.values()):,} words to replace in crates that aren't in MOVED_CRATES: " + ", ".join(f"{crate} {n}" for crate, n in counts.items()))


def pages():
    """The pages that are written by hand."""
    found = [ROOT / name for name in PAGES]
    return [path for path in dict.fromkeys([*found, *sorted((ROOT / "docs").glob("*.md"))]) if path.exists()]


def main():
    """Checks all, or prints the sizes of pages."""
    parser = argparse.ArgumentParser(description="Checks README.md, CHANGELOG.md, docs/ and what scripts make for them.")
    parser.add_argument("--words", action="store_true", help="print the words of each page, its most, and its mean and longest sentence")
    parser.add_argument("--make", action="store_true", help="run the scripts that make pages and texts")
    asked = parser.parse_args()
    if asked.make:
        scripts = [script for script in (*(script for script, _ in MADE), *ALSO_MADE) if os.access(ROOT / script, os.X_OK)]
        return max(subprocess.run([ROOT / script], cwd=ROOT, stdout=subprocess.DEVNULL).returncode for script in scripts)
    if asked.words:
        for path in pages():
            name, counts = str(path.relative_to(ROOT)), [n for _, n, _, apart in sentences(path.read_text()) if not apart and n > 2] or [0]
            print(f"{name}\t{word_count(path.read_text())}\t{PAGES.get(name, ('',))[0] or ''}\t{sum(counts) / len(counts):.1f}\t{max(counts)}")
        return 0
    report = Report()
    makers(report)
    man_page(report)
    stored_texts(report)
    for path in pages():
        text = path.read_text()
        for name, check in CHECKS.items():
            if name == "C" and not shutil.which("cc"):
                report.skip(f"{path.relative_to(ROOT)}: C blocks", "there is no cc")
                continue
            report.take(name, [f"{path.relative_to(ROOT)}:{line}: {fault}" for line, fault in check(path, text)])
    for path in sorted((ROOT / "docs/generated").rglob("*.md")):
        text = path.read_text()
        faults = [f"{path.relative_to(ROOT)}:{line}: {fault}" for line, fault in link_faults(path, text)]
        if not re.match(r".*\bscripts/[\w-]+\.(?:py|sh)\b", text):
            faults.append(f"{path.relative_to(ROOT)}:1: its first line doesn't name its script")
        report.take("links", faults)
    comments(report)
    print(f"{report.passed} passed, {report.failed} failed, {report.skipped} skipped")
    return 1 if report.failed else 0


if __name__ == "__main__":
    sys.exit(main())
