#!/usr/bin/env python3
"""Makes docs/generated/BELIEVED.md and docs/generated/believed/: the definitions, tables and types that each promise rests on.

    scripts/believed.py [--check | --of NAME]

A definition of specs/ rests on what its text names: names that its file defines, and names that the `use` lines of the file bring.
Constants and tables of src/ do so by the `use` lines of Rust. A type rests on the types of its fields and on what its `impl Model` says,
and a macro on what its rows name. The script follows these names from the definitions that state a promise.

With --check nothing is written, and the status is 1 if a page isn't what would be written. --of prints what the definitions of
that name rest on. Names that can't be resolved are reported on standard error. scripts/numbers.py takes its numbers from here.
"""
import argparse
import bisect
import functools
import pathlib
import re
import sys
from collections import defaultdict
from dataclasses import dataclass, field

ROOT = pathlib.Path(__file__).resolve().parent.parent
CRATES = ROOT / "crates"
PAGE = ROOT / "docs/generated/BELIEVED.md"
FOLDER = ROOT / "docs/generated/believed"
# The function whose clauses are the whole promise, and the traits that its arguments implement.
RUN = ("vx_run.src.program", "run")
TRAITS = {("vx_io.src.read", "Source"), ("vx_io.src.write", "Sink")}
# Each promise: its key in scripts/numbers.py, its letter in the lists, its name, and the definitions that state it.
READERS = "vx_pic.specs.H266.AreOfH266"
PROMISES = (
    ("show", "s", "`show`", ("vx_run.specs.Show.Shows",)),
    ("extract", "e", "`extract`", ("vx_run.specs.Extract.Extracts",)),
    ("check_extract", "c", "`check extract`", ("vx_run.specs.Extract.Checks",)),
    ("merge", "m", "`merge`", ("vx_run.specs.Merge.Merges",)),
    ("check_merge", "c", "`check merge`", ("vx_run.specs.Merge.ChecksMerge",)),
    ("play", "p", "`play`", ("vx_run.specs.Play.Plays",)),
    ("verify", "v", "`verify merge`", ("vx_run.specs.Verify.Verifies",)),
    ("trial", "t", "`trial`", ("vx_run.specs.Trial.Trials",)),
    ("extract_again", "", "what `extract` wrote, read again", ("vx_run.specs.ReadAgain.IsReadAgain", READERS)),
    ("merge_again", "", "what `merge` wrote, read again", ("vx_run.specs.MergeAgain.IsMergedAgain", READERS)),
    ("play_again", "", "what `play` wrote, read again", ("vx_run.specs.Play.PlayedIsReadAgain",)),
    ("readers", "h", "the readers of H.266", (READERS,)),
    ("input", "i", "the decoding input of a slice", ("vx_pic.specs.Inputs.Input", "vx_pic.specs.Inputs.inputs_of")),
    ("whole", "", "`run` and the last write of `main`", ("vx_run.specs.Whole.RunsWhole",)),
)
WORD = r"[^\W\d][\w']*"
# A clause of H.266, as `7.4.3.4`, `C.6`, `clause 9` or `Annex B`; and the words that mark something as the project's own.
CLAUSE = re.compile(r"\b(?:(?:[3-9]|[A-D])(?:\.\d+)+|Annex [A-D]|[Cc]lause \d+(?:\.\d+)*)")
OWN = re.compile(r"\b[Oo]ur own\b")
RESERVED = {
    *"abbrev as axiom case data do else in infixl let module mod of pub record then unfoldable use where if".split(),
    *"Type Unit tt ℕ ℤ λ _".split(),
}
# If a file has more names than these, the page gives their number instead. So it does for all files of a crate with ten times as many.
MOST_NAMED = 30


@dataclass(eq=False)
class Item:
    """A definition, a constant, a table, a type or a macro: its place, the comment above it, and its text."""

    module: str
    name: str
    kind: str
    line: int
    comment: str
    heading: str
    text: str
    size: int
    told: tuple = ()
    axiom: bool = False
    parts: dict = field(default_factory=dict)
    uses: set = field(default_factory=set)
    kit: set = field(default_factory=set)

    @property
    def crate(self):
        """Returns its crate."""
        return self.module.partition(".")[0]

    @property
    def path(self):
        """Returns its file, in the crate's folder."""
        return path_of(self.module)

    @property
    def source(self):
        """Returns where its source is stated: the comment that it goes with, its heading, or the head of its file; or None."""
        return next((text for text in self.told if CLAUSE.search(text) or OWN.search(text)), None)

    @property
    def cites(self):
        """Returns whether it cites a clause of H.266."""
        return bool(self.source and CLAUSE.search(self.source))

    @property
    def is_own(self):
        """Returns whether it is marked as the project's own, and cites no clause."""
        return bool(self.source and not CLAUSE.search(self.source))

    @property
    def inner(self):
        """Returns whether only bodies and proofs use its file."""
        return ".specs.inner" in self.module

    @property
    def apart(self):
        """Returns whether no promise looks at its file: only bodies and proofs, or statements of laws, use it."""
        return is_apart(self.module)


@dataclass
class Module:
    """A file: its items, the names that its `use` lines bring, each with what it means here, and the files that have a short name here.
    """

    name: str
    head: str = ""
    text: str = ""
    items: dict = field(default_factory=dict)
    parts: dict = field(default_factory=dict)
    brought: dict = field(default_factory=lambda: defaultdict(set))
    short: dict = field(default_factory=lambda: defaultdict(set))
    rust: dict = field(default_factory=dict)
    opened: list = field(default_factory=list)

    def add(self, name, item):
        """Adds an item."""
        if name in self.items:
            trouble(f"{path_of(self.name)} of {item.crate}: {name} is defined twice")
        self.items[name] = item
        self.parts.update(item.parts)


TROUBLE = set()


def trouble(line):
    """Keeps a message about something that couldn't be resolved."""
    TROUBLE.add(line)


def is_apart(module):
    """Returns whether a file is in specs/inner/ or specs/laws/."""
    return bool(re.search(r"\.specs\.(?:inner|laws)\b", module))


def path_of(module):
    """Returns the file of a module, in its crate's folder."""
    _, part, rest = module.split(".", 2)
    return f"{part}/{rest.replace('.', '/')}." + ("antt" if part == "specs" else "rt")


# ---- texts


def masked(text, mark):
    """Returns the text with blanks in place of comments and of quoted text."""
    quoted = r'b?"(?:[^"\\]|\\.)*"'
    letter = r"b?'(?:[^'\\\n]|\\.)'" if mark == "//" else "(?!)"
    pattern = re.compile(rf"{quoted}|{letter}|{mark}[^\n]*", re.S)
    return pattern.sub(lambda m: re.sub(r"[^\n]", " ", m[0]), text)


def said(line, mark):
    """Returns the text of a comment line; None if the line is no comment."""
    m = re.match(rf"\s*{mark}[/!]?(?: (.*))?$", line)
    return None if m is None else (m[1] or "").strip()


def above(lines, at, mark):
    """Returns the comment right above a line."""
    found = []
    while at > 0:
        at -= 1
        if re.match(r"\s*(#\[|infix)", lines[at]):
            continue
        text = said(lines[at], mark)
        if text is None or text.startswith("----"):
            break
        found.insert(0, text)
    return " ".join(found).strip()


def head_of(lines, mark):
    """Returns the comment that a file begins with."""
    found = []
    for line in lines:
        text = said(line, mark)
        if not text:
            break
        found.append(text)
    return " ".join(found)


def sentence(text):
    """Returns the first sentence of a comment, without its full stop."""
    return re.split(r"(?<=[^.])\.(?: (?=[A-Z`(0-9])|$)", text, maxsplit=1)[0].rstrip(",:")


def size_of(text):
    """Returns how many lines aren't empty."""
    return sum(1 for line in text.split("\n") if line.strip())


BRACKET = re.compile(r"[()\[\]{}]")


def close_of(text, at):
    """Returns the place after the bracket that closes the one at a place."""
    depth = 0
    for m in BRACKET.finditer(text, at):
        depth += 1 if m[0] in "([{" else -1
        if depth == 0:
            return m.end()
    return len(text)


# ---- files of definitions

MARKS = r"(?:pattern )?(?:abbrev|unfoldable)(?: pub)? |(?:pub )?(record|data) |(axiom)(?: pub)? |(?<=\n)(?:pub )?(?=\S+ :)"
DEFINES = re.compile(rf"^( *)(?:{MARKS})(◌\S+◌|{WORD})", re.M)
BLOCK = re.compile(r"^module _ (.*?) where *$", re.M)
USES = re.compile(rf"\buse Rattle\.((?:\w+\.)*\w+)(?:\.\{{([^}}]*)\}}|\s+as\s+({WORD}))")
FIELD = re.compile(rf"^(\s*)pub {WORD} :", re.M)


def take_uses(module, text):
    """Reads the `use` lines of clauses."""
    for path, names, short in USES.findall(text):
        if short:
            module.short[short].add(path)
        for name in filter(None, map(str.strip, names.split(","))):
            given, _, here = (part.strip() for part in name.partition(" as "))
            module.brought[here or given].add((path, given))


def blocks_of(text):
    """Returns where blocks with parameters begin and end, and the parameters."""
    for m in BLOCK.finditer(text):
        end = re.compile(r"^\S", re.M).search(text, m.end())
        yield m.start(), end.start() if end else len(text), m[1]


def spec_module(crate, path):
    """Returns the module of a file of specs/."""
    name = ".".join(path.relative_to(CRATES / crate / "specs").with_suffix("").parts)
    raw = path.read_text()
    lines = raw.split("\n")
    text = masked(raw, "--")
    module = Module(f"{crate}.specs.{name}", head_of(lines, "--"), text)
    take_uses(module, text)
    blocks = list(blocks_of(text))
    headings = [(at, said(line, "--").strip("- ")) for at, line in enumerate(lines) if line.strip().startswith("-- ----")]
    starts = list(DEFINES.finditer(text))
    ends = [m.start() for m in starts[1:]] + [len(text)]
    goes_with = ("", "")
    for m, end in zip(starts, ends):
        end = min([end, *(begin for begin, _, _ in blocks if m.start() < begin)])
        body = re.sub(r"^\s*infix.*$", "", text[m.start() : end], flags=re.M)
        line = text.count("\n", 0, m.start())
        heading = next((title for at, title in reversed(headings) if at < line), "")
        item = Item(module.name, m[4], "definition", line + 1, above(lines, line, "--"), heading, body, size_of(body))
        if item.comment or heading != goes_with[1]:
            goes_with = (item.comment, heading)
        item.told = (*goes_with, module.head)
        item.axiom = bool(m[3])
        item.text = " ".join(parameters for begin, finish, parameters in blocks if begin < m.start() < finish) + body
        if m[2] == "data":
            lists = re.finditer(rf"^{m[1]}  ({WORD}(?: {WORD})*) :", body, re.M)
            item.parts = {part: item for one in lists for part in one[1].split()}
        module.add(item.name, item)
    return module


# ---- files of code

RUST_ITEM = re.compile(
    r"^(?:pub(?:\([^)]*\))? )?(?:(const|static) (?!fn\b)(\w+)|(struct|enum|trait|type) (\w+)|(macro_rules)! (\w+))", re.M
)
RUST_USE = re.compile(r"^(?:pub(?:\([^)]*\))? )?use ([^;]*);", re.M)
RUST_FN = re.compile(r"^( *)(pub(?:\([^)]*\))? )?(?:const )?(?:unsafe )?fn (\w+)", re.M)
CLAUSES = re.compile(r"\b(?:(requires|ensures)(?: \w+)? \{|ghost (?!use\b)(\w+) ?[=:] ?\{)")


def split_list(text):
    """Returns the parts of a list with commas; commas in inner brackets don't separate."""
    parts, depth = [""], 0
    for letter in text:
        depth += {"{": 1, "}": -1}.get(letter, 0)
        if letter == "," and depth == 0:
            parts.append("")
        else:
            parts[-1] += letter
    return [part.strip() for part in parts if part.strip()]


def use_tree(text):
    """Returns the paths of a `use` line of Rust, each with its name here."""
    brace = text.find("{")
    if brace < 0:
        path, _, here = (part.strip() for part in text.partition(" as "))
        return [(path, here or path.split("::")[-1])]
    front = text[:brace].strip().rstrip(":")
    made = []
    for part in split_list(text[brace + 1 : close_of(text, brace) - 1]):
        for path, here in use_tree(part):
            made.append((front, front.split("::")[-1]) if path == "self" else (f"{front}::{path}", here))
    return made


def end_of_item(text, at):
    """Returns where an item of Rust ends, given a place in it."""
    while m := re.compile(r"[;({\[]").search(text, at):
        if m[0] == ";":
            return m.end()
        at = close_of(text, m.start())
        if m[0] == "{" and not re.compile(r"\s*;").match(text, at):
            return at
    return len(text)


def text_of_table(text, name):
    """Returns the text of a table in a macro, without the macro around it."""
    m = re.compile(rf"^macro_rules! {name} \{{\n    \(\$as:ident\) => \{{ \$as! (?=\{{)", re.M).search(text)
    if not m:
        sys.exit(f"{name} isn't a macro with the text of a table, as docs/TABLES.md has it")
    return text[m.end() : close_of(text, m.end())]


def rust_item(module, m, lines):
    """Returns an item of Rust."""
    name = m[2] or m[4] or m[6]
    kind = "constant" if m[1] else "type" if m[3] else "macro"
    body = module.text[m.start() : end_of_item(module.text, m.end())]
    if kind == "constant" and (syntax := re.search(r"\b(\w+)!\(table\)", body)):
        body = body.replace(syntax[0], f"table! {text_of_table(module.text, syntax[1])}")
    if kind == "constant" and re.search(r"\btable! ?\{", body):
        kind = "table"
    line = module.text.count("\n", 0, m.start())
    item = Item(module.name, name, kind, line + 1, above(lines, line, "//"), "", body, size_of(body))
    if m[3] == "enum":
        item.parts = {part: item for part in re.findall(r"^    (\w+)", body, re.M)}
    return item


def code_module(crate, path):
    """Returns the module of a file of src/."""
    name = ".".join(path.relative_to(CRATES / crate / "src").with_suffix("").parts)
    raw = path.read_text()
    lines = raw.split("\n")
    text = masked(raw, "//")
    module = Module(f"{crate}.src.{name}", head_of(lines, "//"), text)
    for m in RUST_USE.finditer(text):
        for whole, here in use_tree(re.sub(r"\s+", " ", m[1])):
            if here == "*":
                module.opened.append(whole.removesuffix("::*"))
            else:
                module.rust[here] = whole
    take_uses(module, text)
    for m in RUST_ITEM.finditer(text):
        item = rust_item(module, m, lines)
        if item.name != "_":
            module.add(f"{item.name}!" if item.kind == "macro" else item.name, item)
    return module


# ---- names that a definition binds itself


def words_in(text):
    """Returns the names in a text, except those after a point."""
    return re.findall(rf"(?<![\w'.]){WORD}", text)


def pattern_names(item):
    """Returns the names in the patterns of a definition by cases, and among the parameters of a record."""
    own = item.name.strip("◌")
    begins = re.compile(rf"\s*{re.escape(own)}(?!\S)" if own == item.name else rf".*\s{re.escape(own)}\s")
    text = re.sub(r"\{\w+ = (\w+)\}", r"\1", item.text)
    fronts = [front for front in re.findall(r"^(.*?)(?<![<>=≡])=(?![=>])", text, re.M) if begins.match(front)]
    if m := re.search(rf"\brecord {re.escape(item.name)}\b(.*?): Type", text, re.S):
        fronts += re.findall(rf"[({{]\s*({WORD}(?:\s+{WORD})*)\s*:", m[1])
    return {name for front in fronts for name in words_in(front)} - {item.name}


def inner_names(text):
    """Returns the names that a text binds further in, as far as this can be seen."""
    patterns = (r"λ([^.]*)\.", rf"[({{]\s*({WORD}(?:\s+{WORD})*)\s*:(?!:)", r"\blet\b([^=:]*)", r"^\s*(.*?)←")
    return {name for pattern in patterns for front in re.findall(pattern, text, re.M) for name in words_in(front)}


def without_fields(item):
    """Returns the text of a definition without the names of its fields or variants."""
    text = FIELD.sub(r"\1:", item.text)
    return re.sub(rf"^(\s+){WORD}(?: {WORD})* :", r"\1:", text, flags=re.M) if item.parts else text


# ---- names

NAMED = re.compile(rf"(?<![\w'.])({WORD})((?:\.{WORD})*)")
IN_RUST = re.compile(r"(?<![\w.:])(\w+(?:::\w+)*)(!?)")


class House:
    """All files, and what names in them mean."""

    def __init__(self):
        self.crates = {path.name for path in CRATES.iterdir() if path.is_dir()}
        self.modules = {}
        for crate in sorted(self.crates):
            for path in sorted((CRATES / crate / "specs").rglob("*.antt")):
                self.keep(spec_module(crate, path))
            for path in sorted((CRATES / crate / "src").rglob("*.rt")):
                self.keep(code_module(crate, path))
        for module in list(self.modules.values()):
            self.check_uses(module)
            for item in module.items.values():
                self.find_uses(module, item)
            self.find_views(module)

    def keep(self, module):
        """Adds a module."""
        self.modules[module.name] = module

    def items(self, *kinds):
        """Returns the items of these kinds, file by file."""
        return [item for module in self.modules.values() for item in module.items.values() if item.kind in kinds]

    # -- by paths in clauses

    def declared(self, crate, path, name):
        """Returns what a path to a file of src/ and a name in it mean: a constant, a type, or the type of a variant."""
        *front, last = path.split(".")
        if last == "TheConstants":
            module = self.modules.get(f"{crate}.src.{'.'.join(front)}")
            return module and module.items.get(name)
        if last == "TheVariants":
            module = self.modules.get(f"{crate}.src.{'.'.join(front[:-1])}")
            item = module and module.items.get(front[-1])
            return item if item and name in item.parts else None
        module = self.modules.get(f"{crate}.src.{'.'.join(front)}")
        return module and module.items.get(last)

    def at_path(self, path, name, depth=0):
        """Returns what a path in a clause and a name in it mean; for a name of the kit, its path."""
        crate, _, rest = path.partition(".")
        if crate not in self.crates:
            return f"{path}.{name}"
        if rest.startswith("specs.declared."):
            return self.declared(crate, rest.removeprefix("specs.declared."), name)
        module = self.modules.get(path)
        return self.in_spec(module, name, depth + 1) if module and depth < 5 else None

    def in_spec(self, module, name, depth=0):
        """Returns what a name means in the clauses of a file."""
        if ".specs." in module.name and (item := module.items.get(name) or module.parts.get(name)):
            return item
        return next((self.at_path(path, given, depth) for path, given in module.brought.get(name, ())), None)

    def check_uses(self, module):
        """Reports the names of `use` lines that mean nothing."""
        for targets in module.brought.values():
            for path, given in targets:
                if path.startswith("vx_") and self.at_path(path, given) is None:
                    trouble(f"{path_of(module.name)} of {module.name.partition('.')[0]}: use .. {given}: not found in {path}")

    # -- by paths in Rust

    def at_rust(self, module, path, depth=0):
        """Returns what a path of Rust means in a file."""
        if depth > 6:
            return None
        crate, _, here = module.name.split(".", 2)
        first, *rest = path.split("::")
        parts = {"crate": [crate], "self": [crate, here], "super": [crate, *here.split(".")[:-1]]}.get(first, [first]) + rest
        if not rest:
            return self.in_code(module, first, depth + 1)
        if parts[0] not in self.crates:
            inside = self.modules.get(f"{crate}.src.{'.'.join(parts[:-1])}")
            if inside:
                return self.in_code(inside, parts[-1], depth + 1)
            return self.at_rust(module, "::".join([module.rust[first], *rest]), depth + 1) if first in module.rust else None
        inside = self.file_at(parts[:-1])
        return inside and self.in_code(inside, parts[-1], depth + 1)

    def file_at(self, parts):
        """Returns the file of a path of Rust that begins with a crate."""
        name = ".".join(parts[1:])
        return self.modules.get(f"{parts[0]}.src.{name or 'lib'}") or (None if name else self.modules.get(f"{parts[0]}.src.main"))

    def in_code(self, module, name, depth=0):
        """Returns what a name means in a file of code."""
        if name in module.items:
            return module.items[name]
        if module.rust.get(name, name) != name:
            return self.at_rust(module, module.rust[name], depth + 1)
        crate = module.name.partition(".")[0]
        for path in module.opened:
            inside = self.file_at([crate if part == "crate" else part for part in path.split("::")])
            if inside and name in inside.items:
                return inside.items[name]
        return None

    def macro(self, module, name):
        """Returns the macro that a file calls by this name."""
        crate = module.rust.get(name, "crate").split("::")[0].replace("crate", module.name.partition(".")[0])
        files = (one for one in self.modules.values() if one.name.startswith(f"{crate}.src."))
        return next((one.items[f"{name}!"] for one in files if f"{name}!" in one.items), None)

    # -- names in texts

    def of_clause(self, module, text, bound=frozenset()):
        """Returns what a text of clauses names in a file: items, names of the kit, and names that mean nothing known. A bound name is
        none of these, unless it is a variant of a type.
        """
        found, kit, strange, hidden = set(), set(), set(), set()
        for m in NAMED.finditer(text):
            first, rest = m[1], m[2].split(".")[1:]
            if first in RESERVED or is_label(text, m):
                continue
            behind = [self.at_path(path, rest[0]) for path in module.short.get(first, ()) if rest]
            met = list(filter(None, behind)) or self.meanings(module, first)
            if first in bound and not any(behind):
                hidden |= {(first, one) for one in met if isinstance(one, Item) and first not in one.parts and one.name != "◌>>=◌"}
                met = [one for one in met if isinstance(one, str) or first in one.parts]
            elif not met and not rest:
                strange.add(first)
            for one in met:
                (kit if isinstance(one, str) else found).add(one)
        if re.search(r"\bdo\b|>>=", text):
            found.update(one for one in self.meanings(module, "◌>>=◌") if isinstance(one, Item))
        return found, kit, strange, {(name, one) for name, one in hidden if one not in found}

    def meanings(self, module, name):
        """Returns what a name means in the clauses of a file. In a file of code each block has `use` lines of its own."""
        if ".specs." in module.name:
            return list(filter(None, [self.in_spec(module, name)]))
        return list(filter(None, (self.at_path(path, given) for path, given in module.brought.get(name, ()))))

    def find_uses(self, module, item):
        """Finds what an item rests on."""
        if item.kind == "definition":
            self.find_in_definition(module, item)
        elif item.kind == "macro":
            for name, mark in re.findall(r"\$crate::(\w+)(!?)", item.text):
                item.uses.add(self.macro(module, name) if mark else self.at_rust(module, f"crate::{name}"))
        else:
            text = re.sub(r"^[^=:{(]*", "", item.text, count=1)
            text = re.sub(r"^    \w+", "    ", text, flags=re.M) if item.parts else text
            for path, mark in IN_RUST.findall(text):
                item.uses.add(self.macro(module, path) if mark else self.at_rust(module, path) or self.of_variant(module, path))
        item.uses -= {None, item}

    def find_in_definition(self, module, item):
        """Finds what a definition rests on."""
        bound = pattern_names(item)
        item.uses, item.kit, strange, hidden = self.of_clause(module, without_fields(item), bound)
        where = f"{item.path} of {item.crate}: {item.name}"
        for name, one in hidden:
            if one is not item:
                trouble(f"{where} binds {name}, so it isn't counted as resting on {one.name} of {one.crate} {one.path}")
        fields = set(re.findall(rf"^\s*pub ({WORD}) :", item.text, re.M))
        for name in strange - inner_names(item.text) - fields - {item.name}:
            trouble(f"{where} names {name}, which stands for nothing that is known")

    def of_variant(self, module, path):
        """Returns the type of a variant, by the variant's path in Rust."""
        return self.at_rust(module, path.rpartition("::")[0]) if "::" in path else None

    def find_views(self, module):
        """Finds what clauses see of the types of a file: what their `impl Model` says."""
        for m in re.finditer(r"^impl(?:<[^>]*>)? Model for (\w+)", module.text, re.M):
            item = self.in_code(module, m[1])
            end = close_of(module.text, module.text.index("{", m.end()))
            for clause in re.finditer(r"\bghost (?:Value|view) = \{", module.text[m.end() : end]):
                at = m.end() + clause.end() - 1
                found, *_ = self.of_clause(module, module.text[at : close_of(module.text, at)])
                if item:
                    item.uses |= found - {item}


def is_label(text, m):
    """Returns whether a name is that of a field that gets a value, as in `record { at = 0; .. }`."""
    after = m.end()
    while after < len(text) and text[after] in " \n":
        after += 1
    if text[after : after + 1] != "=" or text[after : after + 2] in ("==", "=>"):
        return False
    before = m.start() - 1
    while before >= 0 and text[before] in " \n":
        before -= 1
    return before >= 0 and text[before] in "{;"


# ---- contracts


def last_before(starts, found, at):
    """Returns the last match that begins before a place."""
    place = bisect.bisect_left(starts, at) - 1
    return found[place] if place >= 0 else None


def clauses_of(module):
    """Returns the clauses of a file of code: whether other crates see them, their function or trait, and their text."""
    text = module.text
    tops = list(re.finditer(r"^(?!ghost|use|\s|[})\]#]).*$", text, re.M))
    functions = list(RUST_FN.finditer(text))
    at_tops, at_functions = [m.start() for m in tops], [m.start() for m in functions]
    for m in CLAUSES.finditer(text):
        top = last_before(at_tops, tops, m.start())
        top = top[0] if top else ""
        fn = last_before(at_functions, functions, m.start())
        shared = bool(re.search(r"\btrait ", top)) or (top.startswith("impl") and " for " in top)
        seen = shared if m[2] or fn is None or fn[1] and shared else (fn[2] or "").strip() == "pub"
        trait = re.match(r"(?:pub )?trait (\w+)", top)
        owner = trait[1] if trait else fn[3] if fn and not m[2] else ""
        yield seen, owner, text[m.end() - 1 : close_of(text, m.end() - 1)]


def contracts(house):
    """Returns what clauses name: those that other crates see, all others with those of bodies, and those of `run`."""
    public, inner, run = set(), set(), set()
    for module in house.modules.values():
        if ".src." not in module.name:
            continue
        crate = module.name.partition(".")[0]
        for seen, owner, text in clauses_of(module):
            found, *_ = house.of_clause(module, text)
            (public if seen or f"{crate}.src.main" in house.modules else inner).update(found)
            if (module.name, owner) in {RUN, *TRAITS}:
                run |= found
        for first, path, name in re.findall(r"\b(crate|vx_\w+)::specs::((?:\w+::)+)(\w+)", module.text):
            inner.add(house.at_path(f"{crate if first == 'crate' else first}.specs.{path.replace('::', '.').rstrip('.')}", name))
    if not run:
        trouble(f"no clauses of {RUN}: `run` is left out")
    return public, {one for one in inner if isinstance(one, Item)}, run


def named_by_proofs(house):
    """Returns what the files of proofs name."""
    found = set()
    for path in CRATES.glob("*/proofs/**/*.antt"):
        text = masked(path.read_text(), "--")
        module = Module(path.name)
        take_uses(module, text)
        used = set(words_in(USES.sub("", text)))
        found.update(target for here, targets in module.brought.items() if here in used or "◌" in here for target in targets)
        for short, targets in module.short.items():
            names = re.findall(rf"(?<![\w'.]){re.escape(short)}\.({WORD})", text)
            found.update((target, name) for target in targets for name in names)
    items = (house.at_path(path, name) for path, name in found)
    return {one for one in items if isinstance(one, Item)}


def closure(roots):
    """Returns these items, and all that they rest on."""
    found, waiting = set(), list(roots)
    while waiting:
        item = waiting.pop()
        if item not in found:
            found.add(item)
            waiting.extend(item.uses)
    return found


def roots_of(house, names):
    """Returns the definitions that state a promise."""
    found = set()
    for path in names:
        module, _, name = path.rpartition(".")
        item = house.modules[module].items.get(name) if module in house.modules else None
        if item is None:
            trouble(f"no {path}: what it promises is counted without it")
        else:
            found.add(item)
    return found


# ---- the pages

INDEX = """\
<!-- Made by scripts/believed.py from the files of crates/: don't edit it. -->

# What must be believed

For reviewers. This page counts the definitions that each promise rests on. A page for each [crate](#the-crates) lists them.

The proofs show that the code does what the definitions say. No proof shows that the definitions say what H.266 says, or what you expect of a command. You have to read them for that. [DEFINITIONS](../DEFINITIONS.md) says in which order.

## What each promise rests on

"""
READING = """
[PROMISE](../PROMISE.md) states each promise in full. `run` as a whole is `Runs`, all clauses of `run`, and what it requires of sources and sinks.

How to read the numbers:

- **Definitions.** A definition in `specs/` rests on each name in its text: those of its own file, and those that the `use` lines of the file bring. Starting from the definitions that say a promise, this leads to everything that the promise rests on. A record counts once with its fields, a type given by cases once with its cases. A name that a definition binds itself may be taken for one of its file. So a definition may be counted too much, and none is left out. {axioms}
- **Lines.** Lines of the definitions without comments and empty lines.
- **H.266 or our own.** A definition cites a clause of H.266 (`7.4.3.4`, `C.6`), or it is marked as the project's own. The comment above it says which, else the heading above it, else the comment at the start of its file. If both are said, it counts as citing. Clauses are those of the edition of 08/2020. {neither}
- **Tables.** Constants of `src/tables.rt`, written with the macros of `vx_table` in the form of H.266's syntax tables. Their lines are counted apart.
- **Fields.** The constants of `vx_fields`, one for each syntax element; [FIELDS](FIELDS.md) lists them.
- **Constants.** All other constants: numbers of rules ([REFUSALS](../REFUSALS.md)), names for what tables compute, lists of fields.
- **Types.** Structs and enums of `src/` that definitions speak of.
- **Not counted.** [Words of the Rattle kit](#words-of-the-kit) such as `length`; everything in `specs/inner/` and `specs/laws/`; laws that no promise rests on; contracts that only the library has. The proofs need these, the promises don't.

## The crates

Each crate stands before those that it rests on. Read from the end, the list goes from the ground up to the promises. Each page lists the definitions of one crate, with the first sentence of their comments.

| crate | what it is | definitions | lines | tables | their lines | other constants | types |
|---|---|--:|--:|--:|--:|--:|--:|
"""
CRATE = """\
<!-- Made by scripts/believed.py from the files of crates/{crate}: don't edit it. -->

# `{crate}`: what must be believed

For reviewers. {counts} [What must be believed](../BELIEVED.md) has the totals, and says how they are counted.

Files stand before those that they rest on. Within a file, definitions have its order, from the ground up. A line has the first sentence of the comment above a definition, or of the comment above the definition that it goes with. Clauses that the rest of that comment cites follow in brackets.

Letters in brackets say which promises rest on a definition: `s` `show`, `e` `extract`, `c` a `check`, `m` `merge`, `p` `play`, `v` `verify`, `t` `trial`, `h` the readers of H.266, `i` the decoding input of a slice. (run) marks what only `run` itself rests on: arguments, statuses and lines. If all definitions of a file have the same letters, these stand beside its name.
"""


def of_kind(items, *kinds):
    """Returns the items of these kinds."""
    return [item for item in items if item.kind in kinds]


def lines_of(items):
    """Returns how many lines they have."""
    return sum(item.size for item in items)


def number(n):
    """Returns a number as pages show it."""
    return f"{n:,}"


def many(n, word):
    """Returns a number with its noun, singular or plural."""
    return f"{number(n)} {word}{'' if n == 1 else 's'}"


def counts_of(found):
    """Returns how many of each kind are among these, by name, in the order of the columns."""
    definitions, tables = of_kind(found, "definition"), of_kind(found, "table")
    constants = of_kind(found, "constant")
    fields = [item for item in constants if item.crate == "vx_fields" and not item.module.startswith("vx_fields.src.names")]
    return {
        "definitions": len(definitions),
        "lines": lines_of(definitions),
        "files": len({item.module for item in definitions}),
        "cited": sum(item.cites for item in definitions),
        "own": sum(item.is_own for item in definitions),
        "tables": len(tables),
        "table_lines": lines_of(tables),
        "fields": len(fields),
        "constants": len(constants) - len(fields),
        "types": len(of_kind(found, "type")),
    }


def promise_table(everything):
    """Returns the table of promises."""
    columns = "promise | | said by | definitions | lines | files | cite H.266 | our own | tables | their lines | fields | other constants | types"
    rows = [("run", "", "**`run` as a whole**", ("run", "Runs")), *PROMISES]
    text = f"| {columns} |\n|{'---|' * 3}{'--:|' * 10}\n"
    for key, letter, name, says in rows:
        says = ", ".join(f"`{path.rpartition('.')[2]}`" for path in says)
        counts = " | ".join(map(number, counts_of(everything[key]).values()))
        text += f"| {name} | {letter and f'`{letter}`'} | {says} | {counts} |\n"
    return text


def order_of(nodes, edges):
    """Returns the nodes, each before those that it has an edge to. Nodes with the longest way down come first."""
    heights = {}

    def height(node, way=()):
        if node not in heights:
            heights[node] = 1 + max((height(one, (*way, node)) for one in edges[node] if one not in way), default=0)
        return heights[node]

    return sorted(nodes, key=lambda node: (-height(node), node))


def edges_between(items, name_of):
    """Returns the edges from items to the items that they name."""
    edges = defaultdict(set)
    for item in items:
        edges[name_of(item)] |= {name_of(one) for one in item.uses if one in items} - {name_of(item)}
    return edges


def groups_of(module, found):
    """Returns those definitions of a file that are found, in groups that share a comment or heading, each with the text of that."""
    groups, heading = [], None
    for item in module.items.values():
        if item.comment or item.heading != heading:
            groups.append((item.comment or item.heading and f'under "{sentence(item.heading)}"', []))
            heading = item.heading
        groups[-1][1].append(item)
    for comment, items in groups:
        kept = [item for item in items if item in found]
        if kept:
            yield comment if kept[0] is items[0] else "", kept


def ordered(letters):
    """Returns letters without repetition, in the order of the promises."""
    return "".join(dict.fromkeys(letter for _, letter, _, _ in PROMISES if letter in letters))


def source_mark(text, shown):
    """Returns what a text cites, or that it marks something as our own, if the part that the page shows doesn't have this."""
    cited = [clause for clause in dict.fromkeys(CLAUSE.findall(text)) if clause not in shown]
    own = ["our own"] if OWN.search(text) and not CLAUSE.search(text) and not OWN.search(shown) else []
    return f" ({', '.join(cited or own)})" if cited or own else ""


def definition_lines(module, found, letters):
    """Returns the page's lines of a file's definitions."""
    own = {letters[item] for item in module.items.values() if item in found}
    for comment, items in groups_of(module, found):
        first = sentence(comment)
        source = items[0].source
        names = ", ".join(f"`{item.name}`" for item in items)
        mark = ordered("".join(letters[item] for item in items))
        mark = f" ({mark or 'run'})" if len(own) > 1 else ""
        told = source_mark(source, first) if source and source is not module.head else ""
        yield f"- {names}{mark}" + (f": {first}" if first else "") + told + "\n"


def file_text(module, found, letters):
    """Returns what the page has of a file of definitions."""
    own = {letters[item] for item in module.items.values() if item in found}
    mark = f" ({own.pop() or 'run'})" if len(own) == 1 else ""
    name = path_of(module.name).removeprefix("specs/")
    head = sentence(module.head) + source_mark(module.head, sentence(module.head))
    return f"\n**{name}**{mark} {head}\n\n" + "".join(definition_lines(module, found, letters))


def names_by_file(items):
    """Returns items file by file: their names, or how many they are."""
    files = defaultdict(list)
    for item in items:
        files[item.path].append(item.name)
    few = len(items) <= 10 * MOST_NAMED

    def told(names):
        return ", ".join(f"`{name}`" for name in names) if few and len(names) <= MOST_NAMED else number(len(names))

    return "; ".join(f"`{path}` {told(names)}" for path, names in sorted(files.items()))


def beside(house, crate, found):
    """Returns what the page has of the code of its crate."""
    items = [item for item in house.items("table", "constant", "type", "macro") if item.crate == crate and item in found]
    lines = []
    for kind in ("table", "macro", "constant", "type"):
        if kept := of_kind(items, kind):
            size = f", {many(lines_of(kept), 'line')}" if kind in ("table", "macro") else ""
            lines.append(f"- {many(len(kept), kind)}{size}: {names_by_file(kept)}\n")
    return ("\n## In `src/`\n\n" + "".join(lines)) if lines else ""


def crate_page(house, crate, found, letters):
    """Returns the page of a crate."""
    modules = [m for m in house.modules.values() if m.name.startswith(f"{crate}.specs.") and not is_apart(m.name)]
    kept = {item for m in modules for item in m.items.values() if item in found}
    names = {item.module for item in kept}
    order = order_of(names, edges_between(kept, lambda item: item.module))
    others = [f"`{m.name.rpartition('.')[2]}.antt`" for m in modules if m.items and m.name not in names]
    total = sum(len(m.items) for m in modules)
    size = f"({many(lines_of(kept), 'line')})"
    if kept:
        counts = f"Promises rest on {number(len(kept))} of the {many(total, 'definition')} in its `specs/` {size}, listed here."
    else:
        counts = "No promise rests on a definition in its `specs/`."
    skip = f"\nFiles that no promise rests on: {', '.join(others)}.\n" if others and kept else ""
    files = "".join(file_text(house.modules[name], found, letters) for name in order)
    definitions = f"\n## In `specs/`\n{files}{skip}" if kept else ""
    return CRATE.format(crate=crate, counts=counts) + definitions + beside(house, crate, found)


def crate_row(house, crate, found):
    """Returns the line of a crate in the index."""
    counts = counts_of([item for item in found if item.crate == crate])
    heads = [house.modules[name].head for name in (f"{crate}.src.lib", f"{crate}.src.main") if name in house.modules]
    shown = (counts[name] for name in ("definitions", "lines", "tables", "table_lines", "constants", "types"))
    what = re.sub(r"\[(`[^`]*`)\]", r"\1", sentence(heads[0])) if heads else ""
    return f"| [`{crate}`](believed/{crate}.md) | {what} | {' | '.join(map(number, shown))} |\n"


def twice_text(house, found):
    """Returns the names that mean two things, except `>>=`, which stands for every do block."""
    meanings = defaultdict(list)
    for item in house.items("definition"):
        for name in (item.name, *item.parts):
            if name != "◌>>=◌":
                meanings[name].append(item)
    both, beside_it = [], []
    for name, items in sorted(meanings.items()):
        kept = [item for item in items if item in found]
        if len(items) > 1 and kept:
            where = ", ".join(("" if item in found else "*") + f"{item.crate} {item.module.split('.', 2)[2]}" for item in items)
            (both if len(kept) > 1 else beside_it).append(f"`{name}`: {where}")
    lines = "".join(f"- {line}\n" for line in both)
    return f"""
## Names that mean two things

{many(len(both), 'name') if both else 'No name'} of `specs/` mean{'' if len(both) > 1 else 's'} two things among what promises rest on.

{lines}{lines and chr(10)}{many(len(beside_it), 'name')} mean one thing there and another elsewhere in `specs/`. A star marks a place that no promise rests on: {'; '.join(beside_it)}.
"""


def dead_text(house, found, public, inner):
    """Returns what serves neither a promise nor a contract that other crates see."""
    served = closure(public) | found
    by_bodies, by_proofs = closure(inner), closure(named_by_proofs(house))
    lists = defaultdict(list)
    for item in house.items("definition"):
        if item not in served:
            by = "bodies" if item in by_bodies else "proofs" if item in by_proofs else "nothing"
            if not item.inner or by == "nothing":
                lists[by].append(f"`{item.name}` ({item.crate} {item.module.split('.', 2)[2]})")
    definitions = house.items("definition")
    rest = sum(item in served and item not in found for item in definitions)
    bodies, proofs, nothing = (", ".join(lists[by]) or "none" for by in ("bodies", "proofs", "nothing"))
    return f"""
## What serves no promise

`specs/` has {many(len(definitions), 'definition')}. {number(rest)} of them are named by contracts of public functions, or by laws, and by no promise. You need none of these to believe a promise. The following lie outside `specs/inner/`, and no public contract rests on them:

- named only by contracts of private functions, or by bodies: {bodies};
- named only by proofs: {proofs};
- named by nothing (here `specs/inner/` counts too): {nothing}.
"""


def neither(found):
    """Returns how many definitions cite a clause, are marked as our own, or do neither; and which do neither."""
    definitions = of_kind(found, "definition")
    cite = [item for item in definitions if item.cites]
    by_comment = sum(item.source is item.comment for item in cite)
    own = sum(item.is_own for item in definitions)
    rest = [f"`{item.name}` ({item.crate})" for item in definitions if item.source is None]
    text = f"Of all {many(len(definitions), 'definition')}, {number(len(cite))} cite a clause, {number(by_comment)} of these by a comment of their own, and {number(own)} are marked as our own."
    return text + (f" These say neither: {', '.join(sorted(rest))}." if rest else " Each says one of the two.")


def kit_text(found):
    """Returns the names of the kit that the pages mention."""
    modules = defaultdict(set)
    for item in found:
        for path in item.kit:
            module, _, name = path.rpartition(".")
            modules[module].add(name)
    lines = "".join(f"- `{module}`: {', '.join(f'`{name}`' for name in sorted(names))}\n" for module, names in sorted(modules.items()))
    return f"""
## Words of the kit

The definitions use {number(sum(map(len, modules.values())))} names of the Rattle kit, not counting operators such as `++`. `rt doc` shows what they mean.

{lines}"""


@functools.cache
def house_and_found():
    """Returns all files, what each promise rests on, by its key, and what contracts name."""
    house = House()
    public, inner, run = contracts(house)
    found = {key: closure(roots_of(house, says)) for key, _, _, says in PROMISES}
    return house, {"run": closure(run), **found}, public, inner


def numbers():
    """Returns the numbers of the table of promises, by `PROMISE.WHAT`, for scripts/numbers.py."""
    _, everything, _, _ = house_and_found()
    return {f"{key}.{what}": n for key, found in everything.items() for what, n in counts_of(found).items()}


def pages():
    """Returns the text of each page, by its path."""
    house, everything, public, inner = house_and_found()
    all_found = set().union(*everything.values())
    letters = defaultdict(str)
    for key, letter, _, _ in PROMISES:
        for item in everything[key]:
            letters[item] = ordered(letters[item] + letter)
    for item in of_kind(all_found, "definition"):
        if item.apart:
            trouble(f"{item.path} of {item.crate}: a promise rests on {item.name}, which stands in inner/ or laws/")
    order = order_of({item.crate for item in all_found}, edges_between(all_found, lambda item: item.crate))
    axioms = [f"`{item.name}` ({item.crate})" for item in of_kind(all_found, "definition") if item.axiom]
    axioms = f"Axioms, without a text: {', '.join(axioms)}." if axioms else "No definition is an axiom."
    reading = READING.format(axioms=axioms, neither=neither(all_found))
    rows = "".join(crate_row(house, crate, all_found) for crate in order)
    ends = twice_text(house, all_found) + dead_text(house, all_found, public, inner) + kit_text(all_found)
    made = {PAGE: INDEX + promise_table(everything) + reading + rows + ends}
    return made | {FOLDER / f"{crate}.md": crate_page(house, crate, all_found, letters) for crate in order}


def differing(made):
    """Returns the pages that aren't what they should be, or shouldn't exist."""
    found = {path: path.read_text() for path in [PAGE, *FOLDER.glob("*.md")] if path.exists()}
    return sorted(path for path in made.keys() | found.keys() if made.get(path) != found.get(path))


def write(made):
    """Writes the pages, and removes those of crates that no promise rests on any more."""
    FOLDER.mkdir(parents=True, exist_ok=True)
    for path in differing(made):
        if path in made:
            path.write_text(made[path])
        else:
            path.unlink()


def tell_of(house, name):
    """Prints what the definitions of a name rest on, a line each."""
    for item in house.items("definition"):
        if item.name == name:
            print(f"{item.crate} {item.path}: {name}")
            for one in sorted(closure([item]) - {item}, key=lambda one: (one.kind, one.module, one.line)):
                print(f"  {one.kind} {one.crate}/{one.path}:{one.line} {one.name}")


def main():
    """Writes the pages, compares them, or prints what a definition rests on."""
    parser = argparse.ArgumentParser(description="Makes docs/generated/BELIEVED.md and believed/, what each promise rests on.")
    parser.add_argument("--check", action="store_true", help="only compare; the status is 1 if a page differs")
    parser.add_argument("--of", metavar="NAME", help="print what the definitions of this name rest on")
    asked = parser.parse_args()
    if asked.of:
        tell_of(House(), asked.of)
        return
    made = pages()
    for line in sorted(TROUBLE):
        print(line, file=sys.stderr)
    if not asked.check:
        write(made)
    elif wrong := differing(made):
        names = ", ".join(str(path.relative_to(ROOT)) for path in wrong)
        sys.exit(f"not what the files make: {names}; run {sys.argv[0]}")


if __name__ == "__main__":
    main()
