#!/usr/bin/env python3
"""Checks the names that pages and comments speak of.

    tools/names.py --check   prints each that is wrong as FILE:LINE: NAME: why, and exits 1 if there is one

What stands in backticks in docs/*.md, README.md, CONTRIBUTING.md and the comments of crates/*/src and crates/*/specs
has to exist: a file; an option, a value that completions offer, a command or a target of make; `Type::member`; an edit
or a row of a test; or a name that code, definitions or proofs declare. In a comment that is one of its file, of its
crate, of the crates below, or of a crate that the comment names. What a row of docs/PROOFS.md says behind a name and a colon has to be a part of that: a
clause of a function, a field of a definition, an edit of a crate. And each source file of a library or of the program
has to stand in exactly one row of the tables of files in docs/ARCHITECTURE.md, and each crate in one of that of crates.

Needs python3 alone.
"""
import fnmatch
import os
import re
import sys
from collections import defaultdict

TOP = os.path.dirname(os.path.dirname(os.path.abspath(__file__)))
ARCHITECTURE = "docs/ARCHITECTURE.md"
PROOFS = "docs/PROOFS.md"
OPTIONS = "crates/command_line/src/options.rt"
# In each crate the same: ARCHITECTURE says once what they have, and they need no row.
IN_EACH_CRATE = ("lib.rt", "laws.rt")
# What a build makes, and no file of the repository.
MADE = ("out", "bin", "dist")

# Names of other things, by what they are.
OUTSIDE = {
    "words of the language": "requires ensures unfoldable unfolding unreachable u32 u128 usize",
    "of Rust's std and of C's library": "BTreeMap File Stdout Vec u64::MAX mem::forget memcpy",
    "programs": "make gzip bzip2 zstd bzcat cat dd sort grep head jq",
    "names of the environment": "PATH PYTHONPATH BGP_REPLAY GLIBC_TUNABLES DASK_DISTRIBUTED__WORKER__PROFILE__INTERVAL",
    "the toolchain, and what `rt` prints": "dac8208d650f15bf rattle-kit-13f proves",
    "a template of `rt new`, and what it leaves": "start_lib BUILD.bazel",
    "options of `rt`": "--only --test",
    "endings of names": "_in _at _bytes",
    "functions of mathematics, of Python and of pandas": "ceil json.loads astype read_json",
    "a word of JSON": "null",
}
RT_COMMANDS = "ci check try test plant tidy fmt all lemma must-fail new doc version run lib verdict".split()
# What is meant as it stands, with the reason.
EXCEPTIONS = {
    "rib.mrt": "what the examples of the pages call examples/sample.mrt",
    "bgp_replay_bench": "the repository of copies that bench/*.sh make",
}
# What is wrong, and waits for a change that mends it: `FILE: NAME` and why.
AWAITED = {}

NAME = r"[A-Za-z_][A-Za-z0-9_]*"
PATH_CHARACTERS = re.compile(r"[A-Za-z0-9_.*/-]+")


def fail(why):
    sys.exit(f"tools/names.py: {why}")


def files_of_repository():
    """The files by their names from the top, but for what is made."""
    found = []
    for path, folders, names in os.walk(TOP):
        folders[:] = sorted(name for name in folders if name not in MADE + (".git", "__pycache__"))
        found += [os.path.relpath(os.path.join(path, name), TOP) for name in sorted(names)]
    return found


def read(name):
    try:
        with open(os.path.join(TOP, name), encoding="utf-8") as file:
            return file.read()
    except OSError as error:
        fail(f"{name}: {error.strerror}")


# ---- what is declared

TEXT_OR_COMMENT = re.compile(r"""b?'(?:[^'\\\n]|\\[^\n]{1,8}?)'|b?"(?:[^"\\]|\\.)*"|//[^\n]*""", re.S)
ITEM = re.compile(r"\b(?:fn|struct|enum|trait|type|const|static|mod|macro_rules!|ghost|ensures|requires)\s+(%s)" % NAME)
FIELD_OR_PARAMETER = re.compile(r"\b(%s): " % NAME)
VARIANT = re.compile(r"^    ([A-Z][A-Za-z0-9]*)(?=[,({ ]|$)", re.M)
USED = re.compile(r"^\s*(?:pub )?(?:ghost )?use ([^;]*);", re.M)
BLOCK = re.compile(
    r"^(?:pub(?:\([a-z]+\))? )?(?:struct|enum|trait|impl)\b[^{;]*(?:;|\{[^\n]*\}$|\{.*?^\})", re.M | re.S
)
MEMBER = re.compile(r"^    (?:pub(?:\([a-z]+\))? )?(?:(?:const |unsafe )?fn |const |type |ghost )?(%s)\b" % NAME, re.M)
DEFINITION = re.compile(
    r"^\s*(?:(?:abbrev|unfoldable|opaque|pub|record|data|mod) )*([^\s(){}:]+)(?= (?:[:({]|.* = |where))"
    r"|\b(?:record|data) (\S+)$",
    re.M,
)
DEFINITION_COMMENT = re.compile(r"(?:^|(?<=\s))--(?:\s[^\n]*)?$", re.M)
RECORD = re.compile(r"^( *)pub record (\w+)(.*?)(?=^\1\S|\Z)", re.M | re.S)
RECORD_FIELD = re.compile(r"^\s+pub (\w+) :", re.M)
LABEL = re.compile(r"\b(?:ensures|requires|ghost)\s+(\w+)")
CLAUSE = re.compile(r"\bensures\s+(\w+)\s+\{(.*?)\}\s*(?=ensures|requires|\{|;|\n\n)", re.S)
TEXT = re.compile(r'"((?:[^"\\]|\\.)*)"')
PRINTING = re.compile(r"crates/(command_line|report_request|replay_io|bgp_replay|report_lines|rib_report|packed_io|mrt_replay)/src/")
PYTHON_NAME = re.compile(r"\b(?:def|class) (%s)|\b(%s)(?=[:=]| = )|[\"'](%s)[\"']" % (NAME, NAME, NAME))


def words(text):
    return set(re.findall(NAME, text))


def code_of(text):
    """A Rust file without its comments and without what is in its texts."""
    return TEXT_OR_COMMENT.sub(lambda found: "" if found.group().startswith("//") else '""', text)


def declared_in_code(code):
    names = set(ITEM.findall(code)) | set(FIELD_OR_PARAMETER.findall(code)) | set(VARIANT.findall(code))
    for used in USED.findall(code):
        names |= words(used)
    return names


def declared_in_definitions(text):
    text = re.sub(r"^\s*--.*$", "", text, flags=re.M)
    names = {name for found in DEFINITION.findall(text) for name in found}
    for used in re.findall(r"^use ([^\n]*)", text, re.M):
        names |= set(re.split(r"[\s.{},]+", used))
    return names


def without_brackets(text):
    """A head of an impl without what stands in < and >."""
    depth, kept = 0, ""
    for at, character in enumerate(text):
        depth += character == "<"
        kept += character if depth == 0 else ""
        depth -= character == ">" and text[at - 1] not in "-="
    return kept


class Repository:
    """What there is to be named: `files` and `folders`; `names`, what each crate declares; `words`, those of each
    source file; `members` of each type and trait; `parts`: the clauses of a function, the fields of a definition, the
    edits of a crate; `cited`, the definitions that a clause of a function names; `rows`, the names of edits and of rows
    of tests; and what is known everywhere."""

    def __init__(self):
        self.files = files_of_repository()
        depths = [(name, depth) for name in self.files for depth in range(1, name.count("/") + 1)]
        self.folders = {name.rsplit("/", depth)[0] for name, depth in depths}
        self.below = self.dependencies()
        self.names, self.members, self.traits = defaultdict(set), defaultdict(set), defaultdict(set)
        self.words, self.rows, self.parts, self.cited = {}, set(), defaultdict(set), defaultdict(set)
        for name in self.files:
            if name.startswith("crates/") and name.count("/") > 1:
                self.take(name, name.split("/")[1])
            elif name.endswith(".rows"):
                self.rows.update(re.findall(r"^row (\S+)$", read(name), re.M))
        options, makefile = read(OPTIONS), read("Makefile")
        self.options = {"help", "version", *re.findall(r'^        name: "([a-z-]+)",\n        value', options, re.M)}
        for name in self.files:
            if name.startswith(("python/", "tools/")) and name.endswith(".py"):
                self.options.update(re.findall(r"[\"']--([a-z][a-z-]*)[\"']", read(name)))
        self.commands = set(re.findall(r'^        name: "([a-z]+)",\n        meaning', options, re.M))
        offered = {word for words in re.findall(r'^        offered: "([^"]*)"', options, re.M) for word in words.split()}
        self.targets = set(re.findall(r"^([a-z-]+):", makefile, re.M))
        self.outside = {word for text in OUTSIDE.values() for word in text.split()}
        bases = {os.path.basename(name) for name in self.files}
        self.endings = {os.path.splitext(name)[1] for name in bases} - {""} | {".bz2", ".gz"}
        self.everywhere = set().union(
            self.said_by_programs(), self.outside, self.below, self.commands, self.options, offered, bases,
            {os.path.splitext(name)[0] for name in bases}, re.findall(r"^([A-Z]+) \??:?=", makefile, re.M),
        )

    @staticmethod
    def dependencies():
        below = {}
        for line in read("crates.txt").splitlines():
            head, _, libraries = line.split("#")[0].partition(":")
            if head.strip():
                below[head.split()[0]] = libraries.split()
        return below

    def take(self, name, crate):
        if name.endswith(".antt"):
            text = read(name)
            self.names[crate] |= declared_in_definitions(text)
            self.words[name] = set(re.split(r"[\s(){}.,;:]+", DEFINITION_COMMENT.sub("", text)))
            for _, record, fields in RECORD.findall(text):
                self.parts[record].update(RECORD_FIELD.findall(fields))
        elif name.endswith(".rt"):
            text = read(name)
            code = code_of(text)
            self.names[crate] |= declared_in_code(code)
            self.words[name] = words(code).union(*map(words, TEXT.findall(text)))
            for block in BLOCK.findall(code):
                self.take_block(block)
            for function in re.split(r"\bfn (?=\w)", code)[1:]:
                owner = re.match(r"\w+", function).group()
                self.parts[owner].update(LABEL.findall(function))
                for label, clause in CLAUSE.findall(function):
                    self.cited[owner, label].update(re.findall(r"\b[A-Z]\w+", clause))
            if crate.endswith("_tests"):
                self.rows |= set(re.findall(r"[a-z0-9]+(?:-[a-z0-9]+)+", text))
        elif name.endswith(".edit"):
            self.rows.add(os.path.splitext(os.path.basename(name))[0])
            self.parts[crate].add(os.path.splitext(os.path.basename(name))[0])

    def take_block(self, block):
        head, _, body = block.partition("{")
        head = without_brackets(head).split(" where")[0]
        owners = re.findall(NAME, head)
        owners = [owner for owner in owners if owner not in "pub crate struct enum trait impl for dyn".split()]
        members = set(MEMBER.findall("{" + body))
        for owner in owners[:2]:
            self.members[owner] |= members
            self.parts[owner].update(LABEL.findall(body))
        if len(owners) > 1 and " for " in head:
            self.traits[owners[1]].add(owners[0])

    def said_by_programs(self):
        """Columns, values of options, keys and statuses: the short texts of the crates that print them, and what the
        Python package declares."""
        said = set()
        for name in self.files:
            if PRINTING.match(name):
                for text in TEXT.findall(read(name)):
                    text = re.sub(r"\\n|\{[^}]*\}", " ", text).strip()
                    if len(text.split()) <= 2:
                        said |= words(text)
            elif name.startswith("python/") and name.endswith(".py"):
                said.update(word for found in PYTHON_NAME.findall(read(name)) for word in found)
        return said

    def known_in(self, name, crate):
        """The names that a comment of a file may say: those of its file, of its crate and of the crates below."""
        crates = [self.names[other] for other in [crate, *self.below.get(crate, [])]]
        return set().union(self.everywhere, self.words[name], self.rows if crate.endswith("_tests") else (), *crates)

    def has_part(self, owner, part):
        """Whether a clause, a field or an edit is one of this; `gives.first` is a field of what the clause cites."""
        label, _, field = part.partition(".")
        fields = set().union(*(self.parts[definition] for definition in self.cited[owner, label]))
        return label in self.parts[owner] and (not field or field in fields)

    def has_member(self, owner, member):
        return member in self.members[owner] or any(member in self.members[trait] for trait in self.traits[owner])


# ---- what pages and comments say

class Place:
    """A part of a text that stands in one piece: where its lines are, and which names are known there."""

    def __init__(self, name, first, text, known, crate=None):
        self.name, self.first, self.text, self.known, self.crate = name, first, text, known, crate

    def spans(self):
        for found in re.finditer(r"(`+)(.+?)\1(?!`)", self.text, re.S):
            yield self.first + self.text.count("\n", 0, found.start()), " ".join(found.group(2).split())


def paragraphs(text):
    """The paragraphs and table rows of a page, each with its first line; no blocks of code."""
    part, first, code, fenced = [], 1, False, False
    for number, line in enumerate(text.splitlines() + [""], 1):
        if line.lstrip().startswith("```"):
            fenced = not fenced
            line = ""
        code = fenced or (line.startswith("    ") and (code or not part)) or (code and not line.strip())
        if code or not line.strip() or line.startswith("|"):
            if part:
                yield first, "\n".join(part)
            part = []
            if line.startswith("|"):
                yield number, line
        else:
            first = first if part else number
            part.append(line)


def comments(text, pattern):
    """The comments of a source file: lines that follow one another are one piece."""
    lines = {}
    for found in pattern.finditer(text):
        said = found.group()
        if said.startswith(("//", "--")):
            lines[text.count("\n", 0, found.start()) + 1] = said.lstrip("/!-")
    part, first = [], 0
    for number in sorted(lines):
        if part and number != first + len(part):
            yield first, "\n".join(part)
            part = []
        first = first if part else number
        part.append(lines[number])
    if part:
        yield first, "\n".join(part)


def places(repository):
    pages = set().union(repository.everywhere, repository.rows, *repository.names.values())
    for name in repository.files:
        if re.fullmatch(r"docs/[A-Z]+\.md|README\.md|CONTRIBUTING\.md", name):
            for first, text in paragraphs(read(name)):
                yield Place(name, first, text, pages)
        elif re.fullmatch(r"crates/[^/]+/(src/.*\.rt|specs/.*\.antt)", name):
            crate = name.split("/")[1]
            known = repository.known_in(name, crate)
            pattern = TEXT_OR_COMMENT if name.endswith(".rt") else DEFINITION_COMMENT
            for first, text in comments(read(name), pattern):
                named = [repository.names[other] for other in re.findall(r"`(\w+)`", text) if other in repository.below]
                yield Place(name, first, text, known.union(*named), crate)


# ---- whether a span names what there is

def is_literal(span):
    """Texts in quotes, numbers, addresses, times and signs: no names."""
    begins = span[0] in "\"'0123456789$<@[{(|>#=.,;:?/"
    return begins or not re.search(r"[A-Za-z]", span) or re.fullmatch(r"[0-9a-f]*:[0-9a-f:.]*(/[0-9]+)?", span)


def file_fault(repository, span, crate):
    name = span.rstrip("/")
    if any(part in MADE for part in name.split("/")):
        return None
    pattern = name if name in repository.folders else re.sub(r"\b[A-Z]{2,}\b(?!\.md)", "*", name)
    candidates = repository.files if "." in os.path.basename(name) else repository.folders
    for candidate in candidates:
        at = candidate.split("/")
        if crate and at[:2] != ["crates", crate] and "/" not in name:
            continue
        ends = "/".join(at[-pattern.count("/") - 1 :])
        if fnmatch.fnmatchcase(ends, pattern) or fnmatch.fnmatchcase(candidate, pattern):
            return None
        if at[0] == "crates" and len(at) > 3 and fnmatch.fnmatchcase(at[1] + "/" + "/".join(at[3:]), pattern):
            return None
    return "no such file" + (f" in crates/{crate}" if crate and "/" not in name else "")


def path_fault(repository, owner, member, known):
    if f"{owner}::{member}" in repository.outside or repository.has_member(owner, member):
        return None
    if owner in repository.members:
        return f"{owner} has no {member}"
    return None if owner in known and member in known else f"no {owner}"


def command_fault(repository, said):
    """What is wrong with the first words of a command."""
    first, second = said[0], said[1] if len(said) > 1 else ""
    if first == "make" and second and second not in repository.targets:
        return "the Makefile has no such target"
    if first == "rt" and second and second not in RT_COMMANDS:
        return "no such command of rt"
    if first == "bgp_replay" and re.match("[a-z]", second) and second not in repository.commands | {"help"}:
        return "no such command"
    if second.startswith("--") and re.fullmatch(NAME, first):
        return None if first in repository.commands | repository.outside | {"bgp_replay"} else "no such command"
    return None


# In a call, a generic type, an impl or `key=value`: what can only be a name, and then the words that look like one.
NAMES_IN_CODE = re.compile(r"(?<![\w.:/-])[A-Za-z_]\w+(?=!?[<(]|=)|(?<=impl )\w+|(?<=for )\w+$")
NAMES_BY_LOOK = re.compile(
    r"(?<![\w./-])(?:[A-Za-z0-9]+(?:_[A-Za-z0-9]+)+|[A-Z][a-z0-9]+(?:[A-Z][a-z0-9]+)+)(?![\w/-]|\.[a-z])"
)


def words_fault(repository, span, place):
    """Of a command, a call or a sentence: its options, its paths, and the words that can only be names."""
    said = span.split()
    if PATH_CHARACTERS.fullmatch(said[0]) and said[0].endswith(".sh"):
        return file_fault(repository, said[0], place.crate)
    why = command_fault(repository, said)
    if why:
        return why
    for option in re.findall(r"(?<![\w-])--([a-z][a-z-]*)", span):
        if option not in repository.options and f"--{option}" not in repository.outside:
            return f"no option --{option}"
    for owner, member in re.findall(rf"\b({NAME})(?:<[^>]*>)?::({NAME})", span):
        why = path_fault(repository, owner, member, place.known)
        if why:
            return why
    for word in NAMES_IN_CODE.findall(span) + NAMES_BY_LOOK.findall(span):
        if word not in place.known:
            return f"no {word}"
    return None


def fault(repository, span, place):
    if is_literal(span) or span in EXCEPTIONS or span in repository.outside:
        return None
    if re.fullmatch(NAME, span):
        where = f" in {place.crate} or below it" if place.crate else ""
        return None if span in place.known else "no such name" + where
    if PATH_CHARACTERS.fullmatch(span) and not span.startswith("-"):
        ending = os.path.splitext(span)[1]
        if ending in repository.endings or ("/" in span and not ending):
            return file_fault(repository, span, place.crate)
        if re.fullmatch(r"[a-z0-9_]+(-[A-Za-z0-9_]+)+", span):
            return None if span in place.known else "no such name"
    if re.fullmatch(rf"{NAME}(\.{NAME})+", span):
        missing = [word for word in span.split(".") if word not in place.known]
        return f"no {missing[0]}" if missing else None
    return words_fault(repository, span, place)


def wrong_names(repository):
    said, awaited = set(), set()
    for place in places(repository):
        for line, span in place.spans():
            said.add(span)
            why = fault(repository, span, place)
            if why and f"{place.name}: {span}" in AWAITED:
                awaited.add(f"{place.name}: {span}")
            elif why:
                yield f"{place.name}:{line}: {span}: {why}"
    for name in sorted(set(EXCEPTIONS) - said):
        yield f"tools/names.py: {name}: in EXCEPTIONS, and nothing says it"
    for name in sorted(set(AWAITED) - awaited):
        yield f"tools/names.py: {name}: in AWAITED, and no longer wrong"


# ---- the rows of PROOFS

CLAIMED = re.compile(r"`([\w:]+)`: ((?:`[a-z0-9_.]+`(?:, | and )?)+)")


def wrong_claims(repository):
    for number, line in enumerate(read(PROOFS).splitlines(), 1):
        for owner, parts in CLAIMED.findall(line if line.startswith("|") else ""):
            for part in re.findall("`([^`]+)`", parts):
                if not repository.has_part(owner.split("::")[-1], part):
                    yield f"{PROOFS}:{number}: {part}: no clause, field or edit of {owner}"


# ---- the rows of ARCHITECTURE

def rows(text):
    """Of each row of a table of source files: its line, and the files of its first cell. The head of the table names
    their crate, or the cell does; a name without a folder stands in that of the name before it."""
    head = None
    for number, line in enumerate(text.splitlines(), 1):
        if not line.startswith("|"):
            head = None
            continue
        cell = line.split("|")[1]
        crate = re.match(r" (?:File of )?`([a-z0-9_]+)/src`", cell if head is None or head == " File " else head)
        if crate and head is not None:
            yield number, list(row_files(crate.group(1), cell))
        head = cell if head is None else head


def row_files(crate, cell):
    inner = ""
    for name in re.findall(r"`([^`]+\.rt)`", cell):
        if "/" in name:
            inner = os.path.dirname(name) + "/"
        yield f"crates/{crate}/src/{inner}{os.path.basename(name)}"


def wrong_crates(repository):
    listed = re.findall(r"^\| `(\w+)` \|", read(ARCHITECTURE), re.M)
    for crate in sorted(set(listed) | set(repository.below)):
        if listed.count(crate) != 1 or crate not in repository.below:
            where = "in crates.txt" if crate in repository.below else "not in crates.txt"
            yield f"{ARCHITECTURE}:1: {crate}: {where}, and in {listed.count(crate)} rows of the table of crates"


def wrong_rows(repository):
    found = defaultdict(list)
    for line, files in rows(read(ARCHITECTURE)):
        for name in files:
            found[name].append(line)
    for name in sorted(found):
        if name not in repository.files:
            yield f"{ARCHITECTURE}:{found[name][0]}: {name}: no such file"
        for line in found[name][1:]:
            yield f"{ARCHITECTURE}:{line}: {name}: it has a row in line {found[name][0]}"
    in_tables = {name.split("/")[1] for name in found}
    for name in repository.files:
        source = re.fullmatch(r"crates/([^/]+)/src/(?:.*/)?([^/]+\.rt)", name)
        if source and (not re.search(r"_tests$|^fixtures$", source[1]) or source[1] in in_tables):
            if name not in found and source[2] not in IN_EACH_CRATE:
                yield f"{ARCHITECTURE}:1: {name}: in no row of a table of files"


def main():
    if sys.argv[1:] != ["--check"]:
        fail("usage: tools/names.py --check")
    repository = Repository()
    checks = (wrong_names, wrong_claims, wrong_crates, wrong_rows)
    wrong = [line for check in checks for line in check(repository)]
    for line in wrong:
        print(line)
    sys.exit(1 if wrong else 0)


main()
