#!/usr/bin/env python3
"""Writes what says the program's options, commands and columns again, from the tables of crates/command_line/src/options.rt: a part of
man/bgp_replay.1, a table of docs/USAGE.md and one of README.md, and the completions; and from the columns of
crates/report_request/src/column.rt the table of their kinds in python/bgp_replay/frames.py.

    tools/options.py           writes them
    tools/options.py --check   compares with what is there; names each file that differs, and exits 1

Needs python3 alone.
"""
import os
import re
import sys
import textwrap

TOP = os.path.dirname(os.path.dirname(os.path.abspath(__file__)))
SOURCE = "crates/command_line/src/options.rt"
COLUMNS = "crates/report_request/src/column.rt"
FIELDS = {
    "OptionRow": ["name", "value", "takes", "default", "offered", "commands", "is_required", "meaning"],
    "ColumnRow": ["name", "meaning"],
    "CommandRow": ["name", "meaning", "columns", "order", "examples"],
}
MAN = "man/bgp_replay.1"
MAN_MARKS = ('.\\" options: made by tools/options.py\n', '.\\" end of options\n')
USAGE = "docs/USAGE.md"
README = "README.md"
PAGE_MARKS = ("<!-- options: made by tools/options.py -->\n", "<!-- end of options -->\n")
FRAMES = "python/bgp_replay/frames.py"
FRAMES_MARKS = ("# columns: made by tools/options.py\n", "# end of columns\n")
# The kind of each column in FRAMES, by its name in COLUMNS: of a `Column`, a `Key` or a `KeptAttribute`.
KINDS = {
    "TIME": "Time First Last", "PEER": "Peer", "ROUTE_KEY": "RouteKey", "AGGREGATOR": "Aggregator", "ASNS": "Origins", "ASN": "OriginAs",
    "TEXT": "Path NextHop What By State Fault Communities ExtendedCommunities LargeCommunities OriginatorId ClusterList",
    "TEXT_IN_RUNS": "Prefix", "ORIGIN": "Origin", "ATOMIC": "Atomic", "NUMBER": "Med LocalPref Entry OnlyToCustomer",
    "COUNT": "New Changed Same Gone Void Resets Idle Refused Routes Units Offset", "PEERS": "Peers", "FILE": "File", "FAULT_NUMBER": "Number",
}


def fail(why):
    sys.exit(f"tools/options.py: {why}")


def read(name):
    try:
        with open(os.path.join(TOP, name), encoding="utf-8") as file:
            return file.read()
    except OSError as error:
        fail(f"{name}: {error.strerror}")


# ---- the tables of the source

TOKEN = re.compile(
    r'\s*(?://[^\n]*\n\s*)*(?:(?P<text>"(?:[^"\\]|\\.)*")|(?P<number>[0-9][0-9_]*)|(?P<name>[A-Za-z_][A-Za-z0-9_]*(?:::[A-Za-z_]+)?)'
    r"|(?P<sign>[][{}(),:;&]))"
)
ESCAPES = {'"': '"', "\\": "\\", "n": "\n", "'": "'"}


class Tables:
    """Reads `static NAME: TYPE = VALUE;` and `const NAME: TYPE = VALUE;`, whose values are texts, numbers, true and false, lists,
    structs and the names of values that stand before them. Anything else is an error."""

    def __init__(self, text):
        self.text = text
        self.values = {}
        for item in re.finditer(r"^(?:pub )?(?:static|const) ([A-Z_]+): [^=]+ = ", text, re.M):
            self.at = item.end()
            self.values[item.group(1)] = self.value()
            self.expect(";")

    def fail(self, why):
        line = self.text.count("\n", 0, self.at) + 1
        fail(f"{SOURCE}:{line}: {why}")

    def token(self):
        found = TOKEN.match(self.text, self.at)
        if not found:
            self.fail("no value of a table")
        self.at = found.end()
        return found.lastgroup, found.group(found.lastgroup)

    def peek(self):
        at = self.at
        token = self.token()
        self.at = at
        return token

    def expect(self, sign):
        if self.token() != ("sign", sign):
            self.fail(f"no {sign}")

    def items(self, end, item):
        items = []
        while self.peek() != ("sign", end):
            items.append(item())
            if self.peek() != ("sign", end):
                self.expect(",")
        self.expect(end)
        return items

    def escaped(self, found):
        if found.group(1) not in ESCAPES:
            self.fail(f"an unknown escape {found.group(0)}")
        return ESCAPES[found.group(1)]

    def value(self):
        kind, word = self.token()
        if kind == "text":
            return re.sub(r"\\(.)", self.escaped, word[1:-1], flags=re.S)
        if kind == "number":
            return int(word.replace("_", ""))
        if (kind, word) == ("sign", "&"):
            return self.value()
        if (kind, word) == ("sign", "["):
            return self.items("]", self.value)
        if kind == "name" and word in ("true", "false"):
            return word == "true"
        if kind == "name" and word in FIELDS:
            return self.struct(word)
        if kind == "name" and word.startswith("Takes::"):
            numbers = []
            if self.peek() == ("sign", "("):
                self.expect("(")
                numbers = self.items(")", self.value)
            return (word[len("Takes::"):], *numbers)
        if kind == "name" and word in self.values:
            return self.values[word]
        return self.fail(f"an unknown value {word}")

    def struct(self, name):
        if self.peek() == ("sign", "("):
            self.expect("(")
            values = self.items(")", self.value)
            if len(values) != len(FIELDS[name]):
                self.fail(f"a {name} of {len(values)} values")
            return dict(zip(FIELDS[name], values))
        self.expect("{")
        fields = dict(self.items("}", self.field))
        if list(fields) != FIELDS[name]:
            self.fail(f"a {name} of other fields than {' '.join(FIELDS[name])}")
        return fields

    def field(self):
        kind, name = self.token()
        if kind != "name":
            self.fail(f"no field: {name}")
        self.expect(":")
        return name, self.value()


def checked(tables):
    options, commands = tables.values.get("OPTIONS"), tables.values.get("COMMANDS")
    if not options or not commands:
        fail(f"{SOURCE} has no OPTIONS or no COMMANDS")
    names = [command["name"] for command in commands]
    for option in options:
        if option["takes"][0] not in ("Nothing", "Number", "Text", "Texts") or (option["takes"][0] == "Nothing") != (option["value"] == ""):
            fail(f"--{option['name']}: {option['takes'][0]} with the value {option['value']!r}")
        for name in option["commands"].split():
            if name not in names:
                fail(f"--{option['name']}: no command {name}")
    return options, commands


# ---- what they say in words

def first_sentence(text):
    sentence = text.split(". ")[0]
    return sentence[0].lower() + sentence[1:]


def meaning_of(option):
    meaning = option["meaning"].replace(" [default: ", "; the default is ").rstrip("]")
    if option["default"]:
        meaning += f"; the default is {option['default']}"
    if option["is_required"]:
        meaning += "; required"
    return meaning


def owners_of(option):
    return option["commands"].split()


def listed(names):
    """Names as a sentence has them: `a`, `a and b`, `a, b and c`."""
    return " and ".join([", ".join(names[:-1]), names[-1]] if names[1:] else names)


# ---- the manual page

def roff(text):
    text = text.replace("\\", "\\e").replace("-", "\\-")
    return "\\&" + text if text[0] in ".'" else text


def filled(text):
    return "\n".join("\\&" + line if line[0] in ".'" else line for line in textwrap.wrap(roff(text), 120, break_long_words=False, break_on_hyphens=False))


def man_part(options, commands):
    lines = [".SH COMMANDS", "Each report has one line per row; fields are separated by", ".BR | ,", "and", ".B \\-", "stands for what isn't there."]
    told = {}
    for command in commands:
        lines += [".TP", f".B {roff(command['name'])}", filled(command["meaning"] + ". " + command["order"])]
        shape = tuple((column["name"], column["meaning"]) for column in command["columns"])
        if shape in told:
            lines += ["Columns: those of", f".BR {roff(told[shape])} ."]
            continue
        told[shape] = command["name"]
        lines += ["Columns:", ".RS"]
        for name, meaning in shape:
            lines += [".TP 12", f".I {roff(name)}", filled(meaning)]
        lines += [".RE"]
    lines += [".SH OPTIONS"]
    for option in options:
        name = "\\-\\-" + roff(option["name"])
        lines += [".TP", f'.BI {name} " {option["value"]}"' if option["value"] else f".B {name}"]
        lines += [filled(meaning_of(option) + ".")]
        if owners_of(option):
            lines += [filled("Only with " + listed(owners_of(option)) + ".")]
    lines += [".TP", '.BR \\-h ", " \\-\\-help', "Print a help text, also after a command.", ".TP", '.BR \\-V ", " \\-\\-version']
    lines += ["Print the version, and in a second line what the build recorded."]
    return "\n".join(lines) + "\n"


# ---- the usage page and the README

ALWAYS = {
    "`-h`, `--help`": "Print a help text, also without a command",
    "`-V`, `--version`": "Print the version, and in a second line what the build recorded; also without a command",
}


def cell(option):
    return f"`{' '.join(['--' + option['name'], option['value']]).strip()}`"


def usage_part(options, _commands):
    lines = ["| Option | Commands | Meaning |", "|---|---|---|"]
    for option in options:
        owners = ", ".join(f"`{name}`" for name in owners_of(option)) or "all"
        meaning = meaning_of(option).replace("|", "\\|")
        lines.append(f"| {cell(option)} | {owners} | {meaning} |")
    lines += [f"| {name} | all | {meaning} |" for name, meaning in ALWAYS.items()]
    return "\n".join(lines) + "\n"


def short_meaning_of(option):
    """The first sentence, and then which values there are, or what the next one says of the value."""
    sentences = option["meaning"].split(". ")
    if option["offered"] and option["takes"][0] == "Text":
        values = [f"`{value}`, the default" if value == option["default"] else f"`{value}`" for value in option["offered"].split()]
        return f"{sentences[0]}: {', '.join(values[:-1])}{',' if option['default'] else ''} or {values[-1]}"
    kept = ". ".join(sentences[: 2 if option["value"] else 1])
    return meaning_of({**option, "meaning": kept})


def readme_part(options, _commands):
    lines = ["| Option | Meaning |", "|---|---|"]
    for option in options:
        owners = listed([f"`{name}`" for name in owners_of(option)])
        meaning = short_meaning_of(option).replace("|", "\\|") + (f"; with {owners} alone" if owners else "")
        lines.append(f"| {cell(option)} | {meaning} |")
    lines += [f"| {', '.join(ALWAYS)} | Print a help text, or the version and what the build recorded; also without a command |"]
    return "\n".join(lines) + "\n"


# ---- the completions

def bash(options, commands):
    names = [command["name"] for command in commands]
    cases = []
    for option in options:
        if option["offered"]:
            cases.append(f"    --{option['name']}) mapfile -t COMPREPLY < <(compgen -W '{option['offered']}' -- \"$word\"); return;;")
    rest = "|".join("--" + option["name"] for option in options if option["value"] not in ("", "FILE") and not option["offered"])
    cases.append(f"    {rest}) return;;")
    general = " ".join("--" + option["name"] for option in options if not owners_of(option))
    owned = []
    for option in options:
        if owners_of(option):
            owned.append(f"    case $command in {'|'.join(owners_of(option))}) options=\"--{option['name']} $options\";; esac")
    return f"""# Completion of bgp_replay for bash. Made by tools/options.py.
_bgp_replay() {{
  local word=${{COMP_WORDS[COMP_CWORD]}} before=${{COMP_WORDS[COMP_CWORD-1]}} command='' i
  local commands='{' '.join(names)}'
  for ((i = 1; i < COMP_CWORD; i++)); do
    case ${{COMP_WORDS[i]}} in
      {'|'.join(names)}) command=${{COMP_WORDS[i]}}; break;;
    esac
  done
  COMPREPLY=()
  case $before in
{chr(10).join(cases)}
  esac
  if [[ -z $command ]]; then
    mapfile -t COMPREPLY < <(compgen -W "$commands help --help --version" -- "$word")
  elif [[ $word == -* ]]; then
    local options='{general} --help --version'
{chr(10).join(owned)}
    mapfile -t COMPREPLY < <(compgen -W "$options" -- "$word")
  else
    compopt -o filenames 2> /dev/null
    mapfile -t COMPREPLY < <(compgen -f -- "$word")
  fi
}}
complete -F _bgp_replay bgp_replay
"""


def quoted(text):
    return "'" + text.replace("\\", "\\\\").replace("'", "\\'") + "'"


def fish(options, commands):
    names = " ".join(command["name"] for command in commands)
    lines = [
        "# Completion of bgp_replay for fish. Made by tools/options.py.",
        f"set -l commands {names}",
        'set -l none "not __fish_seen_subcommand_from $commands"',
        'set -l some "__fish_seen_subcommand_from $commands"',
        "complete -c bgp_replay -n $none -f",
    ]
    for command in commands:
        lines.append(f"complete -c bgp_replay -n $none -a {command['name']} -d {quoted(first_sentence(command['meaning']))}")
    for option in options:
        owners = owners_of(option)
        seen = quoted("__fish_seen_subcommand_from " + " ".join(owners)) if owners else "$some"
        takes = {"": "", "FILE": " -r -F"}.get(option["value"], " -x")
        offered = f" -a {quoted(option['offered'])}" if option["offered"] else ""
        lines.append(f"complete -c bgp_replay -n {seen} -l {option['name']}{takes}{offered} -d {quoted(first_sentence(option['meaning']))}")
    lines.append("complete -c bgp_replay -s h -l help -d 'print a help text'")
    lines.append("complete -c bgp_replay -s V -l version -d 'print the version'")
    return "\n".join(lines) + "\n"


def zsh_spec(text):
    return "'" + text.replace("'", "'\\''") + "'"


def zsh_text(text):
    return re.sub(r"([][:\\])", r"\\\1", text)


def zsh(options, commands):
    told = "\n".join("    " + zsh_spec(f"{command['name']}:{zsh_text(first_sentence(command['meaning']))}") for command in commands)
    general, owned = [], []
    for option in options:
        takes = "*" if option["takes"][0] == "Texts" else ""
        spec = f"{takes}--{option['name']}[{zsh_text(first_sentence(option['meaning']))}]"
        if option["value"]:
            values = "_files" if option["value"] == "FILE" else f"({option['offered']})" if option["offered"] else ""
            spec += f":{option['value']}:{values}"
        if owners_of(option):
            owned.append(f"      case ${{words[1]}} in {'|'.join(owners_of(option))}) options+=({zsh_spec(spec)});; esac")
        else:
            general.append("        " + zsh_spec(spec))
    return f"""#compdef bgp_replay
# Completion of bgp_replay for zsh; it is installed as _bgp_replay. Made by tools/options.py.
_bgp_replay() {{
  local -a commands options
  local line state
  commands=(
{told}
  )
  _arguments -C '(- *)'{{-h,--help}}'[print a help text]' '(- *)'{{-V,--version}}'[print the version]' '1: :->command' '*:: :->words'
  case $state in
    command) _describe -t commands command commands;;
    words)
      options=(
{chr(10).join(general)}
        '(- *)'{{-h,--help}}'[print a help text]'
        '(- *)'{{-V,--version}}'[print the version]'
        '*:dump:_files'
      )
{chr(10).join(owned)}
      _arguments $options;;
  esac
}}
_bgp_replay "$@"
"""


# ---- the files

def between(name, marks, part):
    text = read(name)
    if text.count(marks[0]) != 1 or text.count(marks[1]) != 1 or text.index(marks[0]) > text.index(marks[1]):
        fail(f"{name} doesn't have the lines {marks[0].strip()} and {marks[1].strip()} once each, in this order")
    start = text.index(marks[0]) + len(marks[0])
    return text[:start] + part + text[text.index(marks[1]):]


def reports():
    """Each report's columns, as crates/report_request/src/column.rt has them: their names there and in text. Those of attributes follow
    where a report lists routes."""
    text = read(COLUMNS)
    keys = dict(re.findall(r'Key::([A-Za-z]+) => "([a-z_]+)"', text))
    own = dict(re.findall(r'Column::([A-Za-z]+) => "([a-z_]+)"', text))

    def listed(value):
        found = re.findall(r"Column::(?:Of\(Key::([A-Za-z]+)\)|([A-Za-z]+))", value)
        return [(key, keys[key]) if key else (column, own[column]) for key, column in found]

    route = re.search(r"^macro_rules! and_route \{.*?^        \[(.*?)^        \]", text, re.M | re.S)
    if not route:
        fail(f"{COLUMNS} has no and_route")
    columns, routes = {}, set()
    for name, with_route, value in re.findall(r"^const ([A-Z]+): \[Column; [0-9]+\] = (and_route!)?\[([^]]*)\];", text, re.M):
        columns[name.lower()] = listed(value) + (listed(route.group(1)) if with_route else [])
        routes |= {name.lower()} if with_route else set()
    columns = {"tables": columns["routes"], "match": columns.pop("routes"), **columns}
    attributes = re.findall(r'KeptAttribute::([A-Za-z]+) => "([a-z_]+)"', text)
    return columns, {name: attributes if name in routes | {"tables", "match"} else [] for name in columns}


def check_columns(commands):
    """The columns that help tells of are those of the lines."""
    columns, _ = reports()
    for command in commands:
        told = [column["name"] for column in command["columns"]]
        own = [name for _, name in columns.get(command["name"], [])]
        if told != own:
            fail(f"columns of {command['name']}: {SOURCE} has {told}, {COLUMNS} {own}")


def frames_part():
    """The kind of each column, by report and by the column's name in text."""
    kinds = {column: kind for kind, names in KINDS.items() for column in names.split()}
    lines = ["KINDS = {"]
    columns, attributes = reports()
    for report, own in columns.items():
        for column, _ in own + attributes[report]:
            if column not in kinds:
                fail(f"{column} of {COLUMNS} has no kind")
        told = " ".join(f'"{name}":\0{kinds[column]},' for column, name in own + attributes[report])
        lines += [f'    "{report}": {{', *(" " * 8 + line.replace("\0", " ") for line in textwrap.wrap(told, 112)), "    },"]
    return "\n".join([*lines, "}"]) + "\n"


def main():
    if sys.argv[1:] not in ([], ["--check"]):
        fail("usage: tools/options.py [--check]")
    tables = checked(Tables(read(SOURCE)))
    check_columns(tables[1])
    texts = {
        MAN: between(MAN, MAN_MARKS, man_part(*tables)),
        USAGE: between(USAGE, PAGE_MARKS, usage_part(*tables)),
        README: between(README, PAGE_MARKS, readme_part(*tables)),
        FRAMES: between(FRAMES, FRAMES_MARKS, frames_part()),
        "completions/bgp_replay.bash": bash(*tables),
        "completions/bgp_replay.fish": fish(*tables),
        "completions/bgp_replay.zsh": zsh(*tables),
    }
    others = [name for name, text in texts.items() if read(name) != text]
    if sys.argv[1:] == ["--check"]:
        for name in others:
            print(f"{name}: not what tools/options.py makes")
        sys.exit(1 if others else 0)
    for name in others:
        with open(os.path.join(TOP, name), "w", encoding="utf-8") as file:
            file.write(texts[name])
        print(f"{name}: written")


main()
