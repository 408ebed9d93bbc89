#!/usr/bin/env python3
"""Makes the completion of `kdcd`, `kadm` and `kclient` for bash and zsh, from the tables of their commands and options
in the sources. `install.py` installs it. The principals that it proposes are those that `kadm list` prints.

    python3 dev/make_completion.py FOLDER

It needs only Python 3, and writes a file for each program and shell to the folder. The status is 1 if a table can't be
read, or if no command has an option of it."""

import argparse
import pathlib
import re
import sys
import typing

TOP = pathlib.Path(__file__).resolve().parent.parent
# Where each program has its tables.
TABLES = {
    "kadm": [f"kadm/src/{name}.rt" for name in ("commands", "changing", "writing", "restoring", "printing", "options")],
    "kclient": ["kclient/src/options.rt"], "kdcd": ["kdcd/src/options.rt"],
}
# The tables of a program whose commands are in several files, in the order of its help.
PARTS = ("INIT", "CHANGES", "PRINTS", "LATER_CHANGES")
# What a command takes besides its own table: the names of the constants, or of the function of an option whose value
# may be left away.
ADDED = {"kinit": ("KINIT_OPTIONS", "KINIT_FLAGS"), "serve": ("journal_option",)}
# The words that may stand for a placeholder; `FIELD` has those of a policy besides.
WORDS = {"FORMAT": "text json", "TYPES": "18,17,20,19 20,19", "VALUE": "true false never"}
# The placeholders of paths.
FILES = ("FILE", "FOLDER")
# The program whose names are principals, and its commands that give a principal a new name.
NAMING, NEWCOMERS = "kadm", ("add", "import")
# Its command that takes a word alone as a file.
FILE_ALONE = "check"
# The source with the commands that take a word alone as a name: the function with that rule, and a command of it.
ALONE, TAKEN = TOP / "crates/kadm/src/words.rt", re.compile(r'command == "(\w+)"')
# Where the fields of a policy are, and the texts about them that a table names; and the row of a field there.
SETTINGS = TOP / "crates/text_fields/src/settings.rt"
FIELD = re.compile(r'FieldRow::new\("(\w+)", \d+\)')
# Prints the principals, of the database that the words name or else the environment, in bash. A name may have any
# character that a shell reads, so no word of it is expanded.
BASH_NAMES = r"""_kadm_names() {
    local i name db=()
    for ((i = 2; i < COMP_CWORD; i++)); do
        [ "${COMP_WORDS[i]}" != --db ] || db=(--db "${COMP_WORDS[i + 1]}")
        [ "${db[1]}" != = ] || db=(--db "${COMP_WORDS[i + 2]}")
    done
    while read -r name; do
        name=$(printf %q "${name%% *}")
        [[ $name != "$word"* ]] || COMPREPLY+=("$name")
    done < <("${COMP_WORDS[0]}" list "${db[@]}" 2> /dev/null)
}"""
# The same in zsh, which quotes what it inserts.
ZSH_NAMES = r"""_kadm_names() {
    local -a db names
    local at=${words[(I)--db]} joined=${words[(R)--db=*]}
    (( at )) && db=(--db ${(Q)words[at + 1]})
    [[ -n $joined ]] && db=(--db ${(Q)joined#--db=})
    names=(${(f)"$(_call_program names $program list ${(q)db} 2> /dev/null | cut -d ' ' -f 1)"})
    compadd -a names
}"""
# What proposes fields of a policy, each with an equals sign, in bash and in zsh.
BASH_FIELDS = "compopt -o nospace 2>/dev/null; mapfile -t COMPREPLY < <(compgen -S = -W '{}' -- \"$word\")"
ZSH_FIELDS = "compadd -S = {}"
# What proposes names of files in bash.
BASH_FILES = "compopt -o filenames 2>/dev/null; mapfile -t COMPREPLY < <(compgen -f -- \"$word\")"
HELP, VERSION = ("help", "Prints the options"), ("version", "Prints the version")


class Unreadable(Exception):
    """Why a table is not read."""


class Row(typing.NamedTuple):
    """An expression `KIND { FIELD: VALUE, .. }`."""
    kind: str
    fields: dict


class Option(typing.NamedTuple):
    """An option with a value, or a flag, whose shape is empty."""
    name: str
    help: str
    shape: str = ""
    is_repeated: bool = False
    is_optional: bool = False

    @property
    def word(self):
        return f"--{self.name}" if len(self.name) > 1 else f"-{self.name}"


def text_of(literal):
    """The text of a literal between its quotes. A backslash at the end of a line joins the next one."""
    return re.sub(r"\\(.)", r"\1", re.sub(r"\\\n\s*", "", literal))


class Reader:
    """Reads the constants of a source that are rows, lists of rows, or texts."""
    TOKEN = re.compile(r'\s*(?:("(?:[^"\\]|\\.)*")|(\w+(?:::\w+)*)|(.))', re.S)

    def __init__(self, text):
        self.text = re.sub(r"//.*", "", text)
        self.places = {each[1]: each.end() for each in re.finditer(r"\bconst (\w+): [&\[]*\w+\]* =", self.text)}
        self.rows, self.used = [], set()

    def constant(self, name):
        """The value of a constant."""
        if name not in self.places:
            raise Unreadable(f"{name} is no constant")
        self.used.add(name)
        return self.value(self.places[name])[0]

    def token(self, at):
        found = self.TOKEN.match(self.text, at)
        return found[1] or found[2] or found[3], found.end()

    def value(self, at):
        """The expression at this place, and the place behind it."""
        token, end = self.token(at)
        if token == "&":
            return self.value(end)
        if token == "[":
            return self.list_at(end)
        if token.startswith('"'):
            return text_of(token[1:-1]), end
        if self.token(end)[0] == "{":
            return self.row_at(token, self.token(end)[1])
        return (self.constant(token), end) if token.isupper() or token in self.places else (token, end)

    def list_at(self, at):
        values = []
        while self.token(at)[0] != "]":
            value, at = self.value(at)
            values.append(value)
            at = self.token(at)[1] if self.token(at)[0] == "," else at
        return values, self.token(at)[1]

    def row_at(self, kind, at):
        fields = {}
        while self.token(at)[0] != "}":
            name, at = self.token(at)
            value, at = self.value(self.token(at)[1])
            fields[name] = value
            at = self.token(at)[1] if self.token(at)[0] == "," else at
        return Row(kind, fields), self.token(at)[1]


def argument(text, function):
    """The option that a function makes without a row."""
    body = text.partition(f"fn {function}")[2].partition("\n}\n")[0]
    found = [re.search(rf'\.{call}\(\s*"((?:[^"\\]|\\.)*)"', body, re.S) for call in ("long", "help", "value_name")]
    if not all(found):
        raise Unreadable(f"{function} makes no option")
    return Option(*(text_of(each[1]) for each in found), is_optional="num_args(0..=1)" in body)


def option_of(row):
    fields = row.fields
    is_repeated = fields.get("times") in ("Times::Any", "Times::AtLeastOnce")
    return Option(fields["name"], fields["help"], fields.get("shape", ""), is_repeated)


def rows_in(reader):
    """The rows of all commands."""
    if all(name in reader.places for name in PARTS):
        return [row for name in PARTS for row in reader.constant(name)]
    return [reader.value(place.start(1))[0] for place in re.finditer(r"= (SubcommandRow \{)", reader.text)]


def commands_in(sources):
    """The commands of a program with what each is for and its options."""
    texts = [(TOP / "crates" / source).read_text() for source in sources]
    reader = Reader("".join(texts) + SETTINGS.read_text())
    found, named = {}, set()
    for row in (row.fields for row in rows_in(reader)):
        rows = [*row["options"], *row["flags"]]
        added = ADDED.get(row["name"], ())
        rows += [each for name in added if name in reader.places for each in reader.constant(name)]
        more = [argument(reader.text, name) for name in added if name not in reader.places]
        found[row["name"]] = row["about"], [*map(option_of, rows), *more, Option(*HELP)]
        named |= {each.name for each in found[row["name"]][1]}
    written = set(re.findall(r'\b(?:OptionRow|FlagRow) \{\s*name: "([\w-]+)"|\.long\(\s*"([\w-]+)"', reader.text))
    written = {one or other for one, other in written}
    if not found or written - named:
        raise Unreadable(f"{sources[0]}: no command has {', '.join(sorted(written - named)) or 'a row'}")
    return found


def names_alone():
    """The commands of `kadm` that take a word alone as the name of a principal that is there."""
    body = ALONE.read_text().partition("fn takes_names")[2].partition("\n}\n")[0]
    found = [command for command in TAKEN.findall(body) if command not in NEWCOMERS]
    if not found:
        raise Unreadable(f"{ALONE.name}: no command takes names")
    return found


def has_names(program, command, option):
    """Whether the value of an option is a principal that is there."""
    return program == NAMING and option.shape == "NAME" and command not in NEWCOMERS


def bash_values(program, command, option):
    """The line of bash that completes the value of an option of a command. It returns false if an option may follow in
    its place."""
    if option.is_optional:
        done = f"[[ $word == -* ]] || {{ {BASH_FILES}; }}"
    elif option.shape in FILES:
        done = BASH_FILES
    elif has_names(program, command, option):
        done = "_kadm_names"
    elif option.shape == "FIELD=VALUE":
        done = BASH_FIELDS.format(WORDS["FIELD"])
    elif words := WORDS.get(option.shape):
        done = f"mapfile -t COMPREPLY < <(compgen -W '{words}' -- \"$word\")"
    else:
        done = ":"
    return done, f"{command}:{option.word}"


def bash(program, commands):
    values = {}
    for command, (_, options) in commands.items():
        for option in options:
            if option.shape:
                done, pattern = bash_values(program, command, option)
                values.setdefault(done, []).append(pattern)
            if option.shape == "FIELD=VALUE":
                done, _ = bash_values(program, command, option._replace(shape="VALUE"))
                values.setdefault(done, []).append(f"{command}:*=")
    lines = [
        f"# Completes the commands and options of {program} in bash. Made by dev/make_completion.py.",
        *([BASH_NAMES] if program == NAMING else ()),
        f"_{program}() {{",
        "    local word=${COMP_WORDS[COMP_CWORD]} before=${COMP_WORDS[COMP_CWORD - 1]} command=${COMP_WORDS[1]}",
        "    COMPREPLY=()",
        "    if [ \"$COMP_CWORD\" -eq 1 ]; then",
        f"        mapfile -t COMPREPLY < <(compgen -W '{' '.join(commands)} --help --version' -- \"$word\")",
        "        return",
        "    fi",
        "    # A word such as --db=FILE, or disabled=true, is three words here.",
        "    if [ \"$word\" = = ]; then",
        "        word=",
        "        [[ $before == -* ]] || before+==",
        "    elif [ \"$before\" = = ]; then",
        "        before=${COMP_WORDS[COMP_CWORD - 2]}",
        "        [[ $before == -* ]] || before+==",
        "    fi",
        "    case $command:$before in",
    ]
    for done, patterns in values.items():
        end = '            [[ $word == -* ]] || return' if done.startswith("[[") else "            return"
        lines += [f"        {' | '.join(patterns)})", f"            {done}", end, "            ;;"]
    lines += ["    esac", "    case $command in"]
    for command, (_, options) in commands.items():
        words = " ".join(option.word for option in options)
        lines.append(f"        {command}) mapfile -t COMPREPLY < <(compgen -W '{words}' -- \"$word\") ;;")
    if program == NAMING:
        lines += ["    esac", "    case $command:$word in", "        *:-*) ;;"]
        lines.append(f"        {' | '.join(f'{command}:*' for command in names_alone())}) _kadm_names ;;")
        lines.append(f"        {FILE_ALONE}:*) {BASH_FILES} ;;")
    return "\n".join([*lines, "    esac", "}", f"complete -F _{program} {program}", ""])


def zsh_text(text):
    return re.sub(r"([\[\]:])", r"\\\1", text.replace("'", "'\\''"))


def zsh_option(program, command, option):
    """The specification of an option for `_arguments`."""
    value = ""
    if option.shape in FILES:
        value = f"{':' * option.is_optional}:FILE:_files"
    elif has_names(program, command, option):
        value = ":NAME:_kadm_names"
    elif option.shape == "FIELD=VALUE":
        value = f":FIELD=VALUE:{{{ZSH_FIELDS.format(WORDS['FIELD'])}}}"
    elif option.shape:
        words = WORDS.get(option.shape)
        value = f":{zsh_text(option.shape)}:({words})" if words else f":{zsh_text(option.shape)}: "
    return f"'{'*' * option.is_repeated}{option.word}{'=' * bool(value)}[{zsh_text(option.help)}]{value}'"


def zsh(program, commands):
    lines = [
        f"#compdef {program}",
        f"# Completes the commands and options of {program} in zsh. Made by dev/make_completion.py.",
        *([ZSH_NAMES] if program == NAMING else ()),
        f"_{program}() {{",
        "    local -a commands",
        "    commands=(",
        *(f"        '{command}:{zsh_text(about)}'" for command, (about, _) in commands.items()),
        "    )",
        "    if (( CURRENT == 2 )); then",
        "        _describe -t commands command commands",
        f"        compadd -- --{HELP[0]} --{VERSION[0]}",
        "        return",
        "    fi",
        "    local program=$words[1] command=$words[2]",
        "    shift words",
        "    (( CURRENT-- ))",
        "    case $command in",
    ]
    for command, (_, options) in commands.items():
        lines += [f"        {command})", "            _arguments \\"]
        rows = [zsh_option(program, command, option) for option in options]
        rows += ["'*:NAME:_kadm_names'"] if program == NAMING and command in names_alone() else []
        rows += ["'*:FILE:_files'"] if program == NAMING and command == FILE_ALONE else []
        lines.append(" \\\n".join(f"                {row}" for row in rows))
        lines.append("            ;;")
    return "\n".join([*lines, "    esac", "}", f'_{program} "$@"', ""])


def made():
    """Each file, by its name, with its text."""
    WORDS["FIELD"] = " ".join(FIELD.findall(SETTINGS.read_text()))
    files = {}
    for program, sources in TABLES.items():
        commands = commands_in(sources)
        files |= {f"{program}.bash": bash(program, commands), f"_{program}": zsh(program, commands)}
    return files


def main():
    words = argparse.ArgumentParser(description=__doc__, formatter_class=argparse.RawDescriptionHelpFormatter)
    words.add_argument("folder", type=pathlib.Path, metavar="FOLDER")
    folder = words.parse_args().folder
    try:
        files = made()
        for name, text in files.items():
            (folder / name).write_text(text)
            print(folder / name)
    except (Unreadable, OSError) as fault:
        sys.exit(f"make_completion.py: {fault}")


if __name__ == "__main__":
    main()
