"""Lists what has to be believed: for each promise of the programs, the definitions that its clauses lead to.

usage: python3 -m tests.gate.believe [--write | TITLE]

Without an argument it tests that docs/believe.md is that list, and that no promise and no definition is missing. `--write` writes
that page. A title, such as 'A monitor', prints all that this section leads to."""

import os
import re
import sys

from tests.gate.definitions import CODE, Imports, Library, Scope, files_of, read, tokens, WORD
from tests.support.harness import ROOT, Failed, ensure, expect, run_tests, write

PAGE = os.path.join(ROOT, "docs", "believe.md")
# The list of promises, with the functions whose clauses make them.
LIST = os.path.join(ROOT, "tests", "gate", "promises.txt")

# What no section has: clauses in terms of the machine, which say what others say in terms of histories; laws that only proofs cite;
# and laws by which worked examples see that a link keeps a pace.
LEFT_OUT = {
    "nut_server": ("Server.step",),
    "nut_monitor": ("Monitor.step",),
    "nut_server_spec": ("machine_keeps_content", "answers_keep_content"),
    "nut_monitor_spec": ("machine_keeps_content", "answers_keep_content"),
    "nut_fleet": ("pipes_move", "contents_tell", "deeds_are_seen", "fleets_go_on"),
    "nut_in_time": ("quiet_links_keep_pace", "rounds_keep_pace"),
}
# What stands for some relation: a call says that it holds, another that it goes on, and what follows from it stands beside it.
OPAQUE = {("nut_play", "Room", "HasPlayed")}
# The beginning of a law's comment; laws of the values of constants, which the last section has, don't count.
STATES = re.compile(r"States? (?:a law|laws) and does nothing when called(?!.* values? of the limits? )[:,.]? ?")
# The crates each of whose laws has to be in a section or above.
CRATES_OF_LAWS = "nut_server_spec nut_monitor_spec nut_conf nut_client nut_dummy nut_fleet nut_running nut_in_time nut_play nut_server_loop".split()

HEAD = """# What has to be believed

For whoever checks what is proved. If you believe the definitions below, you believe what the clauses of these calls and laws say
(docs/proved.md; a law's definition has its name). Each section lists what it adds to those before it: by crate, with the number of
lines, comments included, and by file, in the order in which definitions build on each other. Lines of `nut_words` is
`crates/nut_words/specs/Lines.antt`, whose comments say what it means. The last section has the types and constants of the code that
definitions name. Words of the toolchain's library aren't listed. `python3 -m tests.gate.believe 'A monitor'` prints all that one
section leads to.

Two files have second forms. If you believe `nut_words: Spelling`, you need only `has_backslash`, `with_backslash` and `Gives` of
`nut_words: Reader` (law `spelled_is_meant`). If you believe `nut_state: LookBack`, which no clause here cites, you need only
`line_adds` of `nut_state: Step` (law `every_table_holds`).

`Server::arrive` looks back at all arrivals. If you prefer a machine, `Server::step` says what one arrival makes of the server's content.
With what callers see, but without `Server::new`, it leads to STEP_LINES lines, of which `nut_server_spec: machine/Machine` and
`MachineOutcome` stand in no section.

`HasPlayed` of `nut_play` stands for some relation. You needn't know which: `Fleet::new` says that it holds, `Fleet::play` that it goes
on, and what follows from it stands beside it. So what it leads to isn't listed.

`python3 -m tests.gate.believe --write` makes this page. A test fails if the page differs, if it doesn't find a name that a clause or a
definition has, or if a law is in no section.
"""


def listed_promises():
    """Returns the promises of the list: the title of each, what it is about, and the functions that make it, by crate and file."""
    found = []
    for line in read(LIST).splitlines():
        first, _, rest = line.strip().partition(": ")
        if line.startswith(" "):
            crate, _, file = first.partition(" ")
            found[-1][2].append((crate, file or None, rest.split()))
        elif line and not line.startswith("#"):
            found.append((first, rest, []))
    return found


def clauses(text, at):
    """Returns the parameters of the function whose `fn` is at this place, and its clauses."""
    found, depth, i = [], 0, text.index("(", at)
    start_of_parameters, parameters = text.index("(", at), None
    while i < len(text):
        if text.startswith("//", i):
            i = text.index("\n", i)
        elif depth == 0 and (clause := re.compile(r"(?:ensures|requires)\*?(?:\s+\w+)*\s*\{").match(text, i)):
            start, i, inner = clause.end(), clause.end(), 1
            while inner:
                inner += {"{": 1, "}": -1}.get(text[i], 0)
                i += 1
            found.append(text[start:i - 1])
            continue
        elif text[i] in "([":
            depth += 1
        elif text[i] in ")]":
            depth -= 1
            if depth == 0 and parameters is None:
                parameters = text[at:i]
        elif depth == 0 and text[i] in "{;":
            break
        i += 1
    names = set(re.findall(rf"\b({WORD})\s*:(?!:)", parameters or text[start_of_parameters:i]))
    return names | type_parameters(text[at:start_of_parameters]), found


def type_parameters(text):
    """Returns the type parameters in front of those of a function, or of an impl."""
    return set(re.findall(rf"[<,]\s*({WORD})\s*(?=[:,>])", text))


def owners(text):
    """Returns where each impl or trait block of a file begins and ends, the name of its type, whether all of its members count as
    public, whether it is an impl of a trait, and its type parameters."""
    found = []
    for block in re.finditer(rf"^(?:pub )?(impl(?:<[^\n]*?>)? ((?:[\w:<>', +]+ for )?)|trait )({WORD})[^\n{{]*", text, re.M):
        end = text.find("\n}", block.start())
        found.append((block.start(), end, block[3], block[1].startswith("trait"), bool(block[2]), type_parameters(block[0])))
    return found


class Function:
    """A function of the code: its name, with its type in front if it has one, and what its clauses may name."""

    def __init__(self, name, is_public, is_law, names, said):
        self.name, self.is_public, self.is_law, self.names, self.said = name, is_public, is_law, names, said


class Source:
    """A file of code."""

    def __init__(self, path):
        self.path, self.text = path, read(path)
        self.imports = Imports(self.text.replace("ghost use", "use"))
        self.functions = list(self.find_functions())
        self.ghosts = re.findall(r"^\s*ghost (?!use)\w+: (\{(?:[^{}]|\{[^{}]*\})*\});", self.text, re.M)
        self.ghost_names = set(re.findall(r"^\s*ghost (?!use)(\w+)", self.text, re.M))

    def find_functions(self):
        blocks = owners(self.text)
        for it in re.finditer(rf"^[ ]*(pub )?(?:const )?fn ({WORD})", self.text, re.M):
            block = next((block for block in blocks if block[0] <= it.start() < block[1]), None)
            before = self.text[:it.start()].rsplit("\n\n", 1)[-1]
            if block and block[4]:
                continue
            names, said = clauses(self.text, it.end())
            names |= block[5] if block else set()
            yield Function(f"{block[2]}.{it[2]}" if block else it[2], bool(it[1]) or bool(block and block[3]),
                bool(STATES.search(before)), names, said)

    def code_names(self):
        """Returns the names that the code itself imports from other crates, or has."""
        found = {}
        for crate, listed in re.findall(r"^\s*(?:pub )?use (\w+)::([^;]*);", self.text, re.M):
            for name in re.findall(WORD, listed):
                found[name] = crate
        return found


class Promises:
    """The sections of the page, with what each leads to."""

    def __init__(self, library):
        self.library, self.sources = library, {}
        self.sections = [(title, about, calls, self.believed(calls)) for title, about, calls in listed_promises()]

    def files(self, crate):
        if crate not in self.sources:
            folder = os.path.join(ROOT, "crates", crate, "src")
            self.sources[crate] = [Source(path) for path in files_of(folder, ".rt")]
        return self.sources[crate]

    def believed(self, calls):
        """Returns the definitions that the clauses of these calls lead to."""
        first = set()
        for crate, file, wanted in calls:
            met = set()
            for source in self.files(crate):
                if file in (None, os.path.basename(source.path)):
                    for it in source.functions:
                        pattern = self.wanted_by(crate, it, wanted)
                        if pattern:
                            met.add(pattern)
                            first |= self.cited(crate, source, it.said, it.names, it.name)
                    if any(pattern in met and pattern.endswith(".*") for pattern in wanted):
                        first |= self.cited(crate, source, source.ghosts, (), os.path.basename(source.path))
            for pattern in wanted:
                ensure(pattern.endswith("?") or pattern in met, f"{crate} has no function {pattern}")
        return self.library.closure(first, OPAQUE)

    def by_machine(self):
        """Returns what `Server::step` leads to, and all that callers see of a server."""
        names = [it.name for source in self.files("nut_server") for it in source.functions if it.is_public and it.name.startswith("Server.")]
        return self.believed([("nut_server", None, sorted(set(names) - {"Server.new", "Server.arrive"}))])

    @staticmethod
    def wanted_by(crate, function, wanted):
        is_shown = function.is_public and function.name not in LEFT_OUT.get(crate, ())
        for pattern in wanted:
            is_of_type = pattern.endswith(".*") and is_shown and function.name.split(".")[0] == pattern[:-2]
            if is_of_type or function.name == pattern.rstrip("?"):
                return pattern
        return None

    def cited(self, crate, source, said, names, name):
        """Returns the definitions, types and constants that clauses name."""
        known = {*"result self Self fn rt u8 u16 u32 u64 usize bool str MAX".split(), *names, *source.ghost_names}
        scope = Scope(self.library, source.imports, None, known)
        for clause in said:
            scope.expression(tokens(clause), ())
        found, missing = scope.cited - {None}, []
        imported = source.code_names()
        for word in scope.unknown:
            home = self.library.code_home(crate, word, imported.get(word))
            if home:
                found.add(home)
            elif imported.get(word) not in ("std", "core"):
                missing.append(word)
        ensure(not missing, f"{crate}: {name} cites what isn't found: {', '.join(sorted(missing))}")
        return found

    def laws_without_section(self):
        listed = {(crate, name.rstrip("?")) for _, _, calls, _ in self.sections for crate, _, wanted in calls for name in wanted}
        listed |= {(crate, name) for crate, names in LEFT_OUT.items() for name in names}
        return [f"{crate}: {it.name}" for crate in CRATES_OF_LAWS for source in self.files(crate) for it in source.functions
            if it.is_law and (crate, it.name) not in listed]


def calls_of(promises, calls):
    """Returns the calls of a section as the page names them. Laws are counted: each has the name of its definition."""
    named, laws = [], {}
    for crate, _, wanted in calls:
        is_law = {it.name for source in promises.files(crate) for it in source.functions if it.is_law}
        for it in wanted:
            if it.rstrip("?") in is_law:
                laws[crate] = laws.get(crate, 0) + 1
            elif not it.endswith("?"):
                it = it.replace(".*", "").replace(".", "::")
                named += [] if it in named else [it]
    called = [f"`{' '.join(named)}`"] if named else []
    return " and ".join(called + [f"{count} law{'s' * (count > 1)} of `{crate}`" for crate, count in laws.items()])


def rows(library, found):
    """Yields a line for each crate with some of these definitions: its lines, and its files with their definitions."""
    for crate in library.order:
        files, lines = [], 0
        for (it, module), where in library.modules.items():
            names = [name for name in where.definitions if (crate, module, name) in found]
            if it == crate and names:
                lines += sum(where.definitions[name].lines for name in names)
                files.append(f"{module} `{' '.join(names)}`")
        if files:
            yield f"- `{crate}` {lines}: {'; '.join(files)}"


def section(library, title, about, called, found, before):
    """Returns the text of a section, in which nothing is listed that stands in those before."""
    new = found - before
    lines, code_lines = library.sums(found)
    added = library.sums(new)[0]
    what_is_new = f", {added:,} of them new" if before else ""
    out = [f"## {title}\n", f"By {called}: {about}. {lines:,} lines{what_is_new}, and {code_lines:,} of code.\n"]
    return "\n".join(out + list(rows(library, new))) + "\n"


def code_of(library, found):
    """Returns the text of the section that lists the types and constants of the code among these."""
    out = ["## Types and constants of the code\n"]
    for crate in library.order:
        names = sorted(name for it, module, name in found if module == CODE and it == crate)
        if names:
            out.append(f"- `{crate}` {sum(library.item(crate, name) for name in names)}: `{' '.join(names)}`")
    return "\n".join(out) + "\n"


def page(library):
    promises = Promises(library)
    everything = set().union(*(found for _, _, _, found in promises.sections))
    count = sum(it[1] != CODE for it in everything)
    lines, code_lines = library.sums(everything)
    out, before = [HEAD.replace("STEP_LINES", f"{library.sums(promises.by_machine())[0]:,}")], set()
    out.append(f"In all: {count:,} definitions of {lines:,} lines; {len(everything) - count:,} types and constants of {code_lines:,}.\n")
    for title, about, calls, found in promises.sections:
        out.append(section(library, title, about, calls_of(promises, calls), found, before))
        before |= found
    return "\n".join([*out, code_of(library, everything)])


class Tests:
    def __init__(self):
        self.library = Library()

    def test_page_is_up_to_date(self):
        """docs/believe.md lists what the clauses lead to."""
        expect(read(PAGE).splitlines(), page(self.library).splitlines(), "docs/believe.md; python3 -m tests.gate.believe --write writes it")

    def test_every_law_has_a_section(self):
        """Each law of the crates of laws is in a section, or is left out by name."""
        expect(Promises(self.library).laws_without_section(), [], "laws that no section has")

    def test_every_definition_is_found(self):
        """All that any definition of the repository cites is found."""
        for (crate, module), it in self.library.modules.items():
            for name in it.definitions:
                self.library.cited((crate, module, name))

    def test_a_missing_definition_is_refused(self):
        """If the script overlooks a definition, a constructor or a type that something cites, it says so."""
        missing = (("nut_server_spec", "Device", "is_stale"), ("nut_fleet", "Fleet", "IsReason"), ("nut_words", "Lines", "LineText"))
        for crate, module, name in missing:
            library = Library()
            where = library.modules[crate, module]
            del where.definitions[name]
            where.inside = {it: owner for it, owner in where.inside.items() if owner != name}
            try:
                page(library)
            except Failed as fault:
                ensure(f"{crate}: {module}" in str(fault), f"the file of {name} isn't named: {fault}")
            else:
                ensure(False, f"{name} was overlooked, and nothing was said")


def main(words):
    if words == ["--write"]:
        write(PAGE, page(Library()))
        return 0
    if words:
        library = Library()
        promises = Promises(library)
        for title, about, calls, found in promises.sections:
            if title == words[0]:
                print(section(library, title, about, calls_of(promises, calls), found, set()), code_of(library, found), sep="\n")
                return 0
        print(f"no section {words[0]}; there are {', '.join(it[0] for it in promises.sections)}")
        return 2
    return run_tests(Tests())


if __name__ == "__main__":
    sys.exit(main(sys.argv[1:]))
