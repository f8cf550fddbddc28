"""For the tool `promises`: which edits are wrong versions of which function, and the tables of docs/PROMISES.md that say so
beside what each public function asks and promises."""
import collections
import re

from repository import MODULE, ROOT, brought, conversions, definitions, functions, imports, names_in, pairs, short, stop

PROMISES = ROOT / "docs" / "PROMISES.md"
BEGIN, END = "<!-- generated: tools/promises --write -->", "<!-- end -->"
FOR = re.compile(r"^#\s*for:\s*(.*)$", re.M)
CALL = re.compile(r"(?<![\w.:])(?:((?:\w+::)*\w+)::)?(\w+)\(")
CONSTANT = re.compile(r"^(?:pub(?:\(\w+\))? )?const (\w+)\b.*?;$", re.M | re.S)


# ---- which functions an edit is for

class Room:
    """A crate's functions with who calls them, and its definitions with what they cite."""

    def __init__(self, crate):
        self.crate = crate
        self.functions = list(functions(crate))
        self.conversions = list(conversions(crate))
        self.texts = {path: path.read_text() for path in [*crate.code(), *crate.definitions()]}
        self.definitions = {path: definitions(crate.name, path) for path in crate.definitions()}
        self.callers = collections.defaultdict(list)
        for one in self.functions:
            for name in self.called(one):
                self.callers[name].append(one)
        self.cites = {(path, one.name): self.known(path, names_in(" ".join(one.lines)))
                      for path, found in self.definitions.items() for one in found}

    def called(self, one):
        """The names of the crate's functions that a function of it calls."""
        names = {other.name for other in self.functions}
        own = {"crate", *(path.stem for path in self.crate.code())}
        foreign = {name for _, owner, name in brought(self.texts[one.path]) if owner.split("::")[-1] not in own}
        return {name for owner, name in CALL.findall(one.body) if name in names
                and (owner.split("::")[-1] in own if owner else name not in foreign)}

    def is_open(self, one):
        """Whether other crates can call a function: it stands in lib.rt, or lib.rt hands it on."""
        top = self.crate.folder / "src" / "lib.rt"
        text = self.texts.get(top, "")
        handed = (True, one.path.stem, one.name) in brought(text) or re.search(rf"^pub mod {one.path.stem};", text, re.M)
        return one.public and not one.inner and (one.path == top or bool(handed))

    def above(self, ones):
        """The public functions that the code of some is part of: themselves, and their callers' where no other crate can call them."""
        todo, seen = list(ones), []
        while todo:
            one = todo.pop()
            if one not in seen:
                seen.append(one)
                todo += [] if self.is_open(one) else self.callers[one.name]
        return {one.name for one in seen if one.public}

    def known(self, path, words):
        """The crate's definitions that words of a file mean."""
        means = {}
        for one in self.definitions.get(path, []):
            for name in [one.name, *one.makes]:
                means.update({part: (path, one.name) for part in name.split("◌") if part})
        for module, there, here in imports(self.texts[path]):
            where = MODULE.match(module)
            if where and (where[1], where[2]) == (self.crate.name, "specs"):
                file = self.crate.folder / "specs" / f"{where[3].replace('.', '/')}.antt"
                for one in self.definitions.get(file, []):
                    if there in [one.name, *one.makes]:
                        means.update({part: (file, one.name) for part in here.split("◌") if part})
        return {means[word] for word in words & means.keys()}

    def cited(self, one):
        """The definitions that a function's contract cites, directly or through others of the crate."""
        return self.through(one.path, " ".join(" ".join(texts) for texts in one.clauses.values()))

    def through(self, path, text):
        """The crate's definitions that a text of a file of code cites, directly or through others."""
        todo = list(self.known(path, names_in(text)))
        found = set()
        while todo:
            where = todo.pop()
            if where not in found:
                found.add(where)
                todo += self.cites[where]
        return found

    def changed_code(self, path, at):
        """The functions that a place in code belongs to; a constant belongs to those that name it."""
        here = [one for one in self.functions if one.path == path and one.start <= at < one.end]
        for found in CONSTANT.finditer(self.texts[path]):
            if found.start() <= at < found.end():
                here += [one for one in self.functions if re.search(rf"\b{found[1]}\b", one.body)]
        return self.above(here)

    def changed_definition(self, path, at):
        """The functions that cite the definition at a place: public ones, or else those that the others are part of."""
        line = self.texts[path].count("\n", 0, at) + 1
        before = [one.name for one in self.definitions[path] if one.line <= line]
        citing = [one for one in self.functions if before and (path, before[-1]) in self.cited(one)]
        return {one.name for one in citing if one.public} or self.above(citing)

    def turned(self, edit):
        """The conversions that an edit changes: in their code, or in a definition that they promise."""
        found = []
        for file, old, _ in pairs(edit):
            path = self.crate.folder / file
            at = self.texts.get(path, "").find(old)
            if at >= 0 and path.suffix == ".rt":
                found += [one for one in self.conversions if one.path == path and one.start <= at < one.end]
            elif at >= 0:
                line = self.texts[path].count("\n", 0, at) + 1
                before = [one.name for one in self.definitions[path] if one.line <= line]
                found += [one for one in self.conversions if before and (path, before[-1]) in self.through(one.path, one.promise)]
        return {(one.crate, one.name) for one in found}

    def told(self, edit):
        """The functions that an edit's text tells of, as (crate, function)."""
        found = set()
        for file, old, _ in pairs(edit):
            path = self.crate.folder / file
            at = self.texts.get(path, "").find(old)
            if at >= 0:
                found |= self.changed_code(path, at) if path.suffix == ".rt" else self.changed_definition(path, at)
        return {(self.crate.name, name) for name in found}


def named_for(crate, edit):
    """The functions that an edit names itself: `# for: function, crate::function`."""
    words = [word.strip() for line in FOR.findall(edit.read_text()) for word in line.split(",")]
    return {(owner or crate.name, name) for owner, _, name in (word.rpartition("::") for word in words if word)}


def wrong_versions(crates):
    """The edits of each public function or conversion, the edits of none, and what is wrong with a `# for:`. An edit that names
    functions is for these, whatever its text tells, and for the conversions that it changes."""
    rooms = {crate.name: Room(crate) for crate in crates.values()}
    public = {(one.crate, one.name) for room in rooms.values() for one in room.functions if one.public}
    found, lost, wrong = collections.defaultdict(list), [], []
    for crate in crates.values():
        for edit in crate.edits(more=True):
            named = named_for(crate, edit)
            wrong += [f"NOT THERE   public function {owner}::{name}, which {short(edit)} is for"
                      for owner, name in sorted(named - public)]
            owners = (named or rooms[crate.name].told(edit)) | rooms[crate.name].turned(edit)
            for owner in owners:
                found[owner].append(edit)
            if not owners:
                lost.append(edit)
    return found, lost, wrong


# ---- the tables

def plain(one, clause):
    """A function's clauses as they stand, each in one line."""
    return [" ".join(text.split()) for text in one.clauses.get(clause, [])]


def cell(texts):
    return "; ".join(f"`{text}`" for text in texts).replace("|", "\\|")


def labels(crate, edits):
    """Edits as the rows of a crate name them: its own first, and behind a word those that the gate leaves out."""
    gate, more = [], []
    for edit in edits:
        owner = edit.parent.parent.name
        (gate if edit.parent.name == "must-fail" else more).append((owner != crate, owner, edit.stem))
    texts = [", ".join(f"{owner}/{name}" if other else name for other, owner, name in sorted(some)) for some in (gate, more)]
    return "; ".join(text for text in [texts[0], texts[1] and f"more: {texts[1]}"] if text)


def row(one, edits):
    cells = [f"`{one.name}`", cell(plain(one, "requires")), cell(plain(one, "ensures")), labels(one.crate, edits)]
    return "".join(f"| {text} " if text else "| " for text in cells) + "|"


def rows_of(crates, edits):
    """The row of every public function of a library, by (crate, function): those of lib.rt first."""
    return {(crate.name, one.name): row(one, edits[crate.name, one.name])
            for crate in crates.values() if not crate.is_program and not crate.exports
            for one in sorted(functions(crate), key=lambda one: (one.path.name != "lib.rt", one.path, one.line)) if one.public}


def turning_of(crates, edits):
    """The row of every conversion of a library, by (crate, its name)."""
    return {(crate.name, one.name): f"| `{one.name}` | {crate.name} | {cell([one.promise])} | {labels(crate.name, edits[crate.name, one.name])} |"
            for crate in crates.values() if not crate.is_program for one in conversions(crate)}


def written(rows, turning, lost):
    """The text between the marks."""
    text, before = [], None
    for (crate, _), line in rows.items():
        if crate != before:
            text += ["", f"### {crate}", "", "| Function | Asks | Promise | Wrong versions that are refused |", "|---|---|---|---|"]
            before = crate
        text.append(line)
    text += ["", "### Conversions", "",
             "What an impl of `From`, `TryFrom` or `Display` promises stands in its `from_gives`, `try_from_gives` or `output`, and callers know it as",
             "they know a function's `ensures`. What the functions of a trait promise for a type goes by the ghost items of its impl.", "", "| Impl | Crate | Promise | Wrong versions that are refused |", "|---|---|---|---|", *turning.values()]
    if lost:
        text += ["", "### Edits of no function", "",
                 f"Laws refuse them; no contract of their crate cites what they change: {labels('', lost)}."]
    return "\n".join([*text, "", ""])


def parts(text):
    """The document before, between and behind the marks."""
    if text.count(BEGIN) != 1 or text.count(END) != 1 or text.index(END) < text.index(BEGIN):
        stop(f"{short(PROMISES)} needs one line {BEGIN}, and one line {END} behind it")
    before, _, rest = text.partition(BEGIN + "\n")
    between, _, behind = rest.partition(END)
    return before, between, behind


def write(rows, turning, lost):
    before, _, behind = parts(PROMISES.read_text())
    PROMISES.write_text(f"{before}{BEGIN}\n{written(rows, turning, lost)}{END}{behind}")


def compare(rows, turning, lost):
    """What the tables have otherwise than the source."""
    text = written(rows, turning, lost)
    between, there, crate = parts(PROMISES.read_text())[1], {}, None
    for line in between.splitlines():
        heading, function = re.match(r"### (\w+)$", line), re.match(r"\| `(\w+)` \|", line)
        conversion = re.match(r"\| `([^`]+ for [^`]+)` \| (\w+) \|", line)
        if heading:
            crate = heading[1]
        elif function:
            there[crate, function[1]] = line
        elif conversion:
            there[conversion[2], conversion[1]] = line
    rows = rows | turning
    wrong = [f"NO LINE     {crate}::{name}" for crate, name in rows.keys() - there.keys()]
    wrong += [f"NOT THERE   function {crate}::{name}, which has a line" for crate, name in there.keys() - rows.keys()]
    wrong += [f"OTHER LINE  {crate}::{name} has in the source: {rows[crate, name]}"
              for crate, name in rows.keys() & there.keys() if rows[crate, name] != there[crate, name]]
    if not wrong and between != text:
        wrong.append("OTHER LINE  the order, a heading or the edits of no function")
    return sorted(wrong)
