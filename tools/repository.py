"""What the maintainer's tools share: where the repository is, its crates with their files, and how a file's text is cut
into functions, declared types and definitions. Nothing here is run by itself, and nothing here judges: rt does."""
import argparse
import dataclasses
import pathlib
import re
import signal
import subprocess
import sys

signal.signal(signal.SIGPIPE, signal.SIG_DFL)  # `tools/lines | head` ends quietly

# Libraries of the kit that a crate may list. std is there always, and never listed.
KIT = {"anyhow", "bytes", "check", "io", "thiserror"}


def stop(message):
    print(f"{pathlib.Path(sys.argv[0]).name}: {message}", file=sys.stderr)
    sys.exit(2)


def arguments(text):
    """A parser whose --help is the tool's own text, as it stands in the tool."""
    return argparse.ArgumentParser(description=text, formatter_class=argparse.RawDescriptionHelpFormatter)


def find_root():
    here = pathlib.Path.cwd()
    for folder in [here, *here.parents, pathlib.Path(__file__).resolve().parent.parent]:
        if (folder / "crates.txt").is_file():
            return folder
    stop("there is no crates.txt in this folder or above it")


ROOT = find_root()


def short(path):
    """A path as it is written from the repository's top."""
    return str(path.relative_to(ROOT)) if path.is_relative_to(ROOT) else str(path)


def run_rt(crate, *words):
    """What rt says of a crate, standard output and error as one text."""
    try:
        done = subprocess.run(["rt", *words], cwd=crate.folder, text=True, stdout=subprocess.PIPE, stderr=subprocess.STDOUT)
    except FileNotFoundError:
        stop("rt, the Rattle toolchain, is not on the PATH")
    return done.stdout


@dataclasses.dataclass
class Crate:
    name: str
    group: str
    listed: list
    allowed: set  # listed without being named, by the note at the end of the line
    exports: bool  # a static library: what it exports are calls of libraries, for other languages

    def __post_init__(self):
        self.folder = ROOT / "crates" / self.name
        self.is_program = (self.folder / "src" / "main.rt").is_file()

    def files(self, pattern):
        return sorted(self.folder.glob(pattern))

    def code(self):
        return self.files("src/**/*.rt")

    def definitions(self):
        return self.files("specs/**/*.antt")

    def proofs(self):
        return self.files("proofs/**/*.antt")

    def edits(self, more=False):
        return self.files("must-fail/*.edit") + (self.files("must-fail-more/*.edit") if more else [])


def read_crates():
    """The crates of crates.txt by name, in its order. A line that is only a comment heads the group that follows it."""
    crates, heading, fresh = {}, [], True
    for line in (ROOT / "crates.txt").read_text().splitlines():
        text, _, note = (part.strip() for part in line.partition("#"))
        if not text:
            if note:
                heading, fresh = ([note] if fresh is False else [*heading, note]), True
            continue
        fresh = False
        name, _, rest = text.partition(":")
        name, *kind = name.split()
        types = re.match(r"for the types of (.*)", note)
        allowed = set(re.findall(r"\w+", types[1])) - {"and"} if types else set()
        crates[name] = Crate(name, " ".join(heading), rest.split(), allowed, "staticlib" in kind)
    return crates


def named_crates(crates, words):
    for word in words:
        if word not in crates:
            stop(f"crates.txt has no crate {word}")
    return [crates[word] for word in words] or list(crates.values())


# ---- text

def uncommented(text, mark):
    """The text with blanks for its comments, so that every place in it stays the same."""
    return re.sub(re.escape(mark) + r"[^\n]*", lambda found: " " * len(found[0]), text)


def mark_of(path):
    return "//" if path.suffix == ".rt" else "--"


IMPORT = re.compile(r"\s*(pub )?(ghost )?(use|mod)\b")


def stated(path):
    """The lines of a file that say something: not blank, no comment, no import and no declaration of a module."""
    lines = uncommented(path.read_text(), mark_of(path)).splitlines()
    return [line for line in lines if line.strip() and not IMPORT.match(line)]


USE = re.compile(r"^[ \t]*(?:pub )?(?:ghost )?use ([^\s{;:]+?)(?:\.\{([^}]*)\})?(?: as ([^\s;]+))?;?[ \t]*$", re.M)


def imports(text):
    """(module, name there, name here) for each name that a file of antt, or a `ghost use` of code, brings in."""
    for found in USE.finditer(text):
        for item in (found[2] or "").split(","):
            there, _, here = item.strip().partition(" as ")
            if there:
                yield found[1], there.strip(), (here or there).strip()


# A module of a crate here: the crate, specs or proofs, and the file. What std and the kit have is none.
MODULE = re.compile(r"Rattle\.(?!(?:std|core|%s)\.)(\w+)\.(specs|proofs)\.(.+)$" % "|".join(sorted(KIT)))
# A name that stands by itself: not a projection, and of a name with dots the first part.
NAME = re.compile(r"(?:(?<=[\s(){},;⌜⌝⟦⟧λ])|^)([^\s(){},;⌜⌝⟦⟧λ.]+)")


def names_in(text):
    return set(NAME.findall(text))


# ---- code

BROUGHT = re.compile(r"^(pub )?use ((?:\w+::)+)(?:(\w+)|\{([^{}]*)\});", re.M)


def brought(text):
    """(whether it is handed on, where it stands, its name) for each name of code that a file of code brings in."""
    for found in BROUGHT.finditer(text):
        for name in [found[3]] if found[3] else re.findall(r"\w[\w:]*", found[4]):
            where, _, last = f"{found[2]}{name}".rpartition("::")
            yield bool(found[1]), where, last


@dataclasses.dataclass
class Function:
    crate: str
    path: pathlib.Path
    line: int
    name: str
    public: bool
    exported: bool
    signature: str
    clauses: dict  # "requires" and "ensures", each with the texts of its clauses
    body: str
    length: int  # lines that say something, from `fn` to the closing brace
    start: int  # its place in the file, from `fn` to behind the closing brace
    end: int
    inner: bool  # pub(crate): for its own crate only

    def where(self):
        return f"{short(self.path)}:{self.line} {self.name}"


FUNCTION = re.compile(r'^([ \t]*)(pub(?:\(\w+\))? )?(extern "C" )?fn (\w+)', re.M)
TRAIT = re.compile(r"^pub trait \w+[^{]*\{", re.M)
CLAUSE = re.compile(r"(?<=\s)(requires|ensures|ghost)\b[^{;]*\{")


def closing(text, at):
    """The place of the brace that closes the one before `at`."""
    depth = 1
    while depth and at < len(text):
        depth += {"{": 1, "}": -1}.get(text[at], 0)
        at += 1
    return at - 1


def header(text, at):
    """From behind a function's name: its signature, its clauses, and the place of the brace that opens its body."""
    start, depth, end, clauses = at, 0, None, {}
    while at < len(text):
        clause = CLAUSE.match(text, at)
        if clause:
            end = end or at
            at = closing(text, clause.end())
            clauses.setdefault(clause[1], []).append(text[clause.end():at])
        elif text[at] in "([":
            depth += 1
        elif text[at] in ")]":
            depth -= 1
        elif text[at] in "{;" and not depth:
            break
        at += 1
    return text[start:end or at], clauses, at


def functions(crate):
    for path in crate.code():
        text = uncommented(path.read_text(), "//")
        traits = [(found.start(), closing(text, found.end())) for found in TRAIT.finditer(text)]
        for found in FUNCTION.finditer(text):
            signature, clauses, at = header(text, found.end())
            line_end = text.find("\n", at)
            last = re.compile(r"^%s\}" % found[1], re.M).search(text, at)
            end = line_end if text[at:line_end].rstrip().endswith(("}", ";")) else last.end() if last else len(text)
            length = sum(1 for line in text[found.start():end].splitlines() if line.strip())
            # what a public trait asks of its impls is public as the trait is
            public = bool(found[2]) or any(start < found.start() < behind for start, behind in traits)
            yield Function(crate.name, path, text.count("\n", 0, found.start(4)) + 1, found[4], public,
                           bool(found[3]), signature, clauses, text[at:end], length, found.start(), end,
                           public and found[2] not in (None, "pub "))


# ---- what is turned into what

@dataclasses.dataclass
class Conversion:
    crate: str
    path: pathlib.Path
    line: int
    name: str  # as it is written: `From<Reason> for u8`
    promise: str  # what its ghost items say; nothing where it has none
    start: int  # its place in the file, from `impl` to behind the closing brace
    end: int

    def where(self):
        return f"{short(self.path)}:{self.line} impl {self.name}"


IMPL = re.compile(r"^impl(?:<[^>{]*>)? (?:\w+::)*((\w+)\b[^{]*? for [^{]*?) \{", re.M)
GIVES = re.compile(r"\bghost (from_gives|try_from_gives|output) = \{([^;]*)\};")
OWN = re.compile(r"\bghost (\w+) = \{([^;]*)\};")


def conversions(crate):
    """The impls of From, TryFrom and Display, functions that are called by no name of their own, and those of the crate's public traits,
    whose ghost items say for each type what the trait's functions promise."""
    texts = {path: uncommented(path.read_text(), "//") for path in crate.code()}
    own = {name for text in texts.values() for name in re.findall(r"^pub trait (\w+)", text, re.M)}
    for path, text in texts.items():
        for found in IMPL.finditer(text):
            end = closing(text, found.end()) + 1
            if found[2] in own:
                says = [f"{name} = {' '.join(what.split())}" for name, what in OWN.findall(text, found.end(), end)]
            elif found[2] in ("From", "TryFrom", "Display"):
                says = [" ".join(what.split()) for _, what in GIVES.findall(text, found.end(), end)]
            else:
                continue
            yield Conversion(crate.name, path, text.count("\n", 0, found.start()) + 1, " ".join(found[1].split()), "; ".join(says), found.start(), end)


# ---- definitions

@dataclasses.dataclass
class Definition:
    crate: str
    path: pathlib.Path
    line: int
    name: str
    public: bool
    lines: list  # as they say something
    makes: list  # the constructors of a `data`


DECLARED = re.compile(r"(?:(?:abbrev|unfoldable|opaque) )?(pub )?((?:record|data) )?(\S+)(?:\s+[({].*)?\s+:(?:\s|$)")


def definitions(crate_name, path):
    """The blocks of a file of definitions: each a signature with its clauses, a record or a `data`."""
    found, before = [], []
    for number, line in enumerate(uncommented(path.read_text(), "--").splitlines(), 1):
        if not line.strip() or IMPORT.match(line):
            continue
        opens = None if line[0].isspace() else DECLARED.match(line)
        if line.startswith("infix"):
            before = [line]
        elif opens and (not found or opens[3] != found[-1].name):
            found.append(Definition(crate_name, path, number, opens[3], bool(opens[1]), before + [line], []))
            before = []
        elif found:
            found[-1].lines.append(line)
            made = re.match(r"\s+(\S+) :", line)
            if made and re.search(r"\bdata\b", " ".join(found[-1].lines[:2])):
                found[-1].makes.append(made[1])
    return found


# ---- edits

def pairs(edit):
    """(file, old, new) for each replacement of an edit, as rt reads it."""
    file, old = "", ""
    for line in edit.read_text().splitlines():
        if line.startswith("file: "):
            file = line[6:]
        elif line.startswith("old: "):
            old = line[5:]
        elif line.startswith("new:"):
            yield file, old, line[4:].removeprefix(" ")
            old = ""
