"""The must-fail edits and the functions that they change, as tools/refused and tools/claims read them.

A file of crates/CRATE/must-fail may hold edits of several functions, each a block that begins with 'edit: NAME'; a file without such a line is
one edit, of the file's name. No two edits of a file change one function. The lines of an edit of code that
begin with 'with ' are pairs of files of proofs/, which rt does not read: they give a proof the names that its steps have in the edited code, and
change nothing else, so that tools/refused sees a fact fail and not a name."""

import re
from functools import lru_cache
from pathlib import Path

ROOT = Path(__file__).resolve().parent.parent
ITEM = re.compile(
    r'^impl(?:<(?P<generic>[^{]*?)>)? (?P<first>[\w:]+)(?:<(?P<args>(?:[^<>{]|<[^<>]*>)*)>)?(?: for (?P<type>[^{\n]+?))?\s*(?:\{|$)'
    r'|^(?P<indent> *)(?P<public>(?:pub(?:\(crate\))? )?)(?:extern "C" )?fn (?P<name>\w+)', re.M)
CONSTANT = re.compile(r"^(?:pub(?:\(crate\))? )?const (\w+)\b.*?;$", re.M | re.S)
ENUM = re.compile(r"^(?:pub(?:\(crate\))? )?enum (\w+) \{.*?^\}$", re.M | re.S)
# the name of a step of a function, in its proof, stands behind `c.` or is of several words with dashes; a test's fact may have another form
STEP = re.compile(r"(?:\bc\.\w+(?:-\w+)*|\w+(?:-\w+)+)(?:\.(?:true|false)(?:-raw)?)?")
TOKEN = re.compile(r"//[^\n]*|--[^\n]*|(?P<string>\"[^\"\n]*\")|(0x[0-9A-Fa-f_]+|[0-9][0-9_]*)|(\w+|[^\w\s])")


class Function:
    """a function of a source file: its name as rt prints it, where its text and its body begin, and where it ends"""

    def __init__(self, name, public, internal, start, body, end):
        self.name, self.public, self.internal = name, public, internal
        self.start, self.body, self.end = start, body, end


def kind_of(item):
    """an impl's name as rt has it: the type, the trait and the trait's arguments together, without the impl's own parameters"""
    own = set(re.findall(r"\b(\w+)\b(?=\s*[:,]|\s*$)", item["generic"] or ""))

    def together(text):
        words = re.findall(r"\w+|\[", text or "")
        return "".join("Array" if word == "[" else word[0].upper() + word[1:] for word in words if word not in own)

    trait = item["first"].rpartition("::")[2]
    return together(item["type"]) + trait + together(item["args"]) if item["type"] else trait


@lru_cache(maxsize=None)
def functions_of(crate, file):
    text = (ROOT / "crates" / crate / file).read_text()
    module = [] if file in ("src/lib.rt", "src/main.rt") else [Path(file).stem]
    kind, found = None, []
    for item in ITEM.finditer(text):
        if item["first"]:
            kind = kind_of(item)
            continue
        # a clause ends with a brace that closes, so that the first line of the head that ends with one that opens is its last
        opens = re.compile(r"^(?!\s*(?:requires|ensures)\b).*\{$", re.M).search(text, item.start())
        closes = re.compile(rf"^{item['indent']}\}}$", re.M).search(text, item.start())
        name = "::".join([crate, *module, *([kind] if item["indent"] else []), item["name"]])
        found.append(Function(name, bool(item["public"]), is_internal(text[: item.start()]), item.start(), opens.end(), closes.end()))
    return found


def users_of(crate, constant):
    """the functions of a crate whose body names a constant"""
    users = set()
    for path in sorted((ROOT / "crates" / crate / "src").glob("*.rt")):
        text = path.read_text()
        users |= {f.name for f in functions_of(crate, f"src/{path.name}") if re.search(rf"\b{constant}\b", text[f.body : f.end])}
    return users


def casters_of(crate, enum):
    """the methods of an enum whose body is its number, so that the numbers of its variants are theirs"""
    methods = set()
    for path in sorted((ROOT / "crates" / crate / "src").glob("*.rt")):
        text = path.read_text()
        methods |= {f.name for f in functions_of(crate, f"src/{path.name}") if f"::{enum}::" in f.name and re.search(r"\bself as \w", text[f.body : f.end])}
    return methods


def is_internal(before):
    """does the comment at the end of this text say Internal?"""
    for line in reversed(before.splitlines()):
        if "// Internal" in line:
            return True
        if not line.strip().startswith(("//", "#[")):
            return False
    return False


def all_functions():
    sources = sorted(ROOT.glob("crates/*/src/*.rt"))
    return [f for path in sources for f in functions_of(path.parts[-3], f"src/{path.name}")]


class Edit:
    def __init__(self, crate, label, name):
        self.crate, self.label, self.name, self.pairs = crate, label, name, []

    def __str__(self):
        return f"{self.crate} {self.name}"

    def of(self, part):
        return all(file.startswith(part + "/") for file, _, _ in self.pairs if not file.startswith("proofs/"))

    def text(self, file):
        path = ROOT / "crates" / self.crate / file
        return path.read_text() if path.is_file() else ""

    def changed(self, body=False):
        """the functions that an edit of code changes, by their text or by their body alone; of a constant: those that name it; of an enum's
        numbers: those that answer them"""
        names = set()
        for file, old, _ in self.of_code():
            at = self.text(file).find(old)
            for f in functions_of(self.crate, file) if at >= 0 else []:
                if (f.body if body else f.start) <= at and at + len(old) <= f.end:
                    names.add(f.name)
            for constant in CONSTANT.finditer(self.text(file)):
                if constant.start() <= at and at + len(old) <= constant.end():
                    names |= users_of(self.crate, constant[1])
            for enum in ENUM.finditer(self.text(file)):
                if enum.start() <= at and at + len(old) <= enum.end():
                    names |= casters_of(self.crate, enum[1])
        return names

    def of_bodies(self):
        """is it an edit of the bodies of functions alone, so that all contracts stay?"""
        return self.of("src") and all(
            any(f.body <= at and at + len(old) <= f.end for f in functions_of(self.crate, file))
            for file, old, _ in self.of_code()
            for at in [self.text(file).find(old)]
        )

    def of_code(self):
        """its pairs but those that only give a proof the names that the steps of the edited code have"""
        return [pair for pair in self.pairs if not pair[0].startswith("proofs/")]

    def faults(self):
        """what is wrong with the edit, as far as its text tells. That two programs are the same it tells only where they have the same words:
        the same text but for comments, spaces, the way a number is written, and a comma before a closing bracket."""
        if not self.of_code() or not (self.of("src") or self.of("specs")):
            yield "an edit is of files of src/ or of files of specs/"
        for file, old, new in self.pairs:
            if file.startswith("proofs/") and not (self.of("src") and STEP.sub("", old) == STEP.sub("", new)):
                yield f"in {file} it changes more than names of steps: {new.strip()!r}"
        for file in sorted({file for file, _, _ in self.pairs}):
            before = after = self.text(file)
            for _, old, new in [pair for pair in self.pairs if pair[0] == file]:
                if words(old) == words(new):
                    yield f"{old.strip()!r} stays as it is"
                after = after.replace(old, new, 1)
            if words(before) == words(after):
                yield f"{file} stays as it is"
        if self.of("src") and not self.changed():
            yield "it changes no function"


def words(text):
    """the words of a text of Rattle or antt"""
    found = []
    for token in TOKEN.finditer(text):
        if token["string"]:
            found.append(token["string"])
        elif token[2]:
            found.append(str(int(token[2].replace("_", ""), 0)) if token[2].startswith("0x") else token[2].replace("_", "").lstrip("0") or "0")
        elif token[3]:
            if token[3] in ")]}" and found and found[-1] == ",":
                found.pop()
            found.append(token[3])
    return found


def all_edits():
    edits = []
    for path in sorted(ROOT.glob("crates/*/must-fail/*.edit")):
        crate, file, old = path.parts[-3], "", ""
        mine = []
        for line in path.read_text().splitlines():
            word, _, rest = line.removeprefix("with ").partition(" ")
            if word == "edit:":
                mine.append(Edit(crate, path.stem, rest))
            elif word == "file:":
                file = rest
            elif word == "old:":
                old = rest
            elif word == "new:":
                if not mine:
                    mine.append(Edit(crate, path.stem, path.stem))
                mine[-1].pairs.append((file, old, rest))
        edits += mine
    return edits


def faults_in_turn(edits):
    """rt applies the edits of a file one behind the other. Each old text must then stand exactly once; and once in the source as it is, so that
    it is told which function is edited."""
    texts = {}
    for edit in edits:
        for file, old, new in edit.pairs:
            at = edit.crate, edit.label, file
            text = texts.setdefault(at, edit.text(file))
            for place, when in ((edit.text(file), "as it is"), (text, "behind the edits before it")):
                count = place.count(old) if old else 0
                if count != 1:
                    yield f"{edit}: crates/{edit.crate}/must-fail/{edit.label}.edit: {old!r} stands {count} times in {file} {when}, and should once"
                    break
            texts[at] = text.replace(old, new, 1)


def faults_of(edits):
    """what is wrong with the edits, as far as their text tells"""
    seen, faults = set(), list(faults_in_turn(edits))
    for edit in edits:
        for other in edits[: edits.index(edit)]:
            if (other.crate, other.label) == (edit.crate, edit.label) and (not edit.of("src") or other.changed() & edit.changed()):
                faults.append(f"{edit}: {other.name}, in the same file, changes the same")
        if (edit.crate, edit.name) in seen:
            faults.append(f"{edit}: another edit has this name")
        seen.add((edit.crate, edit.name))
        faults += [f"{edit}: {fault}" for fault in edit.faults()]
    return faults
