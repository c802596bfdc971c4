"""What the sources of the crates name: functions with their clauses, definitions, and tests."""
import re
from collections import defaultdict

from crates import CRATES, read_lines

BLOCK = re.compile(r"^(?:unsafe )?(?:pub(?:\([a-z]+\))? )?(impl|trait|enum|struct|mod)\b(.*)$")
HEAD = r'(?:pub(?:\([a-z]+\))? )?(?:const )?(?:unsafe )?(?:extern "C" )?'
FN = re.compile(rf"^(\s*)({HEAD})fn ([a-z_0-9]+)")
ENSURES = re.compile(r"^\s*ensures\*? (?:([a-z_0-9]+) )?\{")
WORDS = r"(?:(?:abbrev|unfoldable|opaque|data|record|inductive|pub) )"
RECORD = re.compile(rf"^{WORDS}+([^\s:(){{}}]+)")
INNER = re.compile(r"^  pub ([^\s:(){}]+) :")
FIELD = re.compile(r"^\s+(?:pub )?([a-z_0-9]+)\s*:")
NAME = re.compile(r"^([^\s:(){}]+)\s*:\s")


class Function:
    """A function of a crate: its name, what it is a method of, its clauses by name (an unnamed one
    is ""), and whether it is public."""

    def __init__(self, name, of, path, public):
        self.name, self.of, self.path, self.public, self.clauses = name, of, path, public, []

    def parts(self):
        """The words by which a hint may tell it from others of its name."""
        return {self.of, *self.path.relative_to(CRATES).with_suffix("").parts}


class Definition:
    """A definition, law or lemma: its name, its file, and the fields of a record."""

    def __init__(self, name, path):
        self.name, self.path, self.fields = name, path, []

    def parts(self):
        return set(self.path.relative_to(CRATES).with_suffix("").parts)


def type_of(head):
    """The type that an `impl` or `trait` line is about."""
    head = re.sub(r"^<[^>]*>", "", head.strip())
    if " for " in head:
        head = head.split(" for ", 1)[1]
    found = re.match(r"&?(?:mut )?(?:'\w+ )?([A-Za-z_0-9]+)", head.strip())
    return found[1] if found else ""


def functions_of(path):
    of, head, found = "", None, []
    for line in path.read_text(encoding="utf-8").splitlines():
        if head is not None and not ENSURES.match(line) and line.strip() in ("{", "{}"):
            head = None
        if block := BLOCK.match(line):
            of = type_of(block[2]) if block[1] in ("impl", "trait") else ""
        elif line == "}":
            of = ""
        if it := FN.match(line):
            public = it[2].startswith("pub ") or bool(it[1])
            head = Function(it[3], of if it[1] else "", path, public)
            found.append(head)
        elif head is not None and (clause := ENSURES.match(line)):
            head.clauses.append(clause[1] or "")
        if line.endswith((";", "{}")) and not ENSURES.match(line):
            head = None
    return found


def definitions_of(path):
    found, record = [], None
    for line in path.read_text(encoding="utf-8").splitlines():
        if line.startswith((" ", "\t")):
            if record and (field := FIELD.match(line)):
                record.fields.append(field[1])
            elif lemma := INNER.match(line):
                found.append(Definition(lemma[1], path))
            continue
        name = RECORD.match(line) or NAME.match(line)
        if name and name[1] not in ("mod", "use") and not line.startswith(("--", "use ")):
            if found and found[-1].name == name[1]:
                continue
            found.append(Definition(name[1], path))
            record = found[-1] if re.match(r"^(pub )?record ", line) else None
        elif line.strip():
            record = None
    return found


class Sources:
    def __init__(self):
        self.functions, self.definitions = defaultdict(list), defaultdict(list)
        for crate in read_lines():
            for path in sorted((CRATES / crate / "src").rglob("*.rt")):
                for it in functions_of(path):
                    self.functions[it.name].append(it)
            for folder in ("specs", "proofs"):
                for path in sorted((CRATES / crate / folder).rglob("*.antt")):
                    for it in definitions_of(path):
                        self.definitions[it.name].append(it)
