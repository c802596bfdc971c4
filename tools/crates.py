"""The crates as crates.txt and their sources tell them, for the scripts of this folder."""
import re
from pathlib import Path

TOP = Path(__file__).resolve().parent.parent
CRATES = TOP / "crates"


class Group:
    """The crates after a comment of crates.txt, each with the crates that its line names."""

    def __init__(self, title):
        self.title = title
        self.crates = {}


def read_groups():
    """The groups of crates.txt. Names of libraries that are no crates of it are left out."""
    groups = []
    for line in (TOP / "crates.txt").read_text(encoding="utf-8").splitlines():
        if line.startswith("#"):
            groups.append(Group(line[1:].strip()))
        elif ":" in line:
            name, _, below = line.partition(":")
            groups[-1].crates[name.split()[0]] = below.split()
    groups = [group for group in groups if group.crates]
    listed = {name for group in groups for name in group.crates}
    for group in groups:
        for name, below in group.crates.items():
            group.crates[name] = [it for it in below if it in listed]
    return groups


def read_lines():
    """What each crate's line names, over all groups."""
    return {name: below for group in read_groups() for name, below in group.crates.items()}


def all_below(lines):
    """All crates that each depends on, over any number of others."""
    found = {}

    def look(name):
        if name not in found:
            found[name] = set()
            for it in lines[name]:
                found[name] |= {it} | look(it)
        return found[name]

    for name in lines:
        look(name)
    return found


def right_below(lines):
    """The crates that each depends on and reaches by no other one, in the order of crates.txt."""
    deep = all_below(lines)
    order = {name: i for i, name in enumerate(lines)}
    found = {}
    for name, below in lines.items():
        right = {it for it in below if not any(it in deep[other] for other in below)}
        found[name] = sorted(right, key=order.get)
    return found


def root_of(name):
    """The file of a crate that has its page, src/lib.rt or src/main.rt."""
    for file in ("src/lib.rt", "src/main.rt"):
        if (CRATES / name / file).is_file():
            return CRATES / name / file
    raise FileNotFoundError(f"crates/{name} has neither src/lib.rt nor src/main.rt")


def first_sentence(name):
    """The first sentence of a crate's page."""
    lines = []
    for line in root_of(name).read_text(encoding="utf-8").splitlines():
        if not line.startswith("//!") or line.strip() == "//!":
            break
        lines.append(line[3:].strip())
    text = " ".join(lines)
    end = re.search(r"\.(?=\s|$)", text)
    return text[: end.start() + 1] if end else text
