"""The table of crates: the first sentence of each root file, by group."""
import re

from . import crates


def root_file(name):
    source = crates.ROOT / "crates" / name / "src"
    return next(it for it in (source / "lib.rt", source / "main.rt") if it.is_file())


def first_sentence(name):
    """The first sentence of the comment at the head of a crate's root file, with links to the pages that it names."""
    head = []
    for line in root_file(name).read_text().splitlines():
        if not line.startswith("//!") or line == "//!":
            break
        head.append(line[3:].strip())
    text = " ".join(head)
    found = re.match(r"(.+?[.:])(?= [A-Z`-]|$)", text)
    text = (found[1] if found else text).rstrip(".:").replace("|", "\\|")
    return re.sub(r"`?docs/([\w/]+\.md)`?", r"[\1](\1)", text)


def title(group):
    return f"{group.words}: {group.about}" if group.about else group.words


def draw():
    """A table for each group."""
    parts = []
    for group in crates.read()[0]:
        rows = "\n".join(f"| `{name}` | {first_sentence(name)} |" for name in group.crates)
        parts.append(f"### {title(group)}\n\n| Crate | What it has |\n|---|---|\n{rows}\n")
    return "\n".join(parts)


def amiss(page):
    """What is wrong with the tables that are written by hand: each crate has one row there, below the title of its group."""
    sections = re.split(r"(?m)^### ", page.partition("\n## What is proved of each crate\n")[2])
    rows = {head: re.findall(r"(?m)^\| `(\w+)` \|", rest) for head, _, rest in (it.partition("\n") for it in sections)}
    wanted = {title(group): group.crates for group in crates.read()[0]}
    for head, names in wanted.items():
        found = rows.get(head, [])
        for name in names:
            if found.count(name) != 1:
                yield f"docs/crates.md: {found.count(name)} rows of what is proved of {name} below \"{head}\""
        for name in set(found) - set(names):
            yield f"docs/crates.md: {name} is not in the group \"{head}\""
