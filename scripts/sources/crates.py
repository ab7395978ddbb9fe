"""The crates of `crates.txt`, in its groups, and what each of them depends on."""
from dataclasses import dataclass, field
from pathlib import Path

ROOT = Path(__file__).resolve().parents[2]


@dataclass
class Group:
    """A comment of `crates.txt`, `WORDS: WHAT IT IS`, and the crates below it."""

    words: str
    about: str
    crates: list = field(default_factory=list)


def read():
    """The groups in their order, and of each crate the crates of the repository in its line."""
    groups, lines = [], {}
    for line in (ROOT / "crates.txt").read_text().splitlines()[1:]:
        if line.startswith("# "):
            words, _, about = line[2:].partition(": ")
            groups.append(Group(words, about))
        elif line:
            head, deps = line.split(":")
            name = head.split()[0]  # `staticlib` may follow
            groups[-1].crates.append(name)
            lines[name] = set(deps.split())
    return groups, {name: deps & lines.keys() for name, deps in lines.items()}


def below(edges):
    """Of each node all to which a way leads; itself too, if it is in a circle."""
    known = {}
    for node in edges:
        seen, left = set(), list(edges[node])
        while left:
            it = left.pop()
            if it not in seen:
                seen.add(it)
                left += edges[it]
        known[node] = seen
    return known


def direct(edges, all_below):
    """The edges to what no other edge of the same node leads to."""
    return {it: to - set().union(*(all_below[low] for low in to)) for it, to in edges.items()}


def levels(edges):
    """A node is one level above the highest that it depends on. There must be no circle."""
    known = {}

    def level(node):
        if node not in known:
            known[node] = 1 + max(map(level, edges[node]), default=-1)
        return known[node]

    for node in edges:
        level(node)
    return known


def between_groups(groups, depends):
    """Of each group, by its number, those that its crates depend on."""
    of = {name: i for i, group in enumerate(groups) for name in group.crates}
    edges = {i: set() for i in range(len(groups))}
    for name, deps in depends.items():
        edges[of[name]] |= {of[it] for it in deps} - {of[name]}
    return edges


def circles(groups, depends):
    """A line for each group that depends on itself by way of others."""
    edges = between_groups(groups, depends)
    all_below = below(edges)
    return [f"crates.txt: the group {groups[i].words} depends on itself, by way of {groups[it].words}" for i in edges for it in edges[i] if i in all_below[it]]
