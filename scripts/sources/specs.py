"""The heads of `specs/Lib.antt`, which list the files of definitions."""
import re


def head(text):
    """The comment at the head of a file."""
    return re.match(r"(?:--[^\n]*\n|\n)*", text)[0]


def unlisted(root):
    """Each file of `specs/` that the head of its `Lib.antt` doesn't name."""
    for lib in sorted(root.glob("crates/*/specs/Lib.antt")):
        files = {it.stem for it in lib.parent.rglob("*.antt")} - {"Lib"}
        for it in sorted(files - set(re.findall(r"`(?:specs/)?(\w+)`", head(lib.read_text())))):
            yield f"{lib.relative_to(root)}: its head doesn't name {it}"
