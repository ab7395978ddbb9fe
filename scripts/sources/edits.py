"""Edits that the check must refuse (`must-fail/`): each has to apply, also those that the gate leaves out."""


def steps(text):
    """The file, the text and its replacement, one after the other."""
    file = old = None
    for line in text.splitlines():
        key, _, value = line.partition(":")
        value = value.removeprefix(" ")
        if key == "file":
            file = value
        elif key == "old":
            old = value
        elif key == "new":
            yield file, old, value


def stale(root):
    """Each edit of which a text does not occur once in its file."""
    for edit in sorted(root.glob("crates/*/must-fail/*")):
        texts = {}
        for file, old, new in steps(edit.read_text()):
            source = edit.parent.parent / file
            text = texts.get(file) or (source.read_text() if source.is_file() else "")
            if text.count(old) != 1:
                yield f"{edit.relative_to(root)}: {text.count(old)} times in {file}: {old.strip()}"
                break
            texts[file] = text.replace(old, new)
