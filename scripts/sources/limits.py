"""Lines that do nothing, and that only a limit of the compiler asks for. The comment before each says which limit."""
import re

COPY = r"^ *let [a-z]\w* = (?!(?:true|false);)[a-z]\w*;$"
LOOK = r"^ *let _ = &?[a-z][\w.]*;$"
SAME = r"^[^/\n]*\bmatch\b[^{}]*\{\s*Ok\((?P<a>\w+|\(\))\) => (?:return )?Ok\((?P=a)\),\s*Err\((?P<e>\w+)\) => (?:return )?Err\((?P=e)\),?\s*\}"
IDLE = re.compile(f"{COPY}|{LOOK}|{SAME}", re.MULTILINE)


def unexplained(root):
    """Each such line with no comment on the line before it."""
    for path in sorted(root.glob("crates/*/src/**/*.rt")):
        text = path.read_text()
        lines = text.splitlines()
        for it in IDLE.finditer(text):
            number = text.count("\n", 0, it.start())
            if number == 0 or not lines[number - 1].lstrip().startswith("//"):
                yield f"{path.relative_to(root)}:{number + 1}: no comment says which limit of the compiler asks for `{lines[number].strip()}`"
