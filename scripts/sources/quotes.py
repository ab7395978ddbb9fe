"""The blocks of code in pages that quote the sources: each has to be in them, word for word."""
import re

PAGES = ["README.md", "docs/embedding.md", "docs/serving.md"]
SOURCES = ["crates/*/src/**/*.rt", "bindings/rust/src/*.rs", "bindings/rust/examples/*.rs"]
BLOCK = re.compile(r"(?m)^(?: {4}.*\n(?:\n(?= {4}))?)+")
IS_CODE = re.compile(r"\b(?:fn|let|match) ")


def plain(text):
    """Without the signs of doc comments, comments behind code, and how lines are broken."""
    lines = (re.sub(r"^\s*//[/!] ?|  // .*$", "", line) for line in text.splitlines())
    return re.sub(r",? ([}\])])", r" \1", " ".join(" ".join(lines).split()))


def strays(root):
    """Each page with the first line of a block that no source has."""
    code = " ".join(plain(it.read_text()) for pattern in SOURCES for it in sorted(root.glob(pattern)))
    for page in PAGES:
        for block in BLOCK.findall((root / page).read_text()):
            if IS_CODE.search(block) and plain(block) not in code:
                yield page, block.strip().splitlines()[0]
