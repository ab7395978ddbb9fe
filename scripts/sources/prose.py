"""The sentences of a page, in its lists and tables too, without its headings, quotations and code."""
import re

MOST_WORDS = 40
APART = re.compile(r"#|>|<!--|Carried by ")
CODE = re.compile(r" {4,}(?![-*] |\d+\. )|```")
ITEM = re.compile(r"^\s*(?:[-*]|\d+\.) ")
END = re.compile(r"""(?<=[.!?:;])[*"')]*\s+(?=[A-Z*"'(\[`])""")


def pieces(line):
    """The cells of a row of a table, or the whole of an item of a list or of a paragraph, which is one line in these pages."""
    return re.split(r"(?<!\\)\|", line) if line.startswith("|") else [ITEM.sub("", line, 1)]


def sentences(text):
    """Each with the number of its line."""
    fenced = False
    for number, line in enumerate(text.splitlines(), 1):
        fenced ^= line.startswith("```")
        if line and not fenced and not APART.match(line) and not CODE.match(line):
            for piece in pieces(line):
                for it in END.split(piece.strip()):
                    yield number, it


def words(sentence):
    """How many words it has. Code is one word, and the target of a link is none."""
    plain = re.sub(r"`[^`]*`", "code", re.sub(r"\]\([^)]*\)", "]", sentence))
    return len(re.findall(r"[\w'’.-]*\w", plain))


def too_long(text):
    """Sentences with more words than a reader can hold, each with its line and how many words it has."""
    for number, it in sentences(text):
        if (count := words(it)) > MOST_WORDS:
            yield number, count
