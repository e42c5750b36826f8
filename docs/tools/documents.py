"""Markdown documents, as far as the checks need them: headings, blocks of text with their code, code blocks, and links."""

import re

FENCE = re.compile(r"^(```+|~~~+)\s*\w*\s*$")
HEADING = re.compile(r"^(#{1,6}) (.*?)\s*$")
CODE = re.compile(r"(?<!`)(`+)(?!`)(.+?)(?<!`)\1(?!`)", re.DOTALL)
LINK = re.compile(r"\[[^\]]*\]\(([^)\s]+)\)")
ITEM = re.compile(r"^\s*(?:[-*]|\d+\.) ")


class Block:
    """A paragraph, an item of a list or a row of a table, with the headings above it. Lines are counted from 1."""

    def __init__(self, line, text, headings):
        self.line = line
        self.text = text
        self.headings = headings

    def is_row(self):
        return self.text.startswith("|")

    def cells(self):
        """The cells of a row of a table."""
        return [cell.strip() for cell in re.split(r"(?<!\\)\|", self.text.strip())[1:-1]]

    def spans(self):
        """The pieces of code in the block, each with its line."""
        return [(self.line + self.text.count("\n", 0, found.start()), plain(found[2])) for found in CODE.finditer(self.text)]

    def links(self):
        text = CODE.sub("", self.text)
        return [(self.line + text.count("\n", 0, found.start()), found[1]) for found in LINK.finditer(text)]


class CodeBlock:
    """A block of code between two fences. `line` is that of its first line."""

    def __init__(self, line, fence):
        self.line = line
        self.fence = fence
        self.lines = []


class Document:
    """One file of Markdown: its lines, its blocks of text and of code, and the anchors of its headings."""

    def __init__(self, root, path):
        self.path = path
        self.name = str(path.relative_to(root))
        self.lines = path.read_text(encoding="utf-8").splitlines()
        self.blocks = []
        self.code = []
        self.anchors = set()
        self._read()

    def _read(self):
        headings, text, code = [], None, None
        for number, line in enumerate(self.lines, 1):
            fence = FENCE.match(line)
            heading = HEADING.match(line)
            if code:
                if fence and fence[1] == code.fence:
                    code = None
                else:
                    code.lines.append(line)
            elif fence:
                text, code = None, CodeBlock(number + 1, fence[1])
                self.code.append(code)
            elif heading:
                text = None
                headings = headings[: len(heading[1]) - 1] + [heading[2]]
                self.anchors.add(self._anchor(heading[2]))
                self.blocks.append(Block(number, heading[2], headings))
            elif not line.strip():
                text = None
            elif text and not line.startswith("|") and not ITEM.match(line):
                text.text += "\n" + line
            else:
                text = Block(number, line, headings)
                self.blocks.append(text)

    def _anchor(self, heading):
        """The anchor of a heading, as the usual readers of Markdown make it."""
        anchor = "".join(c for c in plain(heading).lower() if c.isalnum() or c in " _-").replace(" ", "-")
        same = sum(1 for other in self.anchors if re.fullmatch(re.escape(anchor) + r"(-\d+)?", other))
        return f"{anchor}-{same}" if same else anchor


def plain(text):
    """Code as it is read, without the marks that a table needs."""
    return text.replace("\\|", "|").strip()
