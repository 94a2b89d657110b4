"""The functions, enums, structs and traits of the crates' sources, with their parts, by text; and the reasons beside them."""
import re
from pathlib import Path

from imports import without_comments

ITEM = re.compile(r"^(?: *)(?:pub(?:\([^)]*\))? )?(?:const )?(fn|enum|struct|trait) (\w+)", re.M)


def closing(text, start, pair="{}"):
    """The index behind the bracket that closes the one at start."""
    depth = 0
    for i in range(start, len(text)):
        depth += (text[i] == pair[0]) - (text[i] == pair[1])
        if depth == 0:
            return i + 1
    return len(text)


class Item:
    """A function, enum, struct or trait: file, line, kind, name, and its parts."""

    def __init__(self, file, text, found, place):
        self.file, self.kind, self.name, self.place = file, found[1], found[2], place
        self.head, self.clauses, self.result = "", [], ""
        self.line = text.count("\n", 0, found.start(1)) + 1
        at = found.end()
        if self.kind == "fn":
            if text[at] == "<":  # bounds may have brackets and arrows of their own
                at = closing(text.replace("->", "--"), at, "<>")
            at = text.index("(", at)
            end = closing(text, at, "()")
            self.head, at = text[at + 1:end - 1], end
            result = re.compile(r"\s*-> ((?:\[[^\n{]*\]|[^\n{;])+?)\s*(?=\n|\{|;)").match(text, at)
            self.result, at = (result[1], result.end()) if result else ("", at)
        while True:
            clause = re.compile(r"[^{;]*?\b(requires|ensures)\b[^{;]*(?=\{)").match(text, at)
            if not clause:
                break
            at = closing(text, clause.end())
            self.clauses.append((clause[1], text[clause.end() + 1:at - 1]))
        brace = re.compile(r"[^{;]*\{").match(text, at)
        self.start = brace.end() - 1 if brace else at
        self.end = closing(text, self.start) if brace else at
        self.body = text[self.start:self.end]
        self.body_line = text.count("\n", 0, self.start) + 1

    def at(self, offset):
        """The line of an offset of the body."""
        return self.body_line + self.body.count("\n", 0, offset)

    def parameters(self):
        """Names and types."""
        return [(name, kind.strip()) for name, kind in re.findall(r"(\w+): ((?:[^,\[\]()]|\[[^\]]*\]|\([^)]*\))+)", self.head)]

    def fields(self):
        """Of a struct, names and types."""
        return re.findall(r"(\w+): ([^,\n]+),", self.body) if self.kind == "struct" else []

    def size(self):
        """How many lines the body has between its braces."""
        return len([line for line in self.body[1:-1].splitlines() if line.strip()])


class Source:
    """A source file: its text, and its text without comments and what stands between quotes, and its items."""

    def __init__(self, path, root):
        self.name = path.relative_to(root).as_posix()
        self.text = path.read_text(encoding="utf-8")
        self.lines = self.text.splitlines()
        bare = without_comments(self.text, ".rt")
        self.code = re.sub(r"b'(?:[^'\\]|\\.)'", "b' '", re.sub(r'b?"(?:[^"\\\n]|\\.)*"', '""', bare))
        self.items = [Item(self.name, self.code, found, self) for found in ITEM.finditer(self.code)]
        self.functions = [item for item in self.items if item.kind == "fn"]

    def kept(self, line):
        """Whether `// Kept:` stands right above a line (from 1), or above the item that it is in."""
        owner = [item.line for item in self.items if item.line <= line]
        return any(self.kept_above(number) for number in [line, *owner[-1:]])

    def kept_above(self, line):
        for above in reversed(self.lines[:line - 1]):
            if not above.strip().startswith(("//", "#[")):
                return False
            if above.strip().startswith("// Kept:"):
                return True
        return False


def sources(root):
    return [Source(path, root) for path in sorted(Path(root).glob("crates/*/src/**/*.rt"))]
