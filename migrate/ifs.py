"""The `if`s of a handler as HyperCard takes them, and the same ones written in the two forms that are taken here.

HyperCard mixes freely: a statement on the line of `then` with an `else` of several lines, an `if` on one line within
another, `else if` behind a one-line `then`, and an `else` with a statement that closes the whole without `end if`. Here
an `if` is all on one line (with `else` on that line or the next), or all in lines, closed by `end if`.
"""

from dataclasses import dataclass, field
from typing import List, Optional, Tuple, Union

from migrate.hyper_text import Line, each_token, first_word

STEP = b"  "
MOST_NESTED = 120


class NotFollowed(Exception):
    """The `if`s of a handler can't be followed: one isn't closed, or something stands where nothing is due."""


@dataclass
class Simple:
    """A statement, or a line of a `repeat`: what it says and its comment. `line` is the line of the script on which it
    stands alone, and None where it stands on a line with `then` or `else`. `changed` tells that it was rewritten."""

    body: bytes
    comment: bytes = b""
    line: Optional[Line] = None
    changed: bool = False


@dataclass
class If:
    """An `if`: its condition, the statements behind `then` and `else`, and how they stand. `els` is None where there
    is no `else`. `ended` tells of an `end if`; `raw` are its lines as they stood."""

    condition: bytes
    then_inline: bool
    indent: bytes
    then: List["Node"] = field(default_factory=list)
    els: Optional[List["Node"]] = None
    else_inline: bool = False
    ended: bool = False
    comments: List[bytes] = field(default_factory=list)
    raw: List[Line] = field(default_factory=list)
    changed: bool = False

    @property
    def chained(self) -> bool:
        """Whether `else` is followed by `if` on its line."""
        return self.else_inline and self.els is not None and len(self.els) == 1 and isinstance(self.els[0], If)


Node = Union[Simple, If]


def _word_at(text: bytes, word: str) -> Optional[Tuple[int, int]]:
    """Where a word stands first in a text, outside of strings and parentheses."""
    deep = 0
    for each in each_token(text):
        deep += (each.text == b"(") - (each.text == b")")
        if each.low == word and not deep:
            return each.start, each.end
    return None


class Reader:
    """Reads the lines of a handler's body. `closes` tells how `else S` behind lines is taken where an `end if` follows:
    as closed by it, or not."""

    def __init__(self, lines: List[Line], closes: bool) -> None:
        self.lines, self.closes = lines, closes
        self.at, self.deep = 0, 0

    def whole(self) -> List[Node]:
        """The statements of all lines. Raises NotFollowed."""
        found = self.list()
        if self.at < len(self.lines):
            raise NotFollowed(self.lines[self.at].body)
        return found

    def list(self) -> List[Node]:
        """The statements up to an `else` or an `end if`, or the end."""
        found: List[Node] = []
        while self.at < len(self.lines):
            line = self.lines[self.at]
            if line.begins("end", "if") or line.begins("else"):
                break
            if line.begins("if"):
                found.append(self.block(line))
            else:
                self.at += 1
                found.append(Simple(line.body, line.comment, line))
        return found

    def block(self, line: Line) -> If:
        """An `if` that begins a line, with all its lines."""
        first = self.at
        self.at += 1
        comments = [line.comment] if line.comment else []
        found = self.read_if(line.body, line.indent, comments)
        found.raw = self.lines[first : self.at]
        return found

    def read_if(self, text: bytes, indent: bytes, comments: List[bytes]) -> If:
        """The `if` that a text begins, with the lines that belong to it; the text's own line is read already."""
        self.deep += 1
        if self.deep > MOST_NESTED:
            raise NotFollowed(text)
        then = _word_at(text, "then")
        if then is None:
            text, then = self.joined(text, comments)
        found = If(text[2 : then[0]].strip(), True, indent, comments=comments)
        rest = text[then[1] :].strip()
        if rest:
            self.inline(found, rest)
        else:
            found.then_inline = False
            found.then = self.list()
            self.after_lines(found)
        self.deep -= 1
        return found

    def joined(self, text: bytes, comments: List[bytes]) -> Tuple[bytes, Tuple[int, int]]:
        """The text with the next line, which begins with `then`."""
        if self.at >= len(self.lines) or not self.lines[self.at].begins("then"):
            raise NotFollowed(text)
        line = self.lines[self.at]
        self.at += 1
        comments += [line.comment] if line.comment else []
        text += b" " + line.body
        then = _word_at(text, "then")
        if then is None:
            raise NotFollowed(text)
        return text, then

    def statement(self, text: bytes, indent: bytes) -> Node:
        """A statement behind `then` or `else` on their line."""
        if first_word(text) == "if":
            return self.read_if(text, indent, [])
        return Simple(text)

    def inline(self, found: If, rest: bytes) -> None:
        """What follows `then` on its line, and the `else` that belongs to it, there or on the next line."""
        other = None if first_word(rest) == "if" else _word_at(rest, "else")
        if other is None:
            found.then = [self.statement(rest, found.indent)]
            self.else_line(found)
            return
        found.then = [self.statement(rest[: other[0]].strip(), found.indent)]
        self.else_part(found, rest[other[1] :].strip())

    def else_line(self, found: If) -> None:
        """An `else` that begins the next line; blank lines before it are passed over."""
        ahead = self.at
        while ahead < len(self.lines) and not self.lines[ahead].body and not self.lines[ahead].comment:
            ahead += 1
        if ahead < len(self.lines) and self.lines[ahead].begins("else"):
            self.at = ahead + 1
            line = self.lines[ahead]
            found.comments += [line.comment] if line.comment else []
            self.else_part(found, line.body[4:].strip())

    def else_part(self, found: If, rest: bytes) -> None:
        """What stands behind an `else`: a statement, or lines that an `end if` closes."""
        if rest:
            found.else_inline = True
            found.els = [self.statement(rest, found.indent)]
            nested = found.els[0]
            found.ended = isinstance(nested, If) and nested.ended
            return
        found.els = self.list()
        self.end_if(found)

    def after_lines(self, found: If) -> None:
        """What closes an `if` whose `then` has lines."""
        if self.at >= len(self.lines):
            raise NotFollowed(found.condition)
        line = self.lines[self.at]
        if not line.begins("else"):
            self.end_if(found)
            return
        self.at += 1
        found.comments += [line.comment] if line.comment else []
        self.else_part(found, line.body[4:].strip())
        follows = self.at < len(self.lines) and self.lines[self.at].begins("end", "if")
        if found.else_inline and not found.ended and follows and self.closes:
            self.end_if(found)

    def end_if(self, found: If) -> None:
        if self.at >= len(self.lines) or not self.lines[self.at].begins("end", "if"):
            raise NotFollowed(found.condition)
        line = self.lines[self.at]
        found.comments += [line.comment] if line.comment else []
        self.at += 1
        found.ended = True


def read(lines: List[Line]) -> List[Node]:
    """The statements of a handler's body. Raises NotFollowed."""
    try:
        return Reader(lines, True).whole()
    except NotFollowed:
        return Reader(lines, False).whole()


def _one(nodes: List[Node]) -> bool:
    return len(nodes) == 1 and isinstance(nodes[0], Simple)


def is_taken(node: If) -> bool:
    """Whether an `if` stands in one of the two forms; that of the `if`s within it is another question."""
    if node.then_inline:
        return not node.ended and _one(node.then) and (node.els is None or node.else_inline and _one(node.els))
    return node.ended and (not node.else_inline or node.chained and _is_block(node.els))


def _is_block(els: Optional[List[Node]]) -> bool:
    """Whether the `if` of an `else if` has lines, as those that go before it."""
    return bool(els and isinstance(els[0], If) and not els[0].then_inline and is_taken(els[0]))


def is_changed(nodes: List[Node]) -> bool:
    """Whether something in these statements has to be written anew."""
    for node in nodes:
        if node.changed:
            return True
        if isinstance(node, If) and (not is_taken(node) or is_changed(node.then) or is_changed(node.els or [])):
            return True
    return False


def _comment(text: bytes, comment: bytes) -> bytes:
    return text + b" " + comment if comment else text


def written(nodes: List[Node], indent: bytes) -> List[bytes]:
    """The lines of these statements. What isn't changed stands as it stood."""
    lines: List[bytes] = []
    for node in nodes:
        if isinstance(node, If):
            node.indent = node.indent if node.raw else indent
            lines += _if(node)
        elif node.line is not None and not node.changed:
            lines.append(node.line.raw)
        else:
            left = node.line.indent if node.line is not None else indent
            lines.append(left + _comment(node.body, node.comment))
    return lines


def _if(node: If) -> List[bytes]:
    """The lines of an `if`: as they stood, or on one line, or in lines."""
    if not is_changed([node]) and node.raw:
        return [line.raw for line in node.raw]
    above = [node.indent + each for each in node.comments]
    if is_taken(node) and node.then_inline:
        first = node.then[0]
        assert isinstance(first, Simple)
        lines = [node.indent + _comment(b"if %b then %b" % (node.condition, first.body), first.comment)]
        for other in node.els or []:
            assert isinstance(other, Simple)
            lines.append(node.indent + _comment(b"else " + other.body, other.comment))
        return above + lines
    return above + _in_lines(node, b"if ") + [node.indent + b"end if"]


def _in_lines(node: If, head: bytes) -> List[bytes]:
    """The lines of an `if`, but for its `end if`."""
    lines = [node.indent + head + node.condition + b" then"]
    lines += written(node.then, node.indent + STEP)
    if node.chained and node.els and isinstance(node.els[0], If):
        other = node.els[0]
        other.indent = node.indent
        lines += [node.indent + each for each in other.comments]
        return lines + _in_lines(other, b"else if ")
    if node.els is not None:
        lines.append(node.indent + b"else")
        lines += written(node.els, node.indent + STEP)
    return lines
