"""Rewrites a script where HyperCard's forms aren't in the grammar and the meaning stays the same.

Each rewriting is told with its line, its name, and what stood there before and stands there after. A handler whose
`if`s can't be followed stays as it is, and is told too.
"""

from dataclasses import dataclass, field
from typing import FrozenSet, List, Tuple

from front.handlers import Handler, handlers
from migrate.hyper_text import lines_of, split_comment
from migrate.ifs import If, Node, NotFollowed, Simple, is_changed, is_taken, read, written
from migrate.rewrite_lines import statement
from migrate.rewrite_words import words

MOST_LINES_SHOWN = 12
# The lines of the handler's body on which something stands, from 0.
Lines = FrozenSet[int]


@dataclass(frozen=True)
class Rewriting:
    """A rewriting: the first line of the script as it was, from 1, the name, the text before and after, and all lines
    of the script that it is about."""

    line: int
    name: str
    before: bytes
    after: bytes
    lines: FrozenSet[int]


@dataclass
class Rewritten:
    """A script after its rewritings, those, and the lines of handlers that were left as they were."""

    script: bytes
    made: List[Rewriting] = field(default_factory=list)
    left: List[Tuple[int, bytes]] = field(default_factory=list)


class _Handler:
    """Rewrites the body of one handler."""

    def __init__(self, first: int, made: List[Rewriting]) -> None:
        self.first, self.made = first, made

    def tell(self, lines: Lines, name: str, before: bytes, after: bytes) -> None:
        found = frozenset(self.first + each + 1 for each in lines)
        self.made.append(Rewriting(min(found), name, before, after, found))

    def nodes(self, nodes: List[Node], lines: Lines) -> List[Node]:
        """The statements, rewritten; those that have no lines of their own stand in these."""
        found: List[Node] = []
        for node in nodes:
            if isinstance(node, Simple):
                found += self.simple(node, _own_lines(node) or lines)
            else:
                found.append(self.block(node, _own_lines(node) or lines))
        return found

    def text(self, text: bytes, lines: Lines) -> bytes:
        """Words of a statement or a condition, rewritten."""
        new, names = words(text)
        if names:
            self.tell(lines, ", ".join(sorted(names)), text, new)
        return new

    def simple(self, node: Simple, lines: Lines) -> List[Node]:
        made = statement(node.body)
        bodies = made[0] if made else [node.body]
        if made:
            self.tell(lines, made[1], node.body, b"\r".join(bodies))
        parts = [split_comment(body) for body in bodies]
        new: List[Node] = [Simple(self.text(code, lines), comment, node.line) for code, comment in parts]
        first = new[0]
        assert isinstance(first, Simple)
        if not made and first.body == node.body:
            return [node]
        first.comment = (first.comment + b" " + node.comment).strip()
        for each in new:
            each.changed = True
        return new

    def block(self, node: If, lines: Lines) -> If:
        mixed = not is_taken(node)
        before = b"\r".join(each.raw for each in node.raw)
        condition = self.text(node.condition, lines)
        node.changed = node.changed or condition != node.condition
        node.condition = condition
        node.then = self.nodes(node.then, lines)
        node.els = self.nodes(node.els, lines) if node.els is not None else None
        if mixed and node.raw:
            self.tell(lines, "an `if` of two forms", _cut(before), _cut(b"\r".join(written([node], node.indent))))
        return node


def _own_lines(node: Node) -> Lines:
    """The lines of a statement, without those of the statements within it that stand on lines of their own."""
    if isinstance(node, Simple):
        return frozenset(range(node.line.first, node.line.first + node.line.count) if node.line else ())
    lines = frozenset(number for each in node.raw for number in range(each.first, each.first + each.count))
    return lines.difference(*(_all_lines(each) for each in [*node.then, *(node.els or [])]))


def _all_lines(node: Node) -> Lines:
    """The lines of a statement that are its own, with those of what stands within it."""
    if isinstance(node, Simple):
        return _own_lines(node)
    lines = frozenset(number for each in node.raw for number in range(each.first, each.first + each.count))
    return lines.union(*(_all_lines(each) for each in [*node.then, *(node.els or [])]))


def _cut(text: bytes) -> bytes:
    """Lines for the report, with dots in place of those that are too many."""
    lines = text.split(b"\r")
    return b"\r".join(lines[:MOST_LINES_SHOWN] + ([b".."] if len(lines) > MOST_LINES_SHOWN else []))


def _body(script: bytes, handler: Handler, done: Rewritten) -> bytes:
    """The lines of a handler, rewritten."""
    pieces = script.split(b"\r")[handler.first : handler.after]
    made: List[Rewriting] = []
    try:
        nodes = read(lines_of(b"\r".join(pieces[1:-1]))) if len(pieces) > 2 else []
        nodes = _Handler(handler.first + 1, made).nodes(nodes, frozenset((0,)))
    except NotFollowed as wrong:
        done.left.append((handler.first + 1, wrong.args[0]))
        return b"\r".join(pieces)
    if not is_changed(nodes):
        return b"\r".join(pieces)
    done.made += made
    return b"\r".join([pieces[0], *written(nodes, b"  "), pieces[-1]])


def rewrite(script: bytes) -> Rewritten:
    """The script with each of its handlers rewritten. What stands outside of handlers stays."""
    done = Rewritten(b"")
    pieces = script.split(b"\r")
    lines: List[bytes] = []
    at = 0
    for handler in handlers(script):
        lines += pieces[at : handler.first] + [_body(script, handler, done)]
        at = handler.after
    done.script = b"\r".join(lines + pieces[at:])
    return done
