"""The grammar block of docs/LANGUAGE.md, and a recognizer for any such grammar (J. Earley, 1970).

It finds the token with which no program goes on, and a derivation. It knows nothing of C but the names of the classes of
tokens, and that an `else` belongs to the nearest `if`.
"""

import re
from pathlib import Path

LANGUAGE = Path(__file__).resolve().parent.parent / "docs" / "LANGUAGE.md"
CLASSES = set(
    "name number character string include-line executable directive opening-mark closing-mark end-of-text".split()
)
PART = re.compile(r'"[^"]*"|[{}\[\]()|]|[a-z][a-z0-9-]*')


def block():
    """The rules as the page has them: a name and its right side."""
    text = LANGUAGE.read_text(encoding="utf-8")
    lines = text[text.index("\n    unit  ") :].split("\n\n")[0].splitlines()
    rules = {}
    for line in lines:
        if begins := re.match(r"    ([a-z-]+) *= (.*)", line):
            name = begins.group(1)
            rules[name] = begins.group(2)
        elif line.strip():
            rules[name] += "\n" + line.strip()
    return rules


def binary_levels(text):
    """The rule of binary operators is told in words: its levels are the groups of its second line, loosest first."""
    first, operators = text.split("\n")
    assert first.startswith("cast, with the operators between, from the loosest to the tightest, each to the left:")
    return [re.findall(r'"[^"]*"', group) for group in re.split(r" {2,}", operators)]


class Automaton:
    """The rules as one automaton: each has a first state, steps over symbols, and states in which it may end."""

    def __init__(self):
        self.count = 0
        self.empty = {}
        self.steps = {}

    def state(self):
        self.count += 1
        self.empty[self.count] = set()
        self.steps[self.count] = {}
        return self.count

    def step(self, a, symbol):
        b = self.state()
        self.steps[a].setdefault(symbol, set()).add(b)
        return b

    def reach(self, states):
        found, todo = set(states), list(states)
        while todo:
            for other in self.empty[todo.pop()] - found:
                found.add(other)
                todo.append(other)
        return frozenset(found)

    def alternatives(self, parts, start):
        ends = [self.row(parts, start)]
        while parts and parts[0] == "|":
            parts.pop(0)
            ends.append(self.row(parts, start))
        end = self.state()
        for one in ends:
            self.empty[one].add(end)
        return end

    def row(self, parts, at):
        while parts and parts[0] not in "|)]}":
            part = parts.pop(0)
            if part in "([{":
                inside = self.state()
                self.empty[at].add(inside)
                end = self.alternatives(parts, inside)
                parts.pop(0)
                after = self.state()
                self.empty[end].add(after)
                if part in "[{":
                    self.empty[at].add(after)
                if part == "{":
                    self.empty[end].add(inside)
                at = after
            else:
                at = self.step(at, part)
        return at


class Grammar:
    """States are sets of the automaton's, so each symbol leads to one state."""

    def __init__(self):
        rules = block()
        levels = binary_levels(rules.pop("binary"))
        for rank, operators in enumerate(levels):
            inner = f"rank-{rank + 1}" if rank + 1 < len(levels) else "cast"
            rules["binary" if rank == 0 else f"rank-{rank}"] = f"{inner} {{ ( {' | '.join(operators)} ) {inner} }}"
        self.levels = levels
        automaton = Automaton()
        self.keywords = set()
        self.first, ends = {}, {}
        for name, right in rules.items():
            parts = PART.findall(right)
            self.keywords |= {part[1:-1] for part in parts if re.fullmatch(r'"[A-Za-z]+"', part)}
            start = automaton.state()
            ends[name] = automaton.alternatives(parts, start)
            self.first[name] = automaton.reach({start})
            unknown = {p for p in parts if p[0].isalpha()} - set(rules) - CLASSES
            assert not unknown, f"{name} has {unknown}, which no rule has"
        self.rules = set(rules)
        self.moves, self.final = {}, {}
        for name in rules:
            self.open(automaton, name, ends[name])
        self.can_begin()

    def open(self, automaton, name, end):
        todo = [self.first[name]]
        while todo:
            states = todo.pop()
            if (name, states) in self.moves:
                continue
            moves = {}
            for state in states:
                for symbol, others in automaton.steps[state].items():
                    moves.setdefault(symbol, set()).update(others)
            moves = {symbol: automaton.reach(others) for symbol, others in moves.items()}
            self.moves[name, states] = moves
            self.final[name, states] = end in states
            todo += moves.values()

    def can_begin(self):
        """Which terminals each rule begins with, and which rules may be empty."""
        self.begins = {name: set() for name in self.rules}
        self.nullable = set()
        grew = True
        while grew:
            grew = False
            for name in self.rules:
                begins, empty = set(), self.final[name, self.first[name]]
                todo, seen = [self.first[name]], set()
                while todo:
                    states = todo.pop()
                    if states in seen:
                        continue
                    seen.add(states)
                    empty = empty or self.final[name, states]
                    for symbol, other in self.moves[name, states].items():
                        if symbol in self.rules:
                            begins |= self.begins[symbol]
                            if symbol in self.nullable:
                                todo.append(other)
                        else:
                            begins.add(symbol)
                if begins != self.begins[name] or empty != (name in self.nullable):
                    self.begins[name] = begins
                    if empty:
                        self.nullable.add(name)
                    grew = True

    def terminal(self, token):
        """The class that a token has in the grammar. Words in quotes there are no names."""
        if token.kind == "word":
            return f'"{token.value}"' if token.value in self.keywords else "name"
        if token.kind == "mark":
            return f'"{token.value}"'
        return {"integer": "number", "include": "include-line", "open": "opening-mark", "close": "closing-mark", "end": "end-of-text"}.get(
            token.kind, token.kind
        )

    def derive(self, tokens):
        """The derivation of tokens and nothing, or that of what stands before the dead token and its number.

        A node is a rule's name and its children: tokens and nodes. A node of a front lacks its last children.
        """
        kinds = [self.terminal(token) for token in tokens]
        sets = [Items()]
        sets[0].add(("unit", self.first["unit"], 0), None)
        for at, kind in enumerate(kinds):
            self.close(sets, at, kind)
            following = Items()
            for item in sets[at].order:
                name, states, origin = item
                if (other := self.moves[name, states].get(kind)) is not None:
                    following.add((name, other, origin), (item, at, tokens[at]))
            if not following.order:
                return self.front(sets, at), at
            sets.append(following)
        self.close(sets, len(tokens), None)
        for item in sets[-1].order:
            if item[0] == "unit" and self.final["unit", item[1]]:
                return self.node(sets, item, len(tokens)), None
        raise AssertionError("tokens without an end")

    def close(self, sets, at, kind):
        """Puts in all items of a set that follow from those in it, as far as the next token's class goes on with them."""
        items = sets[at]
        for item in items.order:
            name, states, origin = item
            moves = self.moves[name, states]
            if self.final[name, states] and origin < at and not (kind == '"else"' and kind in moves):
                for waiting in sets[origin].waiting.get(name, ()):
                    other = self.moves[waiting[0], waiting[1]][name]
                    items.add((waiting[0], other, waiting[2]), (waiting, origin, item))
            for symbol, other in moves.items():
                if symbol in self.rules:
                    items.waiting.setdefault(symbol, []).append(item)
                    if symbol in self.nullable:
                        items.add((name, other, origin), (item, at, (symbol, None, at)))
                    if kind in self.begins[symbol]:
                        items.add((symbol, self.first[symbol], at), None)

    def node(self, sets, item, end, last=None):
        """The node of an item that ends at a place, with this child behind its others, if it is given."""
        name = item[0]
        children = [] if last is None else [last]
        while (why := sets[end].reasons.get(item)) is not None:
            before, place, child = why
            if isinstance(child, tuple):
                child = self.node(sets, child, end) if child[1] is not None else (child[0], [])
            children.append(child)
            item, end = before, place
        return name, children[::-1]

    def front(self, sets, at):
        """A derivation of the tokens before a place."""
        item = sets[at].order[0]
        node = self.node(sets, item, at)
        while item[0] != "unit" or item[2] != 0:
            origin = item[2]
            item = sets[origin].waiting[item[0]][0]
            node = self.node(sets, item, origin, node)
        return node


class Items:
    """The items of one place, in the order in which they came, each with the reason why it is there."""

    def __init__(self):
        self.order = []
        self.reasons = {}
        self.waiting = {}

    def add(self, item, reason):
        if item not in self.reasons:
            self.reasons[item] = reason
            self.order.append(item)
