"""A session as the accepted lines leave it: declarations, terms, variables, levels and what is in force.

In force, taken back and equal now mean what crates/session/specs/History.antt says by the lines alone.
"""
from typing import NamedTuple

from show_sheet import script
from show_sheet.classes import Classes
from show_sheet.rules import Outcome, Rules
from show_sheet.table import EQUATION, Sort, Symbol, Table


class Variable(NamedTuple):
    number: int
    atom: int
    line: int


class Check(NamedTuple):
    line: int
    first: int  # the terms before it
    count: int  # the terms after it


class Entry(NamedTuple):
    line: int
    level: int  # `pop` below it takes the line back
    leaf: str
    undo: object  # what to call then, or None


class Session:
    def __init__(self, use_rules):
        self.use_rules = use_rules
        self.table = Table()
        self.classes = Classes()
        self.rules = Rules(self.table, self.classes)
        self.variables = []
        self.atoms = {}  # atom of each variable
        self.level = 0
        self.entries = []  # lines in force that a `pop` can take back, oldest first
        self.leaves = {}  # for each leaf the lines in force under it, oldest first
        self.until = {}  # for each line taken back the `pop` that did it
        self.checks = []  # full checks
        self.outcome = Outcome("", [])  # of the last full check
        self.settled = False  # would a full check do what the last one did, and make nothing?
        self.wrong = 0  # the first line whose answer the rules here do not give

    def perform(self, line, key, values, answer):
        """What an accepted line does."""
        getattr(self, "do_" + key)(line, values, answer)

    def expect(self, line, as_told):
        if not as_told and not self.wrong:
            self.wrong = line

    def do_sort(self, line, values, _):
        self.table.sorts.append(Sort("datatype" if values == ["d"] else "other sort", line))

    def do_ctor(self, line, values, _):
        self.table.declare_constructor(values[0], values[1:], line)

    def do_fun(self, line, values, _):
        self.table.symbols.append(Symbol("function", 0, 0, values[1:], values[0], line))

    def do_close(self, *_):
        pass

    def do_term(self, line, values, answer):
        self.name_term(line, values[0], values[1:], answer)

    def do_eq(self, line, values, answer):
        self.name_term(line, EQUATION, values, answer)

    def name_term(self, line, symbol, args, answer):
        """The answered number is that of the term."""
        number = int(answer.partition("=")[2])
        self.meet(line, args)
        if (symbol, *args) not in self.table.places:
            self.expect(line, number == len(self.table.terms))
            self.meet(line, range(number))
            self.table.learn(number, symbol, args)
        self.expect(line, self.table.make(symbol, args, line) == number)

    def meet(self, line, terms):
        """Terms that a line names are there: those that nothing has named before were made by checks."""
        self.table.fill(max(terms, default=-1) + 1, line - 1)

    def do_var(self, line, values, _):
        number, atom = values
        self.meet(line, [atom])
        self.atoms[number] = atom
        self.variables.append(Variable(number, atom, line))
        self.rules.collect(atom)
        self.settled = False

    def atom(self, literal):
        return self.atoms[literal // 2]

    def sides(self, key, values):
        """The two terms that an `equate`, `cong` or `iface` line joins, or that a `differ` line keeps apart; none if not known."""
        if key in ("equate", "differ"):
            return self.table.args(self.atom(values[0]))
        return tuple(values[:2]) if key in ("cong", "iface") else ()

    def do_equate(self, line, values, _):
        self.join(line, f"a{values[0]}", self.sides("equate", values))

    def do_cong(self, line, values, _):
        self.join(line, "", values)

    def do_iface(self, line, values, _):
        self.join(line, f"i{values[2]}.{values[3]}", values[:2])

    def join(self, line, leaf, sides):
        self.meet(line, sides)
        if sides:
            self.classes.join(*sides)
        self.enter(line, self.level, leaf, self.classes.part if sides else None)

    def do_assert(self, line, values, _):
        atom = self.atom(values[0])
        if self.table.role(atom) != "tester":
            self.enter(line, self.level, f"a{values[0]}", None)
            return
        record = self.rules.negative if values[0] % 2 else self.rules.positive
        if record is self.rules.positive:
            self.rules.lasting.add(atom)
        record.append(atom)
        self.enter(line, self.level, f"a{values[0]}", record.pop)

    def do_differ(self, line, values, _):
        sides = self.sides("differ", values)
        if sides:
            self.rules.unequal.append(sides)
        self.enter(line, self.level, f"a{values[0]}", self.rules.unequal.pop if sides else None)

    def enter(self, line, level, leaf, undo):
        self.entries.append(Entry(line, level, leaf, undo))
        if leaf:
            self.leaves.setdefault(leaf, []).append(line)
        self.settled = False

    def do_push(self, line, *_):
        """A `push` counts as taken back once the level that it opened is closed."""
        self.level += 1
        self.enter(line, self.level, "", None)

    def do_pop(self, line, values, _):
        # Levels never fall from an entry to the next, so what is taken back stands at the end.
        while self.entries and self.entries[-1].level > values[0]:
            entry = self.entries.pop()
            self.until[entry.line] = line
            if entry.leaf:
                self.leaves[entry.leaf].pop()
            if entry.undo:
                entry.undo()
            self.settled = False
        self.level = min(self.level, values[0])

    def do_check(self, line, values, answer):
        if values != [1]:
            return
        first = len(self.table.terms)
        if self.use_rules:
            self.follow_rules(line, answer)
        elif answer.startswith("split="):
            self.table.fill(max(script.read_split(answer)[0]) + 1, line)
        self.checks.append(Check(line, first, len(self.table.terms)))

    def follow_rules(self, line, answer):
        before = (len(self.table.terms), len(self.rules.marks))
        if not self.settled:
            self.outcome = self.rules.full_check(line)
        made = (len(self.table.terms), len(self.rules.marks)) != before
        self.settled = not made and not self.outcome.atoms
        self.expect(line, fits(self.outcome, answer))


def fits(outcome, answer):
    """Is an answer of the form that the rule gives?"""
    if outcome.atoms:
        return answer.startswith("split=") and script.read_split(answer)[0] == outcome.atoms
    if outcome.rule == "":
        return answer == "sat=1" or answer.startswith("conflict=")
    return answer == "unknown=1" if outcome.rule == "fence" else answer.startswith("conflict=")
