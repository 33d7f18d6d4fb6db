"""Which terms a full check makes, by 01's rules in order. No answer is found here, only told: the program answers.

Where 01 tries all pairs, one pair for each class does: the others would make the same terms again.
"""
from bisect import insort
from typing import NamedTuple

from show_sheet.table import EQUATION


class Outcome(NamedTuple):
    rule: str  # that answered; "" if none before the ring did
    atoms: list  # of its lemma


class Rules:
    def __init__(self, table, classes):
        self.table = table
        self.classes = classes
        self.collected = set()  # terms that collection has gone through
        self.marks = set()
        # Literals in force, by what they say: atoms of testers, sides of unequal terms. `pop` takes them back.
        self.positive, self.negative, self.unequal = [], [], []
        # What is never taken back.
        self.lasting, self.handed_out, self.split_on = set(), set(), set()
        self.apps = {}  # by class, the marked constructor applications in it, ascending
        self.line = 0  # of the check under way
        self.rule = ""  # under way

    def collect(self, term):
        """Marks what is relevant in a registered atom."""
        below = [term]
        while below:
            term = below.pop()
            if term not in self.collected:
                self.collected.add(term)
                below.extend(self.table.args(term))
                if self.table.role(term) in ("constructor", "tester", "selector") or self.is_datatype_term(term):
                    self.marks.add(term)

    def full_check(self, line):
        """Makes the terms of a full check and says which rule answers."""
        self.line = line
        self.apps = {}
        for term in sorted(self.marks):
            self.note_application(term)
        clash = self.clash()
        if clash:
            return Outcome(clash, [])
        self.rule = "injectivity"
        self.make_selectors()
        lemmas = {
            "collapse": self.collapse,
            "tester lemma": self.tester_lemma,
            "instantiation": self.instantiate,
            "exhaustiveness": self.exhaust,
        }
        for self.rule, lemma in lemmas.items():
            atoms = lemma()
            if atoms:
                return Outcome(self.rule, atoms)
        return Outcome("fence" if any(True for _ in self.undetermined()) else "", [])

    def is_datatype_term(self, term):
        return self.table.is_datatype(self.table.sort(term))

    def note_application(self, term):
        if self.table.role(term) == "constructor":
            insort(self.apps.setdefault(self.classes.root(term), []), term)

    def class_apps(self, term):
        return self.apps.get(self.classes.root(term), [])

    def marked(self, role):
        return [term for term in sorted(self.marks) if self.table.role(term) == role]

    def undetermined(self):
        """Watched terms, ascending, whose class has no marked constructor application."""
        return (term for term in sorted(self.marks) if self.is_datatype_term(term) and not self.class_apps(term))

    def make(self, symbol, args):
        return self.table.make(symbol, args, self.line, self.rule)

    def mint(self, symbol, args):
        """Makes and marks."""
        term = self.make(symbol, args)
        if term not in self.marks:
            self.marks.add(term)
            self.note_application(term)
        return term

    def equation(self, one, other):
        return self.make(EQUATION, [one, other])

    def hand_out(self, atom):
        if atom in self.handed_out:
            return []
        self.handed_out.add(atom)
        return [atom]

    # The rules.

    def clash(self):
        owner = self.table.owner
        if any(owner(app) != owner(apps[0]) for apps in self.apps.values() for app in apps):
            return "constructor clash"
        if any(self.is_against(atom) for atom in self.positive):
            return "tester clash"
        if any(self.is_denied(atom) for atom in self.negative):
            return "negative tester"
        if any(self.classes.equal(*sides) for sides in self.unequal):
            return "unequal terms"
        return ""

    def is_against(self, atom):
        """Has the lowest application of the class of a tester's term another constructor?"""
        apps = self.class_apps(self.table.args(atom)[0])
        return bool(apps) and self.table.owner(apps[0]) != self.table.owner(atom)

    def is_denied(self, atom):
        """Has the class of a tester's term an application of that very constructor?"""
        return any(self.table.owner(app) == self.table.owner(atom) for app in self.class_apps(self.table.args(atom)[0]))

    def make_selectors(self):
        """For two applications of one constructor in one class, each selector on the lower, then on the higher."""
        lowest = {}
        groups = {}
        for apps in self.apps.values():
            for app in apps:
                first = lowest.setdefault((self.classes.root(app), self.table.owner(app)), app)
                groups.setdefault(first, []).append(app)
        for first in sorted(groups):
            for other in groups[first][1:]:
                for selector in self.selectors(self.table.owner(first)):
                    self.mint(selector, [first])
                    self.mint(selector, [other])

    def selectors(self, constructor):
        return range(constructor + 2, constructor + 2 + len(self.table.symbols[constructor].params))

    def own_apps(self, role):
        """Marked testers or selectors, each with the applications of its constructor in the class of its argument."""
        seen = set()
        for term in self.marked(role):
            arg = self.table.args(term)[0]
            key = (self.table.terms[term].symbol, self.classes.root(arg))
            if key not in seen:
                seen.add(key)
                yield key[0], [app for app in self.class_apps(arg) if self.table.owner(app) == self.table.owner(term)]

    def collapse(self):
        for selector, apps in self.own_apps("selector"):
            for app in apps:
                field = self.table.args(app)[self.table.symbols[selector].index]
                chosen = self.make(selector, [app])
                atoms = [] if self.classes.equal(chosen, field) else self.hand_out(self.equation(chosen, field))
                if atoms:
                    return atoms
        return []

    def tester_lemma(self):
        for tester, apps in self.own_apps("tester"):
            for app in apps:
                atoms = self.hand_out(self.make(tester, [app]))
                if atoms:
                    return atoms
        return []

    def instantiate(self):
        for atom in sorted(self.lasting):
            term = self.table.args(atom)[0]
            if self.class_apps(term):
                continue
            constructor = self.table.owner(atom)
            fields = [self.mint(selector, [term]) for selector in self.selectors(constructor)]
            atoms = self.hand_out(self.equation(term, self.mint(constructor, fields)))
            if atoms:
                return atoms
        return []

    def exhaust(self):
        for term in self.undetermined():
            if term not in self.split_on:
                self.split_on.add(term)
                return [self.make(tester, [term]) for tester in self.testers(self.table.sort(term))]
        return []

    def testers(self, sort):
        return [number for number, symbol in enumerate(self.table.symbols) if symbol.role == "tester" and symbol.params == [sort]]
