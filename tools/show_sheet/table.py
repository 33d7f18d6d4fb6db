"""The table of sorts, symbols and terms, each with the line that made it."""
from typing import NamedTuple, Optional

EQUATION = -1  # stands for the symbol of an equation
PREFIXES = {"constructor": "c", "tester": "is", "selector": "sel", "function": "f"}


class Sort(NamedTuple):
    kind: str
    line: int


class Symbol(NamedTuple):
    role: str
    owner: int  # the constructor that a tester or selector belongs to
    index: int  # the field that a selector gives back
    params: list
    result: int
    line: int


class Term(NamedTuple):
    symbol: int
    args: Optional[tuple]  # None: no line names the term, and its making is not known
    line: int
    rule: str  # the rule that made it in a check, or nothing


class Table:
    def __init__(self):
        self.sorts = [Sort("Bool", 0)]
        self.symbols = []
        self.terms = []
        self.places = {}  # number of a term by symbol and arguments

    def declare_constructor(self, result, fields, line):
        """A constructor takes symbols for itself, its tester and each selector, in this order."""
        owner = len(self.symbols)
        self.symbols.append(Symbol("constructor", owner, 0, fields, result, line))
        self.symbols.append(Symbol("tester", owner, 0, [result], 0, line))
        for index, field in enumerate(fields):
            self.symbols.append(Symbol("selector", owner, index, [result], field, line))

    def make(self, symbol, args, line, rule=""):
        """The number of a term, which is made unless it is there."""
        key = (symbol, *args)
        if key not in self.places:
            self.places[key] = len(self.terms)
            self.terms.append(Term(symbol, tuple(args), line, rule))
        return self.places[key]

    def fill(self, count, line):
        """Terms up to a count that no line names and whose making is not known."""
        while len(self.terms) < count:
            self.terms.append(Term(EQUATION, None, line, ""))

    def learn(self, number, symbol, args):
        """What a term of unknown making is, once a line names it."""
        if number < len(self.terms):
            self.places[(symbol, *args)] = number
            self.terms[number] = Term(symbol, tuple(args), self.terms[number].line, "")

    def args(self, term):
        return self.terms[term].args or ()

    def role(self, term):
        symbol = self.terms[term].symbol
        return "" if symbol == EQUATION else self.symbols[symbol].role

    def owner(self, term):
        """The constructor that a constructor, tester or selector application is about."""
        return self.symbols[self.terms[term].symbol].owner

    def sort(self, term):
        symbol = self.terms[term].symbol
        return 0 if symbol == EQUATION else self.symbols[symbol].result

    def is_datatype(self, sort):
        return self.sorts[sort].kind == "datatype"

    def name(self, symbol):
        """A short name: the letters say the role, the number is the symbol's."""
        return PREFIXES[self.symbols[symbol].role] + str(symbol)

    def text(self, term):
        """A term one level deep, its arguments by number."""
        args = [f"t{arg}" for arg in self.args(term)]
        if self.terms[term].symbol == EQUATION:
            return " = ".join(args)
        name = self.name(self.terms[term].symbol)
        return f"{name}({', '.join(args)})" if args else name
