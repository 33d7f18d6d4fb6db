"""Which terms are equal now: classes that are joined, and parted again in reverse order."""


class Classes:
    def __init__(self):
        self.parent = {}  # of each term that is no root
        self.size = {}  # of each root with more than one term
        self.joined = []  # for each join the root that went under another, or None

    def root(self, term):
        while term in self.parent:
            term = self.parent[term]
        return term

    def equal(self, one, other):
        return self.root(one) == self.root(other)

    def join(self, one, other):
        one, other = self.root(one), self.root(other)
        if one == other:
            self.joined.append(None)
            return
        # The smaller goes under the larger, so that ways to a root stay short without being shortened.
        if self.size.get(one, 1) < self.size.get(other, 1):
            one, other = other, one
        self.parent[other] = one
        self.size[one] = self.size.get(one, 1) + self.size.get(other, 1)
        self.joined.append(other)

    def part(self):
        """Takes the last join back."""
        under = self.joined.pop()
        if under is not None:
            self.size[self.parent.pop(under)] -= self.size.get(under, 1)
