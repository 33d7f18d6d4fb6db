"""What a line means, in words. The page makes a link of each `tN`, which is term N."""
from show_sheet import script

# README's table of questions.
QUESTIONS = {
    3: "does it read: a known key, the right count of numbers, each in its range?",
    4: "do declarations come before `close`, all else after?",
    5: "does each named sort, symbol, term and variable exist, and is the V of `var` below 1,024?",
    6: "do sorts and argument counts agree?",
    7: "`var`: is the variable unregistered?",
    8: "`equate`: is the literal positive and its atom an equation?",
    13: "`differ`, asked after 8: is the literal negative and its atom an equation?",
    9: "`cong`: the same operation, and each argument pair equal now?",
    10: "`close`: is each datatype inhabited, that is, has it a constructor with only fields of other sorts or of datatypes found "
        "inhabited before it, starting from none?",
    11: "does the result fit the limits?",
}
CAUSES = {
    "constructor clash": "two constructors in one class",
    "tester clash": "a tester against the constructor of its class",
    "negative tester": "a tester denied, and its constructor in the class",
    "unequal terms": "terms that differ are in one class",
    "": "a ring: a tree would have itself as a part",
}
LEMMAS = {
    "collapse": "a selector on its constructor's application is the field there",
    "tester lemma": "an application of a constructor passes that constructor's tester",
    "instantiation": "a term that passes a tester is that constructor over its selectors",
    "exhaustiveness": "a datatype term has one of the constructors",
}


def refused(answer):
    number = int(answer.partition("=")[2])
    return f"refused by question {number}: {QUESTIONS.get(number, 'not known here')}"


def listed(words):
    return ", ".join(words[:-1]) + " or " + words[-1] if len(words) > 1 else "".join(words)


def sorts(numbers):
    return ", ".join("Bool" if number == 0 else f"sort {number}" for number in numbers)


def signature(params, result):
    return f"{sorts(params)} → {sorts([result])}" if params else sorts([result])


def of_sort(session, values, _):
    number = len(session.table.sorts) - 1
    return f"sort {number}: a datatype" if values == ["d"] else f"sort {number}: of which nothing is known"


def of_ctor(session, values, _):
    first = len(session.table.symbols) - 1 - len(values)
    text = f"symbol {first}: constructor, {signature(values[1:], values[0])}; {first + 1}: its tester"
    if len(values) == 2:
        return f"{text}; {first + 2}: its selector"
    return f"{text}; {first + 2} to {first + len(values)}: its selectors" if len(values) > 2 else text


def of_fun(session, values, _):
    return f"symbol {len(session.table.symbols) - 1}: function, {signature(values[1:], values[0])}"


def of_close(*_):
    return "no more declarations"


def of_term(session, _, answer):
    number = int(answer.partition("=")[2])
    return f"t{number} is {session.table.text(number)}"


def of_var(_, values, _answer):
    return f"variable {values[0]} is t{values[1]}: literal {2 * values[0]} says it, literal {2 * values[0] + 1} denies it"


def of_equate(session, values, _):
    return joined(session.sides("equate", values), f"literal {values[0]}")


def of_cong(_, values, _answer):
    return joined(values, "their arguments are")


def of_iface(_, values, _answer):
    return joined(values[:2], f"theory {values[2]}, tag {values[3]}")


def joined(sides, why):
    return f"t{sides[0]} and t{sides[1]} are one: {why}" if sides else why


def of_assert(session, values, answer):
    atom = session.atom(values[0])
    text = f"literal {values[0]}: t{atom} is {'false' if values[0] % 2 else 'true'}"
    if not answer.startswith("conflict="):
        return text
    return f"{text}; {conflict('negative tester' if values[0] % 2 else 'tester clash')}"


def of_differ(session, values, _):
    sides = session.sides("differ", values)
    return f"t{sides[0]} and t{sides[1]} differ: literal {values[0]}" if sides else f"literal {values[0]}"


def of_push(session, *_):
    return f"opens level {session.level}"


def of_pop(session, *_):
    return f"back at level {session.level}"


def of_check(session, values, answer):
    if values != [1]:
        return "not full: nothing done"
    if answer == "sat=1":
        return "no clash, no unequal pair that is equal, no ring, and each watched class has its constructor"
    if answer == "unknown=1":
        return "some watched term has no constructor yet"
    rule = session.outcome.rule if session.use_rules else None
    return conflict(rule) if answer.startswith("conflict=") else lemma(rule, answer)


def conflict(rule):
    return f"never true together: {CAUSES[rule]}" if rule in CAUSES else "never true together"


def lemma(rule, answer):
    atoms, guards = script.read_split(answer)
    holds = listed([f"literal {guard}" for guard in guards] + [f"t{atom}" for atom in atoms]) + " holds"
    return f"{holds}, by {rule}: {LEMMAS[rule]}" if rule in LEMMAS else holds


WORDS = {
    "sort": of_sort, "ctor": of_ctor, "fun": of_fun, "close": of_close, "term": of_term, "eq": of_term, "var": of_var,
    "equate": of_equate, "cong": of_cong, "iface": of_iface, "assert": of_assert, "differ": of_differ, "push": of_push,
    "pop": of_pop, "check": of_check,
}


def meaning(session, key, values, answer):
    """Of an accepted line, asked right after it."""
    return WORDS[key](session, values, answer)
