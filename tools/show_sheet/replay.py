"""Replays a sheet by its answers and lays out what the page shows."""
from show_sheet import confirm, program, script, words
from show_sheet.session import Session

MORE_LINES = 1000  # so many unanswered lines are shown
UNKNOWN = "accepted, but of a kind that this page does not know"


def replay(path, text):
    """What the page shows of a script."""
    sheet = script.lines(text)
    run = program.run(path, text)
    answers = [answer.decode("ascii", "replace") for answer in run.answers]
    # A run that stops part way, as by 12, leaves lines without an answer.
    known = list(zip(sheet, answers))
    session, rows = follow(known, use_rules=True)
    confirmed, as_expected = (set(), False) if session.wrong else confirm.confirm(path, accepted(sheet, run.answers), session)
    if not as_expected:
        session, rows = follow(known, use_rules=False)
    for line, pop in session.until.items():
        rows[line - 1]["until"] = pop
    unanswered = sheet[len(answers):]
    rows += [{"text": script.shown(line), "kind": "unanswered", "level": session.level} for line in unanswered[:MORE_LINES]]
    return {
        "notes": notes(run, sheet, answers, rows, session, as_expected),
        "answered": len(answers),
        "total": len(sheet),
        "rows": rows,
        "sorts": [sort._asdict() for sort in session.table.sorts],
        "symbols": [laid_out_symbol(session.table, number) for number in range(len(session.table.symbols))],
        "terms": [laid_out_term(term, confirmed) for term in session.table.terms],
        "variables": [variable._asdict() for variable in session.variables],
    }


def follow(known, use_rules):
    """The session after the answered lines, and a row for each. With rules it ends at the first answer that they do not give."""
    session = Session(use_rules)
    rows = []
    for number, (line, answer) in enumerate(known, 1):
        rows.append({"text": script.shown(line), "answer": answer, **row(session, number, line, answer)})
        if use_rules and session.wrong:
            break
    return session, rows


def row(session, number, line, answer):
    """Performs an answered line."""
    came_at = session.level
    if answer.startswith("refused="):
        return {"kind": "refused", "level": came_at, "words": words.refused(answer)}
    command = script.read(line)
    if command is None:
        return {"kind": "unknown", "level": came_at, "words": UNKNOWN}
    key, values = command
    session.perform(number, key, values, answer)
    shown = {"kind": key, "level": min(came_at, session.level), "words": words.meaning(session, key, values, answer)}
    shown.update(in_force(session, number, key, values))
    if answer.startswith("conflict="):
        shown["leaves"] = [cited(session, leaf) for leaf in answer.partition("=")[2].split(",")]
    about = subjects(session, key, values, answer)
    if about:
        shown["about"] = about
    return shown


def cited(session, leaf):
    """A leaf with the first line in force under it, and how many there are."""
    lines = session.leaves.get(leaf, [])
    return [leaf, lines[0] if lines else 0, len(lines)]


def in_force(session, number, key, values):
    """Of a line that a `pop` can take back: its leaf, and the two terms that it joins."""
    if not session.entries or session.entries[-1].line != number:
        return {}
    found = {"taken": True}
    if session.entries[-1].leaf:
        found["leaf"] = session.entries[-1].leaf
    if key in ("equate", "cong", "iface") and session.sides(key, values):
        found["join"] = session.sides(key, values)
    return found


def subjects(session, key, values, answer):
    """The terms that a line is about."""
    if key in ("term", "eq"):
        return [int(answer.partition("=")[2])]
    if key == "var":
        return values[1:]
    if key in ("equate", "assert", "differ"):
        return [session.atom(values[0])]
    if key in ("cong", "iface"):
        return values[:2]
    return script.read_split(answer)[0] if answer.startswith("split=") else []


def accepted(sheet, answers):
    return [(number, line, answer) for number, (line, answer) in enumerate(zip(sheet, answers), 1) if not answer.startswith(b"refused=")]


def laid_out_symbol(table, number):
    return {**table.symbols[number]._asdict(), "name": table.name(number)}


def laid_out_term(term, confirmed):
    """A term that a rule made is shown only if the program confirmed it."""
    shown = {"line": term.line}
    if term.rule:
        shown["rule"] = term.rule
    if term.args is not None and (not term.rule or term.line in confirmed):
        shown.update(symbol=term.symbol, args=term.args)
    return shown


def notes(run, sheet, answers, rows, session, as_expected):
    """What has to be said at the top."""
    said = []
    if not sheet:
        said.append("The sheet has no line.")
    if run.result:
        said.append(f"The run stopped, and {len(sheet) - len(answers):,} of {len(sheet):,} lines have no answer. {run.message}")
    if len(rows) < len(sheet):
        said.append(f"The last {len(sheet) - len(rows):,} lines are not shown.")
    if any(shown["kind"] == "unknown" for shown in rows):
        said.append("Lines of a kind that this page does not know were accepted: what it shows after them may be wrong.")
    if session.checks and not as_expected:
        said.append("The program's checks made other terms than 01's rules as this page reads them, so terms that only a check made "
                    "are not shown.")
    return said
