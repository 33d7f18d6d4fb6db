"""Asking the program which terms its checks made.

The script is run once more with questions put after each full check, which change nothing: `eq=N,N` is refused with 5 if there is no
term N and with 6 if there is; a term that is there is answered its old number. Only accepted lines are sent, since a refused one leaves
the session as it was. If the number of terms after a check is the expected one, and each term that it should have made is answered the
expected number below it, then the check made these terms and no others.
"""
from typing import NamedTuple

from show_sheet import program
from show_sheet.table import EQUATION


class Question(NamedTuple):
    line: bytes
    expected: bytes


class Asked(NamedTuple):
    """A full check with its questions and the bytes of script and answers that they take."""
    check: object
    questions: list
    sent: int
    answered: int


def questions(table, check):
    """How many terms there are comes first: else a question could make the very term that it asks for."""
    asked = [Question(b"eq=%d,%d" % (check.count, check.count), b"refused=5")]
    if check.count > check.first:
        last = check.count - 1
        asked.append(Question(b"eq=%d,%d" % (last, last), b"refused=6"))
    for number in range(check.first, check.count):
        term = table.terms[number]
        key, values = (b"eq=", term.args) if term.symbol == EQUATION else (b"term=", (term.symbol, *term.args))
        asked.append(Question(key + b",".join(b"%d" % value for value in values), b"term=%d" % number))
    return asked


def size(lines):
    """Bytes of lines with their ends."""
    return sum(len(line) + 1 for line in lines)


def grouped(checks, sent_before, answered_before):
    """Checks in order, as many in a group as one run has room for. Those that have no room alone are left out."""
    group, sent, answered = [], 0, 0
    for asked in checks:
        room_sent = program.MAX_BYTES - sent_before[asked.check.line]
        room_answered = program.MAX_BYTES - answered_before[asked.check.line]
        if group and (sent + asked.sent > room_sent or answered + asked.answered > room_answered):
            yield group
            group, sent, answered = [], 0, 0
        if asked.sent <= room_sent and asked.answered <= room_answered:
            group.append(asked)
            sent, answered = sent + asked.sent, answered + asked.answered
    if group:
        yield group


def confirm(path, accepted, session):
    """The lines of the checks whose terms the program confirms, and whether it said anything else than expected.

    `accepted` has number, bytes and answer bytes of each accepted line.
    """
    sent_before, answered_before, sent, answered = {}, {}, 0, 0
    for number, line, answer in accepted:
        sent, answered = sent + len(line) + 1, answered + len(answer) + 1
        sent_before[number], answered_before[number] = sent, answered
    checks = []
    for check in session.checks:
        asked = questions(session.table, check)
        checks.append(Asked(check, asked, size(q.line for q in asked), size(q.expected for q in asked)))
    confirmed = set()
    for group in grouped(checks, sent_before, answered_before):
        if not agrees(path, accepted, group):
            return set(), False
        confirmed.update(asked.check.line for asked in group)
    return confirmed, True


def agrees(path, accepted, group):
    """Runs the lines up to the last check of a group with its questions: is every answer the expected one?"""
    questions_after = {asked.check.line: asked.questions for asked in group}
    sent, expected = [], []
    for number, line, answer in accepted:
        if number > group[-1].check.line:
            break
        sent.append(line)
        expected.append(answer)
        for question in questions_after.get(number, []):
            sent.append(question.line)
            expected.append(question.expected)
    return program.run(path, b"\n".join(sent)).answers == expected
