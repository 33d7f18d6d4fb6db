//! Scripts about unequal terms: when they conflict, what is cited, what the record keeps and which lines are refused.
//! Lines are parted by blanks.

/// Natural numbers and another sort. Symbols: 0 zero, 2 successor, 1 and 3 their testers, 4 the predecessor; 5 to 7
/// constants and 8 a function of numbers, 9 and 10 constants of the other sort, 11 and 12 of Bool, 13 a predicate.
const DECLARATIONS: &str =
    "sort=d sort=u ctor=1 ctor=1,1 fun=1 fun=1 fun=1 fun=1,1 fun=2 fun=2 fun=0 fun=0 fun=0,1,1 close=1";

/// What is shown, and the lines after the declarations.
const SCRIPTS: &[(&str, &str)] = &[
    ("equal by `equate`, after the line", "term=5 term=6 eq=0,1 var=0,2 differ=1 check=1 equate=0 check=1"),
    ("equal before the line, which is no conflict yet", "term=5 term=6 eq=0,1 var=0,2 equate=0 differ=1 check=0 check=1"),
    ("equal by `iface`", "term=5 term=6 eq=0,1 var=0,2 differ=1 iface=1,0,7,9 check=1"),
    (
        "equal by `cong`, the arguments by an equation",
        "term=5 term=6 term=8,0 term=8,1 eq=2,3 eq=0,1 var=0,4 var=1,5 differ=1 equate=2 check=1 cong=2,3 check=1",
    ),
    (
        "equal by all three in several steps, with a leaf that comes twice",
        "term=5 term=6 term=7 term=8,0 term=8,1 term=8,4 eq=3,5 eq=0,1 var=0,6 var=1,7 iface=4,2,1,1 equate=2 cong=3,4 \
         differ=1 iface=5,2,1,1 check=1",
    ),
    (
        "the first side explained to the second, whichever is first",
        "term=5 term=6 term=7 eq=0,2 eq=2,0 var=0,3 var=1,4 iface=0,1,0,1 iface=2,1,0,2 push=1 differ=1 check=1 pop=0 \
         differ=3 check=1",
    ),
    (
        "the same with three leaves on one side and two on the other",
        "term=5 term=6 term=7 term=8,0 term=8,1 term=8,2 eq=0,4 eq=4,0 var=0,6 var=1,7 iface=0,1,0,1 iface=1,2,0,2 \
         iface=2,3,0,3 iface=4,5,0,4 iface=5,3,0,5 push=1 differ=3 check=1 pop=0 differ=1 differ=3 check=1",
    ),
    (
        "cited though its own equation joined the sides, by either variable",
        "term=5 term=6 eq=0,1 var=0,2 var=1,2 differ=1 equate=2 check=1 differ=3 check=1",
    ),
    (
        "the first entry by lines, which is not the lowest",
        "term=5 term=6 term=7 eq=0,1 eq=1,2 eq=0,2 var=0,3 var=1,4 var=2,5 differ=5 differ=1 differ=3 equate=0 check=1 \
         equate=2 check=1",
    ),
    (
        "two variables of one atom are two entries, the first by lines is cited",
        "term=5 term=6 eq=0,1 var=3,2 var=1,2 push=1 differ=3 push=1 differ=7 iface=0,1,0,0 check=1 pop=0 differ=7 \
         differ=3 iface=0,1,0,0 check=1",
    ),
    (
        "one variable's entry is popped and the other's stays",
        "term=5 term=6 eq=0,1 var=0,2 var=1,2 push=1 differ=3 push=1 differ=1 pop=1 iface=0,1,0,0 check=1 pop=0 \
         differ=1 iface=0,1,0,0 check=1",
    ),
    ("the entry is popped", "term=5 term=6 eq=0,1 var=0,2 equate=0 push=1 differ=1 check=1 pop=0 check=1"),
    ("the equality is popped", "term=5 term=6 eq=0,1 var=0,2 differ=1 push=1 equate=0 check=1 pop=0 check=1 equate=0 check=1"),
    ("a pop to the entry's own level keeps it", "term=5 term=6 eq=0,1 var=0,2 push=1 differ=1 push=1 pop=1 equate=0 check=1"),
    (
        "a pop above the level changes nothing",
        "term=5 term=6 eq=0,1 var=0,2 push=1 differ=1 equate=0 pop=1 check=1 pop=9 check=1",
    ),
    (
        "said twice at one level, then popped",
        "term=5 term=6 eq=0,1 var=0,2 equate=0 push=1 differ=1 differ=1 check=1 pop=0 check=1",
    ),
    (
        "said again at a higher level: it stays where it was, and goes with its first level",
        "term=5 term=6 eq=0,1 var=0,2 equate=0 push=1 differ=1 push=1 differ=1 pop=1 check=1 pop=0 check=1",
    ),
    (
        "said again at a higher level: its place is that of the first line",
        "term=5 term=6 term=7 eq=0,1 eq=0,2 var=0,3 var=1,4 differ=3 differ=1 push=1 differ=3 equate=0 equate=2 check=1 \
         pop=0 equate=2 equate=0 check=1",
    ),
    (
        "said again after a pop: it stands at the end",
        "term=5 term=6 term=7 eq=0,1 eq=0,2 var=0,3 var=1,4 push=1 differ=1 pop=0 differ=3 differ=1 equate=0 equate=2 \
         check=1",
    ),
    (
        "a negative literal by `assert` is in no record, before and after `differ`",
        "term=5 term=6 eq=0,1 var=0,2 assert=1 equate=0 check=1 push=1 differ=1 check=1 pop=0 assert=1 check=1",
    ),
    (
        "an unequal atom may be asserted and equated",
        "term=0 term=2,0 eq=0,1 var=0,2 differ=1 assert=0 check=1 equate=0 check=1",
    ),
    ("sides of Bool: nothing is marked", "term=11 term=12 eq=0,1 var=0,2 check=1 differ=1 check=1 iface=1,0,0,0 check=1"),
    (
        "sides of another sort: nothing is marked",
        "term=9 term=10 eq=0,1 var=0,2 differ=1 push=1 equate=0 check=1 pop=0 check=1",
    ),
    (
        "sides that are equations themselves",
        "term=11 term=12 term=9 term=10 eq=0,1 eq=2,3 eq=5,4 var=0,6 differ=1 iface=4,0,0,4 check=1 iface=5,0,0,5 check=1",
    ),
    (
        "sides that are congruent equations",
        "term=5 term=6 eq=0,1 eq=1,0 eq=2,3 var=0,4 differ=1 iface=0,1,0,3 check=1 cong=2,3 check=1",
    ),
    (
        "two predicates that are congruent, no number has a constructor",
        "term=5 term=6 term=13,0,1 term=13,1,0 eq=2,3 var=0,4 differ=1 check=1 iface=0,1,0,3 cong=2,3 check=1",
    ),
    (
        "after constructor clash, tester clash and negative testers, each popped in turn",
        "term=5 term=6 term=0 term=2,1 eq=0,1 eq=0,2 eq=1,3 term=1,0 term=3,0 var=0,4 var=1,5 var=2,6 var=3,7 var=4,8 \
         differ=1 iface=0,1,0,1 check=1 equate=2 push=1 assert=7 check=1 push=1 assert=8 check=1 push=1 equate=4 check=1 \
         pop=2 check=1 pop=1 check=1 pop=0 check=1",
    ),
    (
        "after a negative tester that a later line asserts",
        "term=5 term=6 term=0 eq=0,1 eq=0,2 term=1,0 var=0,3 var=1,4 var=2,5 differ=1 assert=5 iface=1,0,3,3 push=1 \
         equate=2 check=1 pop=0 check=1",
    ),
    (
        "before injectivity: no selector is made",
        "term=5 term=6 term=2,0 term=2,1 eq=2,3 var=0,4 push=1 equate=0 differ=1 check=1 term=4,3 pop=0 equate=0 check=1 \
         term=4,2",
    ),
    (
        "before collapse and tester lemma",
        "term=5 term=6 term=2,1 term=4,0 eq=0,2 eq=3,1 term=3,0 var=0,4 var=1,5 var=2,6 equate=0 push=1 differ=1 check=1 \
         pop=0 check=1 differ=1 check=1",
    ),
    (
        "before instantiation and exhaustiveness",
        "term=5 term=6 term=3,0 eq=0,1 var=0,2 var=1,3 assert=0 push=1 differ=3 equate=2 check=1 pop=0 check=1",
    ),
    (
        "before the ring",
        "term=5 term=2,0 eq=0,1 var=0,2 equate=0 push=1 differ=1 check=1 pop=0 check=1",
    ),
    (
        "before the fence, which comes when the terms were split on",
        "term=5 term=6 eq=0,1 var=0,2 check=1 check=1 check=1 differ=1 check=1 iface=0,1,0,0 check=1",
    ),
    (
        "sides that are never equal: the check goes on to the end",
        "term=0 term=2,0 eq=0,1 var=0,2 differ=1 check=1 check=1",
    ),
    (
        "refused by 3: no number, two numbers, a leading zero, a number too large; later keys are not known",
        "term=5 term=6 eq=0,1 var=0,2 equate=0 differ= differ=1,1 differ=01 differ=4294967297 differ Differ=1 check=1 \
         model=1 shrink=1 count=1,1 why=0,1 who=0 sweep=1 splits=1 check=1",
    ),
    (
        "refused by 5: the variable is not registered, of either sign",
        "term=5 term=6 eq=0,1 var=0,2 equate=0 differ=3 differ=2 differ=4294967295 differ=2048 check=1",
    ),
    (
        "refused by 13: a positive literal, a tester, a predicate, a constant of Bool",
        "term=5 term=6 eq=0,1 term=1,0 term=13,0,1 term=11 var=0,2 var=1,3 var=2,4 var=3,5 equate=0 differ=0 differ=3 \
         differ=2 differ=5 differ=4 differ=7 check=1 differ=1 check=1",
    ),
];

/// Refused by 4, before the `close` that is accepted; after it by 5 as long as nothing is registered.
const EARLY: &str = "differ=1 sort=d differ=0 close=1 differ=1 ctor=1 differ=1 close=1 differ=1 differ=0";

pub fn scripts() -> impl Iterator<Item = Vec<u8>> {
    let after = SCRIPTS.iter().map(|(_, lines)| format!("{DECLARATIONS} {lines}"));
    after.chain([EARLY.to_string()]).map(|lines| script(&lines))
}

fn script(lines: &str) -> Vec<u8> {
    lines.split_whitespace().flat_map(|line| [line, "\n"]).collect::<String>().into_bytes()
}
