//! Scripts that each show a shortcut to be wrong which a faster full check might take. Lines are parted by blanks.

/// Two constructors with a field of another sort and a plain one; constants, a predicate of four places.
const RECORDS: &str = "sort=d sort=u ctor=1 ctor=1,2 ctor=1,2 fun=2 fun=2 fun=2 fun=0,1,1,1,1 fun=1 fun=1 close=1";
/// A constructor with two fields of another sort and a plain one; the rest alike.
const PAIRS: &str = "sort=d sort=u ctor=1 ctor=1,2,2 fun=2 fun=2 fun=2 fun=0,1,1,1,1 fun=1 fun=1 close=1";
/// Natural numbers.
const NUMBERS: &str = "sort=d ctor=1 ctor=1,1 fun=1 fun=1 fun=1 fun=0,1,1,1,1 close=1";

/// The shortcut, the declarations, the lines after them.
const SHORTCUTS: &[(&str, &str, &str)] = &[
    (
        "stopping at the first constructor clash met going up",
        RECORDS,
        "term=8 term=2,0 term=9 term=2,2 term=5,2 term=5,0 term=11,1,3,4,5 var=0,6 iface=1,5,0,1 iface=3,4,0,2 check=1",
    ),
    (
        "comparing an application with the one before it in its class",
        RECORDS,
        "term=8 term=2,0 term=9 term=2,2 term=5,0 term=11,1,3,4,4 var=0,5 iface=1,4,0,1 iface=3,1,0,2 check=1",
    ),
    (
        "injectivity when the higher application is met",
        PAIRS,
        "term=6 term=7 term=2,0,0 term=2,1,1 term=2,0,1 term=2,1,0 term=9,2,3,4,5 var=0,6 iface=2,5,0,0 iface=3,4,0,0 \
         check=1 term=4,3",
    ),
    (
        "all selectors of one application, then of the next",
        PAIRS,
        "term=6 term=7 term=2,0,0 term=2,1,1 term=9,2,3,3,3 var=0,4 iface=2,3,0,0 check=1 term=5,2",
    ),
    (
        "injectivity by the root of the class",
        PAIRS,
        "term=6 term=7 term=2,0,0 term=2,1,1 term=2,0,1 term=2,1,0 term=9,2,3,4,5 var=0,6 iface=5,2,0,0 iface=3,4,0,0 \
         check=1 term=4,3",
    ),
    (
        "injectivity over neighbours of a class only",
        PAIRS,
        "term=6 term=7 term=8 term=2,0,0 term=2,1,1 term=2,0,1 term=2,1,0 term=2,2,2 term=9,3,4,5,6 term=9,7,7,7,7 \
         var=0,8 var=1,9 iface=3,5,0,0 iface=5,7,0,0 iface=4,6,0,0 check=1 term=4,7",
    ),
    (
        "collapse on the lowest application only",
        RECORDS,
        "term=8 term=9 term=2,0 term=2,1 term=11,2,3,3,3 var=0,4 iface=2,3,0,0 check=1 var=1,7 equate=2 check=1",
    ),
    (
        "no selector made where the marked one equals the field already",
        RECORDS,
        "term=8 term=9 term=2,0 term=12 term=4,3 eq=4,0 var=0,5 term=11,2,2,2,2 var=1,6 iface=3,2,0,0 equate=0 check=1",
    ),
    (
        "collapse class by class",
        RECORDS,
        "term=8 term=9 term=2,0 term=2,1 term=12 term=13 term=4,5 term=4,4 eq=6,7 var=0,8 term=11,2,3,3,3 var=1,9 \
         iface=4,2,0,0 iface=5,3,0,0 check=1 term=4,3",
    ),
    ("datatype terms that are not marked counted for the fence", NUMBERS, "term=0 term=5 check=1"),
    ("one split for a class", NUMBERS, "term=5 term=6 eq=0,1 var=0,2 equate=0 check=1 check=1"),
    (
        "the ring walked from applications",
        NUMBERS,
        "term=5 term=6 term=2,1 term=2,0 eq=0,3 eq=1,2 var=0,4 var=1,5 equate=0 equate=2 check=1",
    ),
    (
        "the higher application explained to the lower",
        RECORDS,
        "term=8 term=2,0 term=9 term=2,2 term=5,0 term=12 term=11,1,3,4,5 var=0,6 iface=1,5,0,1 iface=4,5,0,2 check=1",
    ),
];

pub fn scripts() -> impl Iterator<Item = Vec<u8>> {
    SHORTCUTS.iter().map(|(_, declarations, lines)| {
        let words = declarations.split_whitespace().chain(lines.split_whitespace());
        words.flat_map(|line| [line, "\n"]).collect::<String>().into_bytes()
    })
}
