//! Scripts about question 10: which datatypes are inhabited, and what follows of them. Lines are parted by blanks.

use crate::session::MOST_SORTS;

/// What is shown, and the lines.
const SCRIPTS: &[(&str, &str)] = &[
    (
        "a route is a node over a list of routes",
        "sort=d sort=d ctor=1,2 ctor=2 ctor=2,1,2 fun=1 fun=2 close=1 term=9 term=10 term=0,1 eq=0,2 var=0,3 equate=0 \
         check=1 term=5,0,1 eq=1,6 var=1,7 push=1 equate=2 check=1 pop=0 term=3 eq=1,8 var=2,9 equate=4 check=1",
    ),
    (
        "four rounds, each datatype over the next one",
        "sort=d sort=d sort=d sort=d ctor=1,2 ctor=2,3 ctor=3,4 ctor=4 fun=1 close=1 term=11 term=9 term=6,1 term=3,2 \
         term=0,3 eq=0,4 var=0,5 check=1 equate=0 check=1 check=1",
    ),
    (
        "four rounds, each datatype over the one before",
        "sort=d sort=d sort=d sort=d ctor=1,0 ctor=2,1 ctor=3,2 ctor=4,3 fun=4 close=1 term=12 term=10,0 var=0,1 \
         assert=0 check=1 check=1 check=1",
    ),
    (
        "two datatypes found in one round and one over both",
        "sort=d sort=d sort=d ctor=2,1,3 ctor=1 ctor=3,0 fun=2 close=1 term=9 term=1,0 var=0,1 assert=0 check=1 \
         check=1",
    ),
    (
        "five datatypes, each over the next one, one with a plain constructor",
        "sort=d sort=d sort=d sort=d sort=d ctor=1,2 ctor=2,3 ctor=3,4 ctor=4,5 ctor=5,1 ctor=3 fun=1 close=1 term=17 \
         term=15 term=3,1 term=0,2 term=12,3 term=9,4 term=6,5 eq=1,6 eq=0,3 var=0,7 var=1,8 equate=2 check=1 equate=0 \
         check=1",
    ),
    (
        "the same without the plain constructor: refused, repaired and closed",
        "sort=d sort=d sort=d sort=d sort=d ctor=1,2 ctor=2,3 ctor=3,4 ctor=4,5 ctor=5,1 fun=1 fun=0 close=1 check=1 \
         ctor=4,4 close=1 ctor=4,0 close=1 close=1 term=16 term=20,0 term=6,1 term=3,2 term=0,3 term=15 eq=4,5 var=0,6 \
         check=1 equate=0 check=1",
    ),
    (
        "five datatypes in a ring: a ring of terms through all of them",
        "sort=d sort=d sort=d sort=d sort=d ctor=5 ctor=5,1 ctor=4,5 ctor=3,4 ctor=2,3 ctor=1,2 fun=1 close=1 term=17 \
         term=2,0 term=5,1 term=8,2 term=11,3 term=14,4 eq=0,5 var=0,6 equate=0 check=1",
    ),
    ("two datatypes over each other", "sort=d sort=d ctor=1,2 ctor=2,1 close=1 ctor=2,0 close=1 check=1"),
    (
        "three datatypes over each other, the first over two",
        "sort=d sort=d sort=d ctor=1,2,3 ctor=2,3 ctor=3,1 close=1 ctor=3 close=1 term=10 term=4,0 \
         term=0,1,0 term=7,2 eq=0,3 var=0,4 check=1 equate=0 check=1",
    ),
    (
        "one datatype over itself among others that are inhabited",
        "sort=d sort=d sort=d ctor=1 ctor=2,2 ctor=2,2,1 ctor=3,1 close=1 ctor=2,3,3 close=1 term=0 term=9,0 \
         term=12,1,1 term=2,2 eq=2,3 var=0,4 check=1 equate=0 check=1",
    ),
    ("a datatype without constructors", "sort=d close=1 ctor=1 close=1 term=0"),
    ("the last of two without constructors", "sort=d sort=d ctor=1 close=1 ctor=2,2 close=1 ctor=2,1 close=1 check=1"),
    ("the first of two without constructors", "sort=d sort=d ctor=2 close=1 ctor=1,2 close=1 term=0 term=2,0"),
    ("a field of a datatype without constructors", "sort=d sort=d ctor=1 ctor=1,2 close=1 ctor=2,1 close=1 check=1"),
    ("a constant is no constructor", "sort=d fun=1 fun=1,0 close=1 ctor=1,0 close=1 term=0 term=3,0"),
    ("a selector is no constructor", "sort=d sort=d ctor=1,2 close=1 ctor=2,1 close=1 ctor=1,0 close=1 check=1"),
    (
        "fields of Bool and of another sort",
        "sort=d sort=u sort=d ctor=1,0,2 ctor=3,0,1,2 fun=2 fun=3 close=1 term=10 term=5,0 var=0,1 assert=0 check=1",
    ),
    (
        "a datatype with one constructor over itself and one over an inhabited datatype",
        "sort=d sort=d ctor=1,1 ctor=1,2 ctor=2,0 fun=1 close=1 term=9 term=1,0 var=0,1 assert=0 check=1 check=1 \
         check=1 check=1",
    ),
    (
        "a field of a datatype that only its second constructor makes inhabited",
        "sort=d sort=d ctor=1,2 ctor=2,2,1 ctor=2,0 fun=1 fun=2 fun=0 close=1 term=10 term=11 term=0,1 eq=0,2 term=12 \
         term=7,4 eq=1,5 term=3,1,0 eq=1,7 var=0,3 equate=0 check=1 var=1,6 push=1 equate=2 check=1 pop=0 var=2,8 \
         equate=4 check=1",
    ),
    ("no datatype", "sort=u fun=1 close=1 term=0 check=1"),
];

pub fn scripts() -> impl Iterator<Item = Vec<u8>> {
    SCRIPTS.iter().map(|(_, lines)| script(lines.split_whitespace())).chain([longest_chain()])
}

fn script<'a>(lines: impl Iterator<Item = &'a str>) -> Vec<u8> {
    lines.flat_map(|line| [line, "\n"]).collect::<String>().into_bytes()
}

/// As many datatypes as there may be, each over the next one; the last gets a plain constructor when `close` was
/// refused.
fn longest_chain() -> Vec<u8> {
    let last = MOST_SORTS - 1;
    let mut lines = vec!["sort=d".to_string(); last];
    lines.extend((1..last).map(|sort| format!("ctor={sort},{}", sort + 1)));
    let (constant, plain) = (3 * (last - 1), 3 * (last - 1) + 1);
    lines.extend(["fun=1".into(), "close=1".into(), format!("ctor={last}"), "close=1".into()]);
    lines.push(format!("term={plain}"));
    lines.extend((1..last).map(|above| format!("term={},{}", 3 * (last - 1 - above), above - 1)));
    lines.push(format!("term={constant}"));
    lines.push(format!("eq={},{last}", last - 1));
    lines.push(format!("var=0,{}", last + 1));
    lines.extend(["check=1".into(), "equate=0".into(), "check=1".into(), "check=1".into()]);
    script(lines.iter().map(String::as_str))
}
