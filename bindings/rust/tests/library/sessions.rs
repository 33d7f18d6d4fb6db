//! Sessions beside each other: clones, threads, turns.

use crate::scripts::{lines, read};
use robinlocker::{Answer, Leaf, Line, Question, Session, Var};
use std::thread;

/// The sample sheet up to where nothing says yet what its message is.
fn prepared() -> Session {
    let mut session = Session::new();
    let sheet = read("crates/robinlocker/stdin");
    for line in lines(&sheet).take_while(|line| *line != b"push=1") {
        session.line(line);
    }
    session
}

/// Merges and checks.
fn holds(session: &mut Session, var: u16) -> Answer {
    assert_eq!(session.send(&Line::Equate(Var(var).positive())), Answer::Ok);
    session.send(&Line::Check { full: true })
}

fn conflict(vars: [u16; 2]) -> Answer {
    Answer::Conflict(vars.map(|var| Leaf::Asserted(Var(var).positive())).to_vec())
}

#[test]
fn a_clone_goes_its_own_way() {
    let mut one = prepared();
    assert_eq!(holds(&mut one, 0), Answer::Sat);
    let mut other = one.clone();
    assert_eq!(holds(&mut other, 2), conflict([0, 2]));
    assert_eq!(one.send(&Line::Check { full: true }), Answer::Sat);
    one.close();
    assert_eq!(other.send(&Line::Check { full: true }), conflict([0, 2]));
}

#[test]
fn a_session_goes_to_another_thread() {
    let mut session = prepared();
    let mut answered = thread::spawn(move || (holds(&mut session, 0), session)).join().expect("the thread ends well");
    assert_eq!(answered.0, Answer::Sat);
    assert_eq!(holds(&mut answered.1, 2), conflict([0, 2]));
}

#[test]
fn threads_run_sessions_of_their_own_at_the_same_time() {
    let (sheet, answers) = (read("crates/robinlocker/stdin"), read("crates/robinlocker/stdout"));
    thread::scope(|scope| {
        for _ in 0..4 {
            scope.spawn(|| {
                let mut session = Session::default();
                for (line, answer) in lines(&sheet).zip(lines(&answers)) {
                    assert_eq!(session.line(line).to_string().as_bytes(), answer);
                }
            });
        }
    });
}

#[test]
fn two_sessions_take_turns() {
    let (sheet, answers) = (read("crates/robinlocker/stdin"), read("crates/robinlocker/stdout"));
    let (mut one, mut other) = (Session::new(), Session::new());
    for (line, answer) in lines(&sheet).zip(lines(&answers)) {
        assert_eq!(one.line(line).to_string().as_bytes(), answer);
        assert_eq!(other.line(b"sort=d").to_string(), "ok=1");
    }
}

#[test]
fn a_session_goes_on_past_the_bytes_of_a_script() {
    let mut session = Session::new();
    assert_eq!(session.send(&Line::Close), Answer::Ok);
    for _ in 0..6_000 {
        assert_eq!(session.send(&Line::Push), Answer::Ok);
        assert_eq!(session.send(&Line::Pop(0)), Answer::Ok);
    }
}

/// Zero and its successor are one, by a chain of terms: each link is a leaf.
#[test]
fn a_conflict_may_have_a_thousand_leaves() {
    let mut session = Session::new();
    for line in ["sort=d", "ctor=1", "ctor=1,1", "fun=1,1", "close=1", "term=0", "term=2,0", "term=5,0"] {
        session.line(line.as_bytes());
    }
    for term in 2..1_000 {
        assert_eq!(session.send(&Line::Term { symbol: 5, arguments: vec![term] }), Answer::Term(term + 1));
    }
    assert_eq!(session.send(&Line::Eq(0, 1)), Answer::Term(1_001));
    assert_eq!(session.send(&Line::Var { var: Var(0), atom: 1_001 }), Answer::Ok);
    let chain: Vec<u32> = [0].into_iter().chain(2..=1_000).chain([1]).collect();
    let leaf = |place: usize| (u16::MAX, u32::MAX - place as u32);
    for (place, link) in chain.windows(2).enumerate() {
        let (theory, tag) = leaf(place);
        assert_eq!(session.send(&Line::Iface { left: link[0], right: link[1], theory, tag }), Answer::Ok);
    }
    let leaves = (0..1_000).map(leaf).map(|(theory, tag)| Leaf::Interface { theory, tag });
    assert_eq!(session.send(&Line::Check { full: true }), Answer::Conflict(leaves.collect()));
}

/// Each floor of a tower of terms is merged with the next because the two below are: explaining the top takes the most stack known.
fn explain_a_tower() -> Answer {
    let mut session = Session::new();
    for line in ["sort=d", "ctor=1", "ctor=1,1", "fun=1", "fun=1,1", "close=1", "term=5"] {
        session.line(line.as_bytes());
    }
    let merge = |left, right, tag| Line::Iface { left, right, theory: 0, tag };
    let floors = (0..1_020).map(|below| Line::Term { symbol: 6, arguments: vec![below] });
    let merges = (1..1_020).map(|floor| Line::Cong(floor, floor + 1));
    let zero = Line::Term { symbol: 0, arguments: vec![] };
    let one = Line::Term { symbol: 2, arguments: vec![1_021] };
    let watched = [zero, one, Line::Eq(1_021, 1_022), Line::Var { var: Var(0), atom: 1_023 }];
    let clash = [merge(1_021, 1_019, 1), merge(1_022, 1_020, 2)];
    for line in floors.chain([merge(0, 1, 0)]).chain(merges).chain(watched).chain(clash) {
        assert!(!matches!(session.send(&line), Answer::Refused(_)), "{line}");
    }
    session.send(&Line::Check { full: true })
}

#[test]
fn a_thread_of_one_mebibyte_has_stack_enough() {
    let thread = thread::Builder::new().stack_size(1 << 20).spawn(explain_a_tower).expect("the thread starts");
    let leaves = [1, 0, 2].map(|tag| Leaf::Interface { theory: 0, tag });
    assert_eq!(thread.join().expect("the thread ends well"), Answer::Conflict(leaves.to_vec()));
}

#[test]
fn a_session_says_when_a_level_does_not_fit() {
    let mut session = Session::new();
    assert_eq!(session.send(&Line::Close), Answer::Ok);
    for _ in 0..robinlocker::limits().levels {
        assert_eq!(session.send(&Line::Push), Answer::Ok);
    }
    assert_eq!(session.send(&Line::Push), Answer::Refused(Question::Fits));
}

#[test]
fn its_memory_is_not_shown() {
    assert_eq!(format!("{:?}", Session::new()), "Session { .. }");
}
