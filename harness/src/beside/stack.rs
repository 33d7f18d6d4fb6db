//! The deepest use of the stack by the library: the stack below a call is filled with a pattern, and what the call
//! has overwritten is looked for afterwards.

use crate::library::{self, Lent, Way};
use crate::shapes::Shape;
use oracle::generate::{self, Kind};
use oracle::run;

/// The stack of the measuring thread, and how much of it is filled.
const STACK: usize = 16 << 20;
const FILLED: usize = 8 << 20;
/// Bytes right below the caller's frame that are left alone, for the frame of the filling function itself.
const GAP: usize = 1_024;
const PATTERN: u8 = 0xa5;
/// Generated scripts for the last row.
const GENERATED: u64 = 3_000;

/// Prints the bytes of stack for the scripts that go deepest.
pub fn stack() -> bool {
    let rows: [(&str, Vec<u8>); 6] = [
        ("an empty script", Vec::new()),
        ("a term nested 1,023 deep, collected", nested_terms()),
        ("1,019 congruences nested, explained", nested_congruences()),
        ("two towers of 490 congruences, explained", towers()),
        ("a ring of 330 with a leaf for each join", ring()),
        ("a chain of 480 constants with a leaf for each join", chain()),
    ];
    println!("| script | bytes of stack, sent whole | line by line |\n|---|---:|---:|");
    for (name, script) in rows {
        print_row(name, &[script]);
    }
    let generated: Vec<Vec<u8>> = (0..GENERATED).map(|seed| generate::script(Kind::Any, seed)).collect();
    print_row(&format!("{GENERATED} generated scripts, the most"), &generated);
    true
}

fn print_row(name: &str, scripts: &[Vec<u8>]) {
    let [whole, line_by_line] = [Way::Whole, Way::LineByLine].map(|way| used_by(way, scripts.to_vec()));
    println!("| {name} | {whole} | {line_by_line} |");
}

fn used_by(way: Way, scripts: Vec<Vec<u8>>) -> usize {
    let measuring = move || {
        let mut lent = Lent::new(run::MOST_OUTPUT);
        scripts.iter().map(|script| used_by_run(way, script, &mut lent)).max().unwrap_or(0)
    };
    let thread = std::thread::Builder::new().stack_size(STACK).spawn(measuring).expect("a thread");
    thread.join().expect("the measuring thread")
}

/// The bytes between this function's frame and the deepest that the run has written.
#[inline(never)]
fn used_by_run(way: Way, script: &[u8], lent: &mut Lent) -> usize {
    let here = std::hint::black_box(0u8);
    let top = std::ptr::from_ref(&here).addr();
    fill(top);
    std::hint::black_box(library::answer(way, script, lent));
    top - lowest_changed(top)
}

#[inline(never)]
fn fill(top: usize) {
    for address in top - FILLED..top - GAP {
        // SAFETY: the address lies in this thread's stack, below every frame in use.
        unsafe { std::ptr::with_exposed_provenance_mut::<u8>(address).write_volatile(PATTERN) };
    }
}

#[inline(never)]
fn lowest_changed(top: usize) -> usize {
    // SAFETY: the address lies in this thread's stack, which `fill` has written.
    let changed =
        |address: usize| unsafe { std::ptr::with_exposed_provenance::<u8>(address).read_volatile() != PATTERN };
    let mut address = top - FILLED;
    while address < top - GAP && !changed(address) {
        address += 1;
    }
    address
}

/// The predicate over 1,023 nested terms; the table is full.
fn nested_terms() -> Vec<u8> {
    let mut shape = Shape::numbers();
    let tower = shape.tower(6, 1_023);
    shape.watch(tower[1_022]);
    shape.script()
}

/// Each floor of one tower is joined with the next by congruence of the two floors below: as many nested explanations
/// as the table has room for. The ends of the last edge clash.
fn nested_congruences() -> Vec<u8> {
    let mut shape = Shape::numbers();
    let tower = shape.tower(6, 1_021);
    shape.w.numbers("iface", &[tower[0], tower[1], 0, 0]);
    for two in tower.windows(2).skip(1) {
        shape.w.numbers("cong", two);
    }
    let zero = shape.w.term("term", &[0]).expect("zero");
    let one = shape.w.term("term", &[2, zero]).expect("its successor");
    shape.register_equation(zero, one);
    shape.w.numbers("iface", &[zero, tower[1_019], 0, 1]);
    shape.w.numbers("iface", &[one, tower[1_020], 0, 2]);
    shape.checks(1);
    shape.script()
}

fn towers() -> Vec<u8> {
    let mut shape = Shape::numbers();
    shape.towers_joined(490, true);
    shape.checks(1);
    shape.script()
}

fn ring() -> Vec<u8> {
    let mut shape = Shape::numbers();
    shape.ring(330, true, 100_000);
    shape.checks(1);
    shape.script()
}

fn chain() -> Vec<u8> {
    let mut shape = Shape::constants(480);
    let members: Vec<usize> = (0..480).collect();
    shape.join_in_a_row(&members, true, 100_000);
    shape.clash_between(members[0], members[479]);
    shape.checks(1);
    shape.script()
}
