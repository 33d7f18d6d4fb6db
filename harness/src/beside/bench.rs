//! The library and the published solver on the same scripts in one run: CPU time, by family.

use crate::clock;
use crate::families::{self, Family, Script};
use crate::growth;
use crate::library::{self, Lent};
use crate::plot;
use oracle::run::{self, Right, Source};
use std::fmt::Write as _;
use std::path::Path;

/// The goals: the geometric mean of the families' ratios, the ratio of each family and of each script at least these.
const LEAST_MEAN: f64 = 20.0;
const LEAST_FAMILY: f64 = 2.5;
const LEAST_SCRIPT: f64 = 1.0;
/// The exponent of a full check in terms at most this.
const MOST_EXPONENT: f64 = 1.15;

struct Measured {
    name: String,
    lines: usize,
    /// Seconds for a run.
    rust: f64,
    library: f64,
}

impl Measured {
    fn ratio(&self) -> f64 {
        self.rust / self.library
    }
}

/// Panics unless both give the script the same answers, and if it has a negative tester or unequal terms, which the
/// published Rust is not given. Returns how many lines were answered.
pub fn hold_to_the_rust(name: &str, script: &[u8]) -> usize {
    let mut lent = Lent::new(run::MOST_OUTPUT);
    let Right { run: expected, source, .. } = run::right(script, run::MOST_OUTPUT);
    assert!(source == Source::Rust, "{name}: the published Rust is not given this");
    let ran = library::run(script, &mut lent);
    let same = ran.result == expected.result
        && ran.lines == expected.lines
        && lent.output[..ran.bytes] == expected.output[..]
        && lent.tables_are_zero();
    assert!(same, "{name}: the answers differ");
    ran.lines
}

/// Both are measured by turns, each for at least so many seconds in a round.
fn measure(script: &Script, least: f64) -> Measured {
    let bytes = &script.bytes;
    let lines = hold_to_the_rust(&script.name, bytes);
    let mut lent = Lent::new(run::MOST_OUTPUT);
    let (rust, library) = clock::by_turns(
        least,
        || {
            std::hint::black_box(run::by_rust(bytes, run::MOST_OUTPUT));
        },
        || {
            std::hint::black_box(library::run(bytes, &mut lent));
        },
    );
    Measured { name: script.name.clone(), lines, rust, library }
}

struct FamilyMeasured {
    kind: Option<&'static str>,
    name: &'static str,
    what: &'static str,
    scripts: Vec<Measured>,
}

impl FamilyMeasured {
    fn of(family: &Family, least: f64) -> FamilyMeasured {
        let scripts = family.scripts.iter().map(|script| measure(script, least)).collect();
        FamilyMeasured { kind: family.kind, name: family.name, what: family.what, scripts }
    }

    fn lines(&self) -> usize {
        self.scripts.iter().map(|script| script.lines).sum()
    }

    fn rust(&self) -> f64 {
        self.scripts.iter().map(|script| script.rust).sum()
    }

    fn library(&self) -> f64 {
        self.scripts.iter().map(|script| script.library).sum()
    }

    fn ratio(&self) -> f64 {
        self.rust() / self.library()
    }

    fn lowest(&self) -> &Measured {
        self.scripts.iter().min_by(|a, b| a.ratio().total_cmp(&b.ratio())).expect("a family has scripts")
    }

    fn row(&self) -> String {
        let per_line = 1e9 / self.lines() as f64;
        let lowest = self.lowest();
        format!(
            "| {} | {} | {} | {} | {:.0} | {:.0} | {} | {} ({}) |",
            self.name,
            self.what,
            self.scripts.len(),
            self.lines(),
            self.rust() * per_line,
            self.library() * per_line,
            times(self.ratio()),
            times(lowest.ratio()),
            lowest.name
        )
    }
}

pub fn times(ratio: f64) -> String {
    if ratio < 10.0 {
        format!("{ratio:.2}")
    } else {
        format!("{ratio:.0}")
    }
}

fn geometric_mean(ratios: impl Iterator<Item = f64>) -> f64 {
    let logs: Vec<f64> = ratios.map(f64::ln).collect();
    (logs.iter().sum::<f64>() / logs.len() as f64).exp()
}

/// A kind of sheet that the goals name: the families that belong to it, and the times of all their scripts.
struct KindMeasured {
    name: &'static str,
    families: Vec<&'static str>,
    rust: f64,
    library: f64,
}

impl KindMeasured {
    fn ratio(&self) -> f64 {
        self.rust / self.library
    }

    fn row(&self) -> String {
        format!("| {} | {} | {} |", self.name, self.families.join(", "), times(self.ratio()))
    }
}

/// The kinds in the order of their first families; growth is one more, with the time of one check of each shape and size.
fn kinds(families: &[FamilyMeasured], grown: &[growth::Growth]) -> Vec<KindMeasured> {
    let mut kinds: Vec<KindMeasured> = Vec::new();
    for family in families {
        let Some(name) = family.kind else { continue };
        if !kinds.iter().any(|kind| kind.name == name) {
            kinds.push(KindMeasured { name, families: Vec::new(), rust: 0.0, library: 0.0 });
        }
        let kind = kinds.iter_mut().find(|kind| kind.name == name).expect("it was pushed");
        kind.families.push(family.name);
        kind.rust += family.rust();
        kind.library += family.library();
    }
    let points = || grown.iter().flat_map(|growth| &growth.points);
    kinds.push(KindMeasured {
        name: "growth",
        families: grown.iter().map(|growth| growth.name).collect(),
        rust: points().map(|point| point.rust).sum(),
        library: points().map(|point| point.library).sum(),
    });
    kinds
}

/// Measures all families and the growth, each script for at least so many milliseconds a round and side; prints the
/// report, and leaves it with the plot and the times of each script in the folder.
pub fn bench(milliseconds: f64, folder: &Path) -> bool {
    let least = milliseconds / 1_000.0;
    let mut measured = Vec::new();
    for family in families::all() {
        let family = FamilyMeasured::of(&family, least);
        eprintln!("{}", family.row());
        measured.push(family);
    }
    let grown = growth::measure(least);
    let report = report(&measured, &grown, zeroing(least));
    print!("{report}");
    write(folder, "report.md", &report);
    write(folder, "scripts.md", &each_script(&measured));
    write(folder, "performance.svg", &plot::plot(&grown));
    true
}

/// Seconds that it takes to write 0 to each word of three work tables, as every run has to.
fn zeroing(least: f64) -> f64 {
    let mut tables = vec![0u32; 3 * library::TABLE_WORDS];
    clock::alone(least, || {
        tables.fill(0);
        std::hint::black_box(&mut tables);
    })
}

/// Measures one family and prints the times of each script.
pub fn bench_family(name: &str, milliseconds: f64) -> Option<bool> {
    let family = families::all().into_iter().find(|family| family.name == name)?;
    print!("{}", each_script(&[FamilyMeasured::of(&family, milliseconds / 1_000.0)]));
    Some(true)
}

fn write(folder: &Path, name: &str, text: &str) {
    std::fs::write(folder.join(name), text).expect("a folder to write to");
}

fn report(families: &[FamilyMeasured], grown: &[growth::Growth], zeroing: f64) -> String {
    let mut text = String::from(
        "| family | what | scripts | lines | Rust, ns a line | library, ns a line | ratio | lowest ratio, of script |\n\
         |---|---|---:|---:|---:|---:|---:|---|\n",
    );
    for family in families {
        let _ = writeln!(text, "{}", family.row());
    }
    let mean = geometric_mean(families.iter().map(FamilyMeasured::ratio));
    let _ = writeln!(text, "\nGeometric mean over all families: {}\n", times(mean));
    let kinds = kinds(families, grown);
    text += "| kind of sheet | families | ratio |\n|---|---|---:|\n";
    for kind in &kinds {
        let _ = writeln!(text, "{}", kind.row());
    }
    let over_kinds = geometric_mean(kinds.iter().map(KindMeasured::ratio));
    let without_growth = geometric_mean(kinds.iter().filter(|kind| kind.name != "growth").map(KindMeasured::ratio));
    let _ = writeln!(
        text,
        "\nGeometric mean over the kinds of sheet: {}; without growth: {}\n",
        times(over_kinds),
        times(without_growth)
    );
    let _ = writeln!(text, "Writing 0 to the words of three tables, which every run does: {:.1} µs\n", zeroing * 1e6);
    text += &growth::table(grown);
    text += "\n";
    text += &verdicts(families, grown, mean, zeroing);
    text
}

/// Scripts that take the Rust less time than the zeroing, which only the library has to do, are listed apart.
fn verdicts(families: &[FamilyMeasured], grown: &[growth::Growth], mean: f64, zeroing: f64) -> String {
    let slow_families = families
        .iter()
        .filter(|family| family.ratio() < LEAST_FAMILY)
        .map(|family| format!("{}: {}", family.name, times(family.ratio())));
    let slower = |short: bool| {
        families.iter().flat_map(move |family| {
            let slow = family.scripts.iter().filter(|script| script.ratio() < LEAST_SCRIPT);
            let slow = slow.filter(move |script| (script.rust < zeroing) == short);
            slow.map(|script| format!("{}, {}: {}", family.name, script.name, times(script.ratio())))
        })
    };
    let steep = grown
        .iter()
        .filter(|growth| growth.library_exponent() > MOST_EXPONENT)
        .map(|growth| format!("{}: {:.2}", growth.name, growth.library_exponent()));
    let low_mean = (mean < LEAST_MEAN).then(|| times(mean));
    verdict(&format!("geometric mean at least {LEAST_MEAN}"), low_mean.into_iter())
        + &verdict(&format!("each family at least {LEAST_FAMILY}"), slow_families)
        + &verdict("no script slower than the Rust", slower(false))
        + &verdict(&format!("exponent at most {MOST_EXPONENT}"), steep)
        + "- Slower, but the Rust takes less time for them than the zeroing of the tables:\n"
        + &listed(slower(true))
}

/// A goal is met unless something falls short of it.
fn verdict(goal: &str, short: impl Iterator<Item = String>) -> String {
    let short = listed(short);
    format!("- {}: {goal}\n{short}", if short.is_empty() { "PASS" } else { "FAIL" })
}

fn listed(items: impl Iterator<Item = String>) -> String {
    items.map(|what| format!("  - {what}\n")).collect()
}

fn each_script(families: &[FamilyMeasured]) -> String {
    let mut text = String::from(
        "| family | script | lines | Rust, µs | library, µs | ratio |\n\
         |---|---|---:|---:|---:|---:|\n",
    );
    for family in families {
        for script in &family.scripts {
            let _ = writeln!(
                text,
                "| {} | {} | {} | {:.1} | {:.1} | {} |",
                family.name,
                script.name,
                script.lines,
                script.rust * 1e6,
                script.library * 1e6,
                times(script.ratio())
            );
        }
    }
    text
}
