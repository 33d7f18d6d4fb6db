//! The proved library and the published solver side by side in one process.

mod bench;
mod clock;
mod differential;
mod families;
mod growth;
mod library;
mod plot;
mod shapes;
mod stack;

const USAGE: &str = "beside differential COUNT SEED
beside bench MILLISECONDS FOLDER
beside family NAME MILLISECONDS
beside stack";

fn main() {
    let arguments: Vec<String> = std::env::args().skip(1).collect();
    let arguments: Vec<&str> = arguments.iter().map(String::as_str).collect();
    match command(&arguments) {
        None => {
            eprintln!("{USAGE}");
            std::process::exit(64);
        }
        Some(good) => std::process::exit(if good { 0 } else { 1 }),
    }
}

/// Whether the command went well; none if there is no such command.
fn command(arguments: &[&str]) -> Option<bool> {
    match arguments {
        ["differential", count, seed] => Some(differential::differential(count.parse().ok()?, seed.parse().ok()?)),
        ["bench", milliseconds, folder] => Some(bench::bench(milliseconds.parse().ok()?, folder.as_ref())),
        ["family", name, milliseconds] => bench::bench_family(name, milliseconds.parse().ok()?),
        ["stack"] => Some(stack::stack()),
        _ => None,
    }
}
