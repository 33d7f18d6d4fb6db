//! Holds the right run to the tables on which the prover computes the definition itself (`negatives`, `closings` and
//! `unequals` in `crates/session/specs/Examples.antt`), so that its second reading is tied to something fixed.

use crate::run;

/// Lines of a script with their answers.
struct Row {
    script: String,
    answers: String,
}

/// Answers each row of the tables. Returns how many rows there are, or what is wrong.
pub fn rows(text: &str) -> Result<usize, String> {
    let setting = Row { script: quoted(text, "\nsetting =")?, answers: quoted(text, "\nsetting_answers =")? };
    let nothing = Row { script: String::new(), answers: String::new() };
    let tables = [("negatives", &setting), ("closings", &nothing), ("unequals", &setting)];
    tables.iter().map(|(name, setting)| hold_table(text, name, setting)).sum()
}

/// Answers each row of a table behind the lines that stand before all of them.
fn hold_table(text: &str, name: &str, setting: &Row) -> Result<usize, String> {
    let rows = table(text, name)?;
    if rows.is_empty() {
        return Err(format!("the table `{name}` has no row"));
    }
    rows.iter().try_for_each(|row| hold(setting, row))?;
    Ok(rows.len())
}

fn hold(setting: &Row, row: &Row) -> Result<(), String> {
    let script = [&*setting.script, &row.script].concat();
    let (run, _) = run::agreed(script.as_bytes());
    if run.output == [&*setting.answers, &row.answers].concat().as_bytes() {
        return Ok(());
    }
    let (Row { script, answers }, output) = (row, String::from_utf8_lossy(&run.output));
    Err(format!("this row is answered otherwise:\n{script}its answers:\n{answers}all answers now:\n{output}"))
}

/// The rows from the table's first line to the end of its list, without those that are commented out.
fn table(text: &str, name: &str) -> Result<Vec<Row>, String> {
    let (_, behind) = text.split_once(&format!("\n{name} =")).ok_or_else(|| format!("there is no table `{name}`"))?;
    let (list, _) = behind.split_once("∷ []").ok_or_else(|| format!("the table `{name}` has no end"))?;
    let lines: Vec<&str> = list.lines().filter(|line| !line.trim_start().starts_with("--")).collect();
    lines.join("\n").split("record {").skip(1).map(row).collect()
}

fn row(text: &str) -> Result<Row, String> {
    Ok(Row { script: quoted(text, "script =")?, answers: quoted(text, "answers =")? })
}

/// The text in quotes behind a name, with `\n` for a line end.
fn quoted(text: &str, name: &str) -> Result<String, String> {
    let value = text.split_once(name).and_then(|(_, behind)| behind.trim_start().strip_prefix('"')?.split_once('"'));
    let (value, _) = value.ok_or_else(|| format!("no text in quotes behind `{}` in:\n{text}", name.trim_start()))?;
    Ok(value.replace("\\n", "\n"))
}
