//! Reading a sheet.

use robinlocker::{Line, Lit};

/// A sheet: the lines for the session and the rules, each with its words.
#[derive(Default)]
pub struct Sheet {
    pub lines: Vec<(Line, String)>,
    pub rules: Vec<(Vec<Lit>, String)>,
}

impl Sheet {
    pub fn read(text: &str) -> Result<Sheet, String> {
        let mut sheet = Sheet::default();
        for (place, line) in text.lines().enumerate() {
            let line = line.trim();
            if !line.is_empty() && !line.starts_with('#') {
                sheet.take(line).map_err(|why| format!("line {}: {why}", place + 1))?;
            }
        }
        Ok(sheet)
    }

    fn take(&mut self, line: &str) -> Result<(), &'static str> {
        // A line of a script has no blanks, so the words begin behind the first.
        let (line, words) = line.split_once(char::is_whitespace).unwrap_or((line, ""));
        let words = words.trim().to_string();
        if let Some(literals) = line.strip_prefix("clause=") {
            self.rules.push((read_clause(literals).ok_or("a clause has literals parted by commas")?, words));
        } else {
            self.lines.push((read_line(line)?, words));
        }
        Ok(())
    }
}

fn read_clause(literals: &str) -> Option<Vec<Lit>> {
    literals.split(',').map(|literal| Lit::from_number(literal.parse().ok()?)).collect()
}

/// What puts literals in force or takes them back is the search's own.
fn read_line(line: &str) -> Result<Line, &'static str> {
    match Line::parse(line.as_bytes()) {
        Ok(
            line @ (Line::Sort { .. }
            | Line::Ctor { .. }
            | Line::Fun { .. }
            | Line::Close
            | Line::Term { .. }
            | Line::Eq(..)
            | Line::Var { .. }),
        ) => Ok(line),
        Ok(_) => Err("a sheet declares, makes terms and registers variables; the search sends the rest"),
        Err(_) => Err("this is no line of a script and no clause"),
    }
}
