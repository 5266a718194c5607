//! How many calls there were, of which kinds, and whether they are enough.

use std::fmt;

/// A number as a line has it: with a comma before every three digits.
pub fn written(number: usize) -> String {
    match number {
        0..1_000 => number.to_string(),
        _ => format!("{},{:03}", written(number / 1_000), number % 1_000),
    }
}

pub struct Tally {
    title: String,
    calls: usize,
    fewest_calls: usize,
    lines: Vec<Line>,
}

struct Line {
    name: String,
    /// Met fewer times than this, the run has shown too little.
    fewest: usize,
    met: usize,
}

impl Tally {
    pub fn new(title: &str, fewest_calls: usize) -> Tally {
        Tally {
            title: title.to_string(),
            calls: 0,
            fewest_calls,
            lines: Vec::new(),
        }
    }

    /// A tally with one line more.
    pub fn line(mut self, name: &str, fewest: usize) -> Tally {
        self.lines.push(Line {
            name: name.to_string(),
            fewest,
            met: 0,
        });
        self
    }

    /// A tally with a line more for the refusal of each of these numbers.
    pub fn refusals(self, numbers: &[u32], fewest: usize) -> Tally {
        numbers.iter().fold(self, |tally, number| {
            tally.line(&format!("refused {number}"), fewest)
        })
    }

    pub fn call(&mut self) {
        self.calls += 1;
    }

    /// Counts in the line of this name. Where there is none, the model gave
    /// what the operation cannot give.
    pub fn count(&mut self, name: &str) {
        let line = self.lines.iter_mut().find(|line| line.name == name);
        let line = line.unwrap_or_else(|| panic!("{}: nothing is called '{name}'", self.title));
        line.met += 1;
    }

    pub fn count_if(&mut self, met: bool, name: &str) {
        if met {
            self.count(name);
        }
    }

    /// Says what the run was too short to show.
    pub fn enough(&self) -> Result<(), String> {
        if self.calls < self.fewest_calls {
            return Err(format!(
                "{}: only {} were compared, fewer than {}",
                self.title, self.calls, self.fewest_calls
            ));
        }
        match self.lines.iter().find(|line| line.met < line.fewest) {
            None => Ok(()),
            Some(line) => Err(format!(
                "{}: '{}' was met {} times, fewer than {}",
                self.title, line.name, line.met, line.fewest
            )),
        }
    }
}

impl fmt::Display for Tally {
    fn fmt(&self, out: &mut fmt::Formatter) -> fmt::Result {
        writeln!(out, "{}: {}, all the same", self.title, self.calls)?;
        for line in &self.lines {
            writeln!(out, "  {:<46}{:>7}", line.name, line.met)?;
        }
        Ok(())
    }
}
