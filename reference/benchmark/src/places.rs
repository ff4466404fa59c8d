//! Where the linker puts the code decides how its loops lie in the blocks of 64 bytes that the processor fetches, and that is
//! worth up to a third of a call. So ./benchmark links this program at several places. Each writes its rows' times to a file
//! (--write FILE), and one prints the tables with the least that any of the files has for each time (FILE..).

use std::fs::{self, File};
use std::io::Write;
use std::vec::IntoIter;

enum Rows {
    Measured,
    Written(File),
    Read { rows: IntoIter<Vec<Vec<f64>>>, spread: f64 },
}

pub struct Places(Rows);

fn times(line: &str) -> Result<Vec<f64>, String> {
    line.split(' ').map(str::parse).collect::<Result<_, _>>().map_err(|_| format!("no times: {line}"))
}

/// Each row's times at every place.
fn read(files: &[String]) -> Result<IntoIter<Vec<Vec<f64>>>, String> {
    let mut rows: Vec<Vec<Vec<f64>>> = Vec::new();
    for file in files {
        let text = fs::read_to_string(file).map_err(|e| format!("{file}: {e}"))?;
        for (i, line) in text.lines().enumerate() {
            if rows.len() == i {
                rows.push(Vec::new());
            }
            rows[i].push(times(line)?);
        }
    }
    if rows.iter().any(|row| row.len() != files.len()) {
        return Err("files of unlike lengths".to_string());
    }
    Ok(rows.into_iter())
}

/// The least of each time of a row.
fn least<const N: usize>(row: &[Vec<f64>]) -> Result<[f64; N], String> {
    if row.iter().any(|times| times.len() != N) {
        return Err("a row with another number of times".to_string());
    }
    Ok(std::array::from_fn(|i| row.iter().map(|times| times[i]).fold(f64::INFINITY, f64::min)))
}

impl Places {
    pub fn new(args: &[String]) -> Result<Places, String> {
        Ok(Places(match args {
            [] => Rows::Measured,
            [write, file] if write == "--write" => {
                Rows::Written(File::create(file).map_err(|e| format!("{file}: {e}"))?)
            }
            files => Rows::Read { rows: read(files)?, spread: 1.0 },
        }))
    }

    /// Whether this program only writes its rows for another one.
    pub fn writes(&self) -> bool {
        matches!(self.0, Rows::Written(_))
    }

    /// The times of a row, of which the first is the proved one.
    pub fn times<const N: usize>(&mut self, turns: impl FnOnce() -> [f64; N]) -> Result<[f64; N], String> {
        match &mut self.0 {
            Rows::Measured => Ok(turns()),
            Rows::Written(file) => {
                let row = turns();
                let text = row.map(|time| time.to_string()).join(" ");
                writeln!(file, "{text}").map_err(|e| e.to_string())?;
                Ok(row)
            }
            Rows::Read { rows, spread } => {
                let row = rows.next().ok_or("too few rows")?;
                let least = least::<N>(&row)?;
                *spread = row.iter().fold(*spread, |spread, times| spread.max(times[0] / least[0]));
                Ok(least)
            }
        }
    }

    pub fn print(&self) {
        if let Rows::Read { spread, .. } = &self.0 {
            println!("besides: at another place a row's proved time is up to {spread:.2} of the one here");
        }
    }
}
