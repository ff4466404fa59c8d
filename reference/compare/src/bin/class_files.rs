//! class_files PROGRAM FOLDER [COUNT]
//! class_files --lines FILE LINES [TABLE]
//!
//! Runs the class program on COUNT link files (400 where nothing is said), which it writes into FOLDER, and judges what
//! it prints line by line: refused files and loads, files that are too long, and a quote for each class of the sample
//! table. It exits with 1 where a line is not what document 01 says. With `--lines` it judges lines that are stored
//! beside a link file, by the rows of the text TABLE where one is named.

use compare::files;
use compare::nets::{net, Net, Style};
use document01::judge::{self, Grant};
use document01::table::MOST_NODES;
use document01::{classes, link_file, Ledger, Reply, Rules, Table};
use seeded::Random;
use std::collections::BTreeMap;
use std::fs::{self, File};
use std::path::Path;
use std::process::{exit, Command, Stdio};

const LONGEST: usize = 65_536;

/// A network whose weights and capacities are about those that the classes ask for.
fn class_net(rng: &mut Random) -> Net {
    let n = rng.range(2, 9);
    let mut words = Vec::new();
    for i in 0..rng.range(n, 5 * n) {
        let from = if i < n { i } else { rng.range(0, n - 1) };
        let to = if i < n { (i + 1) % n } else { (from + rng.range(1, n - 1)) % n };
        let slow = rng.pick(&[20, 120, 900]);
        words.extend([from, to, rng.range(0, slow), rng.range(0, 40), rng.pick(&[0, 1, 2, 8, 16, 20])]);
    }
    Net { n, words, hold_times: vec![0; n as usize], delay_scale: 400, cost_scale: 60, units_scale: 16 }
}

/// The bytes of file `number`: link files, damaged ones, tables that Load refuses, long ones.
fn bytes(number: u64) -> Vec<u8> {
    let mut rng = Random::new(number);
    let style = rng.pick(&[Style::Full, Style::Line, Style::Extremes, Style::Zeros]);
    let mut net = match number % 6 {
        0 => net(&mut rng, Style::Document),
        1 => net(&mut rng, style),
        _ => class_net(&mut rng),
    };
    match number % 10 {
        7 => net.n = rng.pick(&[0, 1, 33, net.n - 1]),
        8 if !net.words.is_empty() => {
            let at = rng.range(0, net.words.len() as u32 - 1) as usize;
            net.words[at] = rng.pick(&[32, 65_536, 1_000_001, u32::MAX]);
        }
        9 => return files::file(&mut rng, &net),
        _ => {}
    }
    let notes = match number % 40 {
        35 => LONGEST - 16 - 4 * net.words.len(),
        36 => LONGEST - 15 - 4 * net.words.len(),
        _ => rng.range(0, 30) as usize,
    };
    link_file::write(&vec![b'n'; notes], net.n, &net.words)
}

/// What is printed for a file that gets no quotes, or else its ledger.
fn begun(bytes: &[u8]) -> Result<Ledger, String> {
    if bytes.len() > LONGEST {
        return Err("file long".to_string());
    }
    let contents = link_file::read(bytes, 1_280, Rules::all()).map_err(|number| format!("file {number}"))?;
    // The program loads every file without hold times.
    let no_holds = vec![0; contents.n.min(MOST_NODES) as usize];
    let table = Table::checked(contents.n, &contents.words, &no_holds).map_err(|number| format!("load {number}"))?;
    Ok(Ledger::new(table, Rules::all()))
}

/// Judges the line of one class; gives what kind of line it is.
fn judge_line(ledger: &Ledger, rows: &[u32], class: u32, line: &str) -> Result<String, String> {
    let row = classes::class(rows, class, Rules::all()).map_err(|number| number.to_string())?;
    let request = classes::request(row, 0, ledger.table.n - 1);
    let (problem, least) = match ledger.quote(16_384, 31, &request) {
        Reply::Refused(number) => {
            let expected = format!("{class} 0 {number}");
            return if line == expected {
                Ok(format!("refused {number}"))
            } else {
                Err(format!("expected {expected}"))
            };
        }
        Reply::Granted { problem, least } => (problem, least),
    };
    let fields: Vec<u32> =
        line.split(' ').map(|field| field.parse().map_err(|_| "not a number")).collect::<Result<_, _>>()?;
    let plain: Vec<String> = fields.iter().map(u32::to_string).collect();
    if plain.join(" ") != line || fields.len() < 5 || fields[0] != class {
        return Err(format!("not a line of class {class} with a path"));
    }
    let grant = Grant { problem: fields[1], delay: fields[2], cost: fields[3], path: fields[4..].to_vec() };
    judge::grant(ledger, &request, problem, least, &grant)?;
    Ok(format!("problem {problem}"))
}

/// Judges all that was printed for the classes of a table; gives what kind each line is.
fn judge_output(bytes: &[u8], rows: &[u32], printed: &str) -> Result<Vec<String>, String> {
    let body = printed.strip_suffix('\n').ok_or("no newline at the end")?;
    let lines: Vec<&str> = body.split('\n').collect();
    match begun(bytes) {
        Err(expected) if lines == [&expected] => Ok(vec![expected]),
        Err(expected) => Err(format!("expected {expected}")),
        Ok(ledger) if 4 * lines.len() == rows.len() => {
            let judged = lines.iter().zip(0..).map(|(line, class)| judge_line(&ledger, rows, class, line));
            judged.collect()
        }
        Ok(_) => Err(format!("{} lines instead of one for each class", lines.len())),
    }
}

fn run(program: &str, file: &Path) -> String {
    let input = File::open(file).expect("the file was written");
    let output = Command::new(program).stdin(Stdio::from(input)).output().expect("the program runs");
    String::from_utf8_lossy(&output.stdout).into_owned()
}

/// The numbers of a class table's text, without its comments.
fn rows(text: &str) -> Vec<u32> {
    let lines = text.lines().filter(|line| !line.starts_with('#'));
    lines.flat_map(str::split_whitespace).map(|word| word.parse().expect("a number")).collect()
}

fn stored(file: &str, lines: &str, table: Option<&String>) {
    let bytes = fs::read(file).expect("a link file");
    let printed = fs::read_to_string(lines).expect("its lines");
    let rows = table.map_or(classes::SAMPLE.concat(), |name| rows(&fs::read_to_string(name).expect("a class table")));
    if let Err(why) = judge_output(&bytes, &rows, &printed) {
        println!("class_files: {lines}: {why}");
        exit(1);
    }
}

/// Kinds of lines that the files must have brought about.
const DUE: [&str; 9] =
    ["problem 1", "problem 2", "refused 9", "refused 10", "file 17", "file 18", "file long", "load 2", "load 4"];

fn main() {
    let words: Vec<String> = std::env::args().skip(1).collect();
    let [program, folder, ..] = &words[..] else {
        eprintln!("usage: class_files PROGRAM FOLDER [COUNT] | --lines FILE LINES [TABLE]");
        exit(2)
    };
    if program == "--lines" {
        return stored(folder, words.get(2).expect("a file of lines"), words.get(3));
    }
    let count = words.get(2).map_or(400, |word| word.parse().expect("a count"));
    let mut kinds: BTreeMap<String, u64> = BTreeMap::new();
    for number in 0..count {
        let bytes = bytes(number);
        let file = Path::new(folder).join(format!("{number}.rtlk"));
        fs::write(&file, &bytes).expect("the folder can be written");
        let printed = run(program, &file);
        match judge_output(&bytes, &classes::SAMPLE.concat(), &printed) {
            Ok(lines) => lines.into_iter().for_each(|kind| *kinds.entry(kind).or_default() += 1),
            Err(why) => {
                println!("class_files: file {number}: {why}\n{printed}");
                exit(1);
            }
        }
    }
    println!("  lines: {kinds:?}");
    if let Some(missing) = DUE.iter().find(|kind| !kinds.contains_key(**kind)) {
        println!("class_files: no file printed {missing}");
        exit(1);
    }
    println!("class_files: {count} files, 0 failures");
}
