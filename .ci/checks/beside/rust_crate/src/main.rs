//! What the Rust crate answers to the lines that the program `markers` answers, and to the
//! requirements of `tests/measured_calls`, so that both can be compared and measured.

use pep440_rs::Version;
use pep508_rs::{
    ExtraName, MarkerEnvironment, MarkerEnvironmentBuilder, MarkerTree, MarkerWarningKind,
    Pep508Error, Requirement, VerbatimUrl,
};
use std::io::{self, BufWriter, Read, Write};
use std::ops::Bound;
use std::str::{FromStr, Split};

/// The values of an environment, by their keys.
struct Environment<'a> {
    values: Vec<(&'a str, &'a str)>,
    made: Option<MarkerEnvironment>,
}

impl<'a> Environment<'a> {
    fn value(&self, key: &str) -> &'a str {
        let found = self.values.iter().rev().find(|it| it.0 == key);
        let is_version = key.ends_with("version") && !key.starts_with("platform");
        found.map_or(if is_version { "0" } else { "" }, |it| it.1)
    }

    fn get(&mut self) -> &MarkerEnvironment {
        if self.made.is_none() {
            let builder = MarkerEnvironmentBuilder {
                implementation_name: self.value("implementation_name"),
                implementation_version: self.value("implementation_version"),
                os_name: self.value("os_name"),
                platform_machine: self.value("platform_machine"),
                platform_python_implementation: self.value("platform_python_implementation"),
                platform_release: self.value("platform_release"),
                platform_system: self.value("platform_system"),
                platform_version: self.value("platform_version"),
                python_full_version: self.value("python_full_version"),
                python_version: self.value("python_version"),
                sys_platform: self.value("sys_platform"),
            };
            self.made = Some(builder.try_into().expect("the versions of `env` lines"));
        }
        self.made.as_ref().unwrap()
    }
}

fn bound(word: &str) -> Bound<Version> {
    let version = |text| Version::from_str(text).expect("a version");
    match word.split_once(':') {
        Some(("incl", text)) => Bound::Included(version(text)),
        Some(("excl", text)) => Bound::Excluded(version(text)),
        _ => Bound::Unbounded,
    }
}

fn extras(words: Split<'_, char>) -> Vec<ExtraName> {
    words
        .map(|it| ExtraName::from_str(it).expect("an extra"))
        .collect()
}

fn cell(cells: &[MarkerTree], words: &mut Split<'_, char>) -> MarkerTree {
    let index: usize = words.next().unwrap().parse().expect("the number of a cell");
    cells[index].clone()
}

/// What a line is answered.
enum Reply {
    Cell(MarkerTree),
    Text(String),
}

impl From<bool> for Reply {
    fn from(truth: bool) -> Reply {
        Reply::Text(truth.to_string())
    }
}

/// The reply to a line on cells.
fn reply(
    word: &str,
    mut words: Split<'_, char>,
    cells: &[MarkerTree],
    environment: &mut Environment<'_>,
) -> Reply {
    let mut first = cell(cells, &mut words);
    match word {
        "equal" => (first == cell(cells, &mut words)).into(),
        "disjoint" => first.is_disjoint(&cell(cells, &mut words)).into(),
        "eval" => first.evaluate(environment.get(), &extras(words)).into(),
        "possible" => first.evaluate_extras(&extras(words)).into(),
        "text" => {
            let text = first.try_to_string();
            Reply::Text(text.map_or("text".to_string(), |it| format!("text {it}")))
        }
        "and" => {
            first.and(cell(cells, &mut words));
            Reply::Cell(first)
        }
        "or" => {
            first.or(cell(cells, &mut words));
            Reply::Cell(first)
        }
        "not" => Reply::Cell(first.negate()),
        "extras" => Reply::Cell(first.simplify_extras(&extras(words))),
        _ => {
            let (lower, upper) = (bound(words.next().unwrap()), bound(words.next().unwrap()));
            let (lower, upper) = (lower.as_ref(), upper.as_ref());
            Reply::Cell(match word {
                "simplify" => first.simplify_python_versions(lower, upper),
                _ => first.complexify_python_versions(lower, upper),
            })
        }
    }
}

fn parsed(text: &str) -> Reply {
    let mut silent = |_: MarkerWarningKind, _: String| {};
    let parsed: Result<_, Pep508Error<VerbatimUrl>> = MarkerTree::parse_reporter(text, &mut silent);
    match parsed {
        Ok(tree) => Reply::Cell(tree),
        Err(error) => Reply::Text(format!("error {error}")),
    }
}

fn lines(given: &str) -> io::Result<()> {
    let mut output = BufWriter::new(io::stdout().lock());
    let mut cells: Vec<MarkerTree> = Vec::new();
    let mut environment = Environment {
        values: Vec::new(),
        made: None,
    };
    for line in given.lines() {
        let (word, rest) = line.split_once(' ').unwrap_or((line, ""));
        let reply = match word {
            "env" => {
                environment.values.extend(rest.split_once(' '));
                environment.made = None;
                Reply::Text("ok".to_string())
            }
            "parse" => parsed(rest),
            _ => reply(word, rest.split(' '), &cells, &mut environment),
        };
        match reply {
            Reply::Cell(tree) => {
                writeln!(output, "cell {}", cells.len())?;
                cells.push(tree);
            }
            Reply::Text(text) => writeln!(output, "{text}")?,
        }
    }
    output.flush()
}

fn requirements(task: &str, lines: &str) {
    let (mut count, mut printed) = (0, 0);
    for round in 0..=usize::from(task == "again") {
        for line in lines.lines() {
            let read = Requirement::<VerbatimUrl>::from_str(line).expect("a requirement");
            if task == "print" {
                printed += read.to_string().len();
            }
            count += usize::from(round == 0);
        }
    }
    println!("{count} {printed}");
}

fn main() -> io::Result<()> {
    let mut given = String::new();
    io::stdin().read_to_string(&mut given)?;
    match given.split_once('\n') {
        Some((task @ ("read" | "again" | "print"), lines)) => {
            requirements(task, lines);
            Ok(())
        }
        _ => lines(&given),
    }
}
