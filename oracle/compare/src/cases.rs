//! The smallest inputs of docs/DIFFERENCES.md: tables of a line, the given Rust's answer and the
//! rules' answer, read from the document itself so that it can't say what isn't so.

use crate::desk::Desk;
use crate::lines::{Lines, Reader, Request};
use crate::program::answer;
use rules::Call;

pub const DOCUMENT: &str = include_str!("../../../docs/DIFFERENCES.md");

const HEAD: &str = "| line | given Rust | rules |";

/// One line of a case with both stated answers; several answers of a line are joined by `; `.
pub struct Row {
    pub line: String,
    pub given: String,
    pub rules: String,
}

pub struct Case {
    /// The heading above the table.
    pub title: String,
    pub rows: Vec<Row>,
}

/// Every case of the document, in its order.
pub fn cases(document: &str) -> Vec<Case> {
    let mut cases: Vec<Case> = Vec::new();
    let mut title = "";
    let mut in_table = false;
    for line in document.lines() {
        if line.starts_with('#') {
            title = line.trim_start_matches(['#', ' ']);
        } else if line == HEAD {
            in_table = true;
            let title = title.to_string();
            let rows = Vec::new();
            cases.push(Case { title, rows });
        } else if in_table && line.starts_with("| `") {
            cases.last_mut().expect("a head").rows.push(row(line));
        } else if !line.starts_with("|---") {
            in_table = false;
        }
    }
    cases
}

fn row(line: &str) -> Row {
    let mut cells = line.trim_matches('|').split('|');
    let mut cell = || {
        let marks = |mark: char| mark == '`' || mark == '*' || mark == ' ';
        cells
            .next()
            .expect("a cell")
            .trim_matches(marks)
            .to_string()
    };
    Row {
        line: cell(),
        given: cell(),
        rules: cell(),
    }
}

impl Case {
    /// What a desk answers to each line.
    pub fn run(&self, desk: &mut dyn Desk) -> Vec<String> {
        let answers = self
            .requests()
            .into_iter()
            .map(|request| answer(request, desk));
        answers.map(|lines| lines.join("; ")).collect()
    }

    /// The calls that the lines come to.
    pub fn calls(&self) -> Vec<Call> {
        let requests = self.requests().into_iter();
        requests.flat_map(Request::calls).collect()
    }

    fn requests(&self) -> Vec<Request> {
        let mut reader = Reader::new(Lines::Cases);
        let mut read = |row: &Row| reader.read(row.line.as_bytes()).expect("a line that fits");
        self.rows.iter().map(&mut read).collect()
    }
}
