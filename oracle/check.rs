//! Checks the output of the main program's `run` against the script that it ran.
//!
//! Verdicts of questions are compared with the automaton, hedges and membership with the definition of
//! the language, look-ups with a register kept from the answers before them, written sheets with the
//! records of the answer that they belong to, refusals with the order of the faults. What rests on the
//! numbering of states (the rows of an included sheet, the faults 7, 11, 12 and 13, "wide") is taken as
//! it stands, save for what its counts have to keep.

use crate::automaton::{Decider, Verdict};
use crate::language::member;
use crate::random;
use crate::text::{self, Evidence, Fault, Grammar, Hedge, Relation};

/// An answer of the output with the lines that belong to it.
#[derive(Default)]
struct Answer {
    line: String,
    records: Vec<String>,
    blank: Option<String>,
    /// The sheet after `wrote`, or what else follows.
    text: String,
}

fn answers(output: &str) -> Vec<Answer> {
    let mut out: Vec<Answer> = Vec::new();
    let mut writing = false;
    for line in output.lines() {
        match out.last_mut() {
            Some(last) if writing => {
                last.text += line;
                last.text.push('\n');
                writing = !line.starts_with("end=");
            }
            Some(last) if line.starts_with("row=") || line.starts_with("item=") => last.records.push(line.to_string()),
            Some(last) if line.starts_with("blank ") => last.blank = Some(line.to_string()),
            _ => {
                writing = line.starts_with("wrote ");
                out.push(Answer { line: line.to_string(), ..Answer::default() });
            }
        }
    }
    out
}

/// A call of a script.
#[derive(Debug)]
enum Call {
    Question(usize, usize, usize, usize),
    Sheet(String, usize, usize),
    Member(usize, String, usize, usize),
    Write(usize),
    LookUp(usize, usize),
    Clear,
}

fn call(line: &str) -> Option<Call> {
    if line == "clear" {
        return Some(Call::Clear);
    }
    let (key, rest) = line.split_once('=')?;
    let fields: Vec<&str> = rest.split(',').collect();
    let n = |k: usize| fields.get(k).and_then(|f| text::number(f.as_bytes()));
    let lent = |k: usize| match fields.len().checked_sub(k)? {
        1 => Some((n(k)?, n(k)?)),
        2 => Some((n(k)?, n(k + 1)?)),
        _ => None,
    };
    match key {
        "question" => lent(2).and_then(|(rows, items)| Some(Call::Question(n(0)?, n(1)?, rows, items))),
        "sheet" => lent(1).map(|(rows, items)| Call::Sheet(fields[0].to_string(), rows, items)),
        "member" => lent(2).and_then(|(rows, items)| Some(Call::Member(n(0)?, fields[1].to_string(), rows, items))),
        "write" if fields.len() == 1 => Some(Call::Write(n(0)?)),
        "lookup" if fields.len() == 2 => Some(Call::LookUp(n(0)?, n(1)?)),
        _ => None,
    }
}

/// `KEY=` followed by a number, somewhere in an answer line.
fn value(line: &str, key: &str) -> Option<usize> {
    line.split(' ').find_map(|word| word.strip_prefix(key)?.strip_prefix('=')).and_then(|v| v.parse().ok())
}

#[derive(Default)]
pub struct Tally {
    questions: usize,
    sheets: usize,
    members: usize,
    lookups: usize,
    writes: usize,
    refusals: usize,
    /// Answers that nothing here decides: "wide", "out of rows", sheets refused for their rows.
    open: usize,
    /// Questions too large for the automaton.
    large: usize,
    pub differ: usize,
}

impl std::fmt::Display for Tally {
    fn fmt(&self, f: &mut std::fmt::Formatter) -> std::fmt::Result {
        write!(
            f,
            "checked questions={} sheets={} members={} lookups={} writes={} refusals={} open={} large={} differ={}",
            self.questions, self.sheets, self.members, self.lookups, self.writes, self.refusals, self.open, self.large, self.differ
        )
    }
}

struct Checker<'a> {
    g: &'a Grammar,
    relation: &'a Relation,
    decider: Decider<'a>,
    states: usize,
    /// The last settled verdict of each pair since the last clearing.
    settled: Vec<Vec<Option<bool>>>,
    /// Kind, pair and records of what would be written.
    last: Option<(bool, usize, usize, Vec<String>)>,
    tally: Tally,
    place: String,
}

/// Checks an output against its script and prints each disagreement.
pub fn check(grammar_text: &[u8], relation: &str, script: &str, output: &str) -> Tally {
    let answers = answers(output);
    let first = answers.first().map_or("", |a| a.line.as_str());
    let mut tally = Tally::default();
    let g = match text::grammar(grammar_text) {
        Err(fault) => {
            tally.refusals += 1;
            if first != fault.to_string() || answers.len() > 1 {
                tally.differ += 1;
                println!("loading: expected only \"{fault}\", got \"{first}\"");
            }
            return tally;
        }
        Ok(g) => g,
    };
    if first == (Fault { number: 7, line: 0 }).to_string() && answers.len() == 1 {
        tally.refusals += 1;
        tally.open += 1;
        return tally;
    }
    let start = format!("loaded names={} nodes={} rules={} states=", g.names.len(), g.nodes.len(), g.rules.len());
    if !first.starts_with(&start) {
        tally.differ += 1;
        println!("loading: expected \"{start}..\", got \"{first}\"");
        return tally;
    }
    let Some(relation) = Relation::new(&g, relation) else {
        tally.differ += 1;
        println!("no such relation: {relation}");
        return tally;
    };
    let rules = g.rules.len();
    let mut checker = Checker {
        g: &g,
        relation: &relation,
        decider: Decider::new(&g, &relation),
        states: value(first, "states").unwrap_or(0),
        settled: vec![vec![None; rules]; rules],
        last: None,
        tally,
        place: String::new(),
    };
    let mut rest = answers.iter().skip(1);
    for (at, line) in script.lines().enumerate() {
        if line.is_empty() || line.starts_with('#') {
            continue;
        }
        let Some(call) = call(line) else {
            println!("script line {}: no call, the run ends here", at + 1);
            break;
        };
        checker.place = format!("script line {} ({line})", at + 1);
        match rest.next() {
            Some(answer) => checker.call(&call, answer),
            None => {
                checker.differs("the output ends before its answer".to_string());
                break;
            }
        }
    }
    if let Some(answer) = rest.next() {
        checker.differs(format!("more output than calls: {}", answer.line));
    }
    checker.tally
}

/// Holds the parts of this program against each other on random grammars: the two searches, each hedge
/// found and the definition, random hedges in the automaton and by the definition. Prints what differs
/// and answers how many questions were asked, how many were excluded and how many answers differed.
pub fn agree(first: u64, count: u64) -> (usize, usize, usize) {
    let (mut asked, mut excluded, mut differ) = (0, 0, 0);
    for seed in first..first + count {
        let g = random::grammar(seed);
        for called in ["exact", "heads"] {
            let Some(relation) = Relation::new(&g, called) else { continue };
            let mut decider = Decider::new(&g, &relation);
            let hedges: Vec<Hedge> = (0..8).map(|k| random::hedge(seed * 8 + k, &g, &relation)).collect();
            let mut note = |right: bool, what: &str| {
                if !right {
                    differ += 1;
                    println!("seed {seed}, {called}: {what}");
                }
            };
            let rules = g.rules.len();
            let table: Vec<Vec<bool>> = (0..rules).map(|k| hedges.iter().map(|h| member(&g, &relation, k, h)).collect()).collect();
            for (k, row) in table.iter().enumerate() {
                for (hedge, &yes) in hedges.iter().zip(row) {
                    note(decider.holds(k, hedge).map_or(true, |held| held == yes), "membership of a hedge");
                }
            }
            for (a, b) in (0..rules * rules).map(|k| (k / rules, k % rules)) {
                asked += 1;
                let alone = decider.decide_alone(a, b);
                match decider.decide(a, b) {
                    Verdict::TooLarge => {}
                    Verdict::Included => {
                        note(!matches!(alone, Ok(Some(_))), "the search over two rules says excluded");
                        note(table[a].iter().zip(&table[b]).all(|(l, r)| !l || *r), "a hedge of the left is outside the right");
                    }
                    Verdict::Excluded(hedge) => {
                        excluded += 1;
                        note(!matches!(alone, Ok(None)), "the search over two rules says included");
                        note(a != b && member(&g, &relation, a, &hedge), "the hedge found is not in the left");
                        note(!member(&g, &relation, b, &hedge), "the hedge found is in the right");
                    }
                }
            }
        }
    }
    (asked, excluded, differ)
}

/// The refusal for the counts of rows and items given, if any.
fn counts(rows: usize, items: usize) -> Option<Fault> {
    let good = rows == items && (1..=512).contains(&rows);
    (!good).then_some(Fault { number: 9, line: 0 })
}

impl Checker<'_> {
    fn differs(&mut self, what: String) {
        self.tally.differ += 1;
        println!("{}: {what}", self.place);
    }

    fn same(&mut self, what: &str, got: &str, want: &str) {
        if got != want {
            self.differs(format!("{what}: expected \"{want}\", got \"{got}\""));
        }
    }

    fn call(&mut self, call: &Call, answer: &Answer) {
        match call {
            Call::Question(a, b, rows, items) => self.question(*a, *b, *rows, *items, answer),
            Call::Sheet(file, rows, items) => self.sheet(file, *rows, *items, answer),
            Call::Member(rule, file, rows, items) => self.member(*rule, file, *rows, *items, answer),
            Call::Write(room) => self.write(*room, answer),
            Call::LookUp(a, b) => {
                self.tally.lookups += 1;
                let want = if *a >= self.g.rules.len() || *b >= self.g.rules.len() {
                    Fault { number: 8, line: 0 }.to_string()
                } else {
                    let word = self.settled[*a][*b].map_or("unsettled", |yes| if yes { "included" } else { "excluded" });
                    word.to_string()
                };
                self.same("look-up", &answer.line, &want);
                self.nothing_after(answer);
            }
            Call::Clear => {
                self.settled.iter_mut().flatten().for_each(|s| *s = None);
                self.same("clearing", &answer.line, "cleared");
                self.nothing_after(answer);
            }
        }
    }

    fn nothing_after(&mut self, answer: &Answer) {
        if !answer.records.is_empty() || answer.blank.is_some() {
            self.differs("records or blanks after an answer that has none".to_string());
        }
    }

    /// The answer is this refusal, and what follows it is only the count of blanks, if any.
    fn refused(&mut self, fault: Fault, rows: usize, items: usize, answer: &Answer) {
        self.tally.refusals += 1;
        self.same("refusal", &answer.line, &fault.to_string());
        self.blanks(rows, items, 0, 0, answer);
    }

    /// So many rows and items are filled of those given, and the output says so.
    fn blanks(&mut self, rows: usize, items: usize, full_rows: usize, full_items: usize, answer: &Answer) {
        let said = answer.blank.clone().unwrap_or_default();
        if counts(rows, items).is_some() {
            self.nothing_after(answer);
        } else if full_rows > rows || full_items > items {
            self.differs("more records than given".to_string());
        } else {
            self.same("blanks", &said, &format!("blank rows={} items={}", rows - full_rows, items - full_items));
        }
        if answer.records.len() != full_rows + full_items {
            self.differs(format!("{} records listed, not {}", answer.records.len(), full_rows + full_items));
        }
    }

    fn question(&mut self, a: usize, b: usize, rows: usize, items: usize, answer: &Answer) {
        let absent = a >= self.g.rules.len() || b >= self.g.rules.len();
        let fault = if absent { Some(Fault { number: 8, line: 0 }) } else { counts(rows, items) };
        if let Some(fault) = fault {
            return self.refused(fault, rows, items, answer);
        }
        let word = answer.line.split(' ').next().unwrap_or("");
        let (Some(met), Some(records)) = (value(&answer.line, "met"), value(&answer.line, "records")) else {
            return self.differs(format!("no answer to a question: {}", answer.line));
        };
        if met == 0 || met > rows || records > met {
            self.differs(format!("{met} rows met and {records} records with {rows} rows given"));
        }
        let yes = match word {
            "included" | "excluded" => word == "included",
            "wide" | "out-of-rows" => {
                self.tally.open += 1;
                if records != 0 || (word == "out-of-rows" && met != rows) {
                    self.differs(format!("counts at {word}: {}", answer.line));
                }
                return self.blanks(rows, items, 0, 0, answer);
            }
            _ => return self.differs(format!("no answer to a question: {}", answer.line)),
        };
        self.tally.questions += 1;
        if yes {
            self.blanks(rows, items, records, 0, answer);
            let root = answer.records.first().cloned().unwrap_or_default();
            self.same("first row", &root, &format!("row={a},{b}"));
        } else {
            self.blanks(rows, items, 0, records, answer);
            match self.read_items(&answer.records) {
                Ok(hedge) => self.parts(a, b, &hedge),
                Err(fault) => self.differs(format!("the items of the hedge cannot be read: {fault}")),
            }
        }
        self.verdict(a, b, yes);
        self.settled[a][b] = Some(yes);
        self.last = Some((yes, a, b, answer.records.clone()));
    }

    fn read_items(&self, records: &[String]) -> Result<Hedge, Fault> {
        let body: String = records.iter().map(|r| format!("{r}\n")).collect();
        text::hedge(self.g, format!("hedge=1\n{body}end={}\n", records.len()).as_bytes(), 512)
    }

    /// The hedge is in rule a and not in rule b.
    fn parts(&mut self, a: usize, b: usize, hedge: &Hedge) {
        if !member(self.g, self.relation, a, hedge) {
            self.differs(format!("the hedge is not in the left rule {a}"));
        }
        if member(self.g, self.relation, b, hedge) {
            self.differs(format!("the hedge is in the right rule {b}"));
        }
    }

    /// The automaton says the same of the pair, and its own hedge keeps to the definition.
    fn verdict(&mut self, a: usize, b: usize, yes: bool) {
        match self.decider.decide(a, b) {
            Verdict::TooLarge => self.tally.large += 1,
            Verdict::Included if !yes => self.differs("the automaton says included".to_string()),
            Verdict::Included => {}
            Verdict::Excluded(hedge) => {
                self.parts(a, b, &hedge);
                if yes {
                    self.differs(format!("the automaton says excluded, by\n{}", hedge.text()));
                }
            }
        }
    }

    fn sheet(&mut self, file: &str, rows: usize, items: usize, answer: &Answer) {
        if let Some(fault) = counts(rows, items) {
            return self.refused(fault, rows, items, answer);
        }
        let Ok(text) = std::fs::read(file) else {
            return self.differs("the file cannot be read".to_string());
        };
        let sheet = match text::sheet(self.g, self.states, &text, rows) {
            Ok(sheet) => sheet,
            Err(fault) => return self.refused(fault, rows, items, answer),
        };
        self.tally.sheets += 1;
        let (a, b) = (sheet.left, sheet.right);
        let (yes, records) = match &sheet.evidence {
            Evidence::Rows(list) => {
                if list.first() != Some(&vec![a, b]) {
                    return self.refused(Fault { number: 10, line: 2 }, rows, items, answer);
                }
                if let Some(at) = value(&answer.line, "line").filter(|_| answer.line.starts_with("refused ")) {
                    let number = value(&answer.line, "number").unwrap_or(0) as u32;
                    if !(11..=13).contains(&number) || at < 3 || at >= list.len() + 3 {
                        self.differs(format!("no refusal of a sheet's rows: {}", answer.line));
                    }
                    self.tally.open += 1;
                    return self.refused(Fault { number, line: at }, rows, items, answer);
                }
                let line = |row: &Vec<usize>| row.iter().map(|n| n.to_string()).collect::<Vec<_>>().join(",");
                (true, list.iter().map(|row| format!("row={}", line(row))).collect::<Vec<_>>())
            }
            Evidence::Hedge(hedge) => {
                let shown = member(self.g, self.relation, a, hedge) && !member(self.g, self.relation, b, hedge);
                if !shown {
                    return self.refused(Fault { number: 14, line: 2 }, rows, items, answer);
                }
                (false, hedge.lines().lines().map(str::to_string).collect())
            }
        };
        let kind = if yes { "included" } else { "excluded" };
        self.same("sheet", &answer.line, &format!("accepted {kind} records={}", records.len()));
        let full = if yes { (records.len(), 0) } else { (0, records.len()) };
        self.blanks(rows, items, full.0, full.1, answer);
        if answer.records != records {
            self.differs("the records are not those of the text".to_string());
        }
        self.verdict(a, b, yes);
        self.settled[a][b] = Some(yes);
        self.last = Some((yes, a, b, records));
    }

    fn member(&mut self, rule: usize, file: &str, rows: usize, items: usize, answer: &Answer) {
        let absent = rule >= self.g.rules.len();
        let fault = if absent { Some(Fault { number: 8, line: 0 }) } else { counts(rows, items) };
        if let Some(fault) = fault {
            return self.refused(fault, rows, items, answer);
        }
        let Ok(text) = std::fs::read(file) else {
            return self.differs("the file cannot be read".to_string());
        };
        let hedge = match text::hedge(self.g, &text, items) {
            Ok(hedge) => hedge,
            Err(fault) => return self.refused(fault, rows, items, answer),
        };
        self.tally.members += 1;
        let word = if member(self.g, self.relation, rule, &hedge) { "yes" } else { "no" };
        self.same("membership", &answer.line, &format!("member {word} records={}", hedge.items.len()));
        self.blanks(rows, items, 0, hedge.items.len(), answer);
        if answer.records.iter().map(|r| format!("{r}\n")).collect::<String>() != hedge.lines() {
            self.differs("the items are not those of the text".to_string());
        }
    }

    fn write(&mut self, room: usize, answer: &Answer) {
        self.tally.writes += 1;
        self.nothing_after(answer);
        let Some((yes, a, b, records)) = &self.last else {
            return self.same("writing", &answer.line, "nothing");
        };
        let kind = if *yes { "included" } else { "excluded" };
        let body: String = records.iter().map(|r| format!("{r}\n")).collect();
        let want = format!("sheet={kind}\npair={a},{b}\n{body}end={}\n", records.len());
        if want.len() > room {
            return self.same("writing", &answer.line, &Fault { number: 15, line: 0 }.to_string());
        }
        self.same("writing", &answer.line, &format!("wrote length={}", want.len()));
        if answer.text != want {
            self.differs("the sheet written is not that of the last verdict".to_string());
        }
    }
}
