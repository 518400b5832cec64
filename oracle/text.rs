//! The texts: grammars, hedges and sheets, read into plain tables, and the faults of reading them.

/// An expression node of a grammar text. Nodes, names and rules are told by their numbers.
#[derive(Clone, Copy, Debug, PartialEq, Eq)]
pub enum Node {
    None,
    Empty,
    Simple(usize),
    Rule(usize),
    Element(usize, usize),
    Union(usize, usize),
    Seq(usize, usize),
    Star(usize),
}

#[derive(Clone, Debug)]
pub struct Name {
    pub element: bool,
    pub spelling: String,
    pub head: Option<usize>,
}

#[derive(Clone, Debug, Default)]
pub struct Grammar {
    pub names: Vec<Name>,
    pub nodes: Vec<Node>,
    /// Spelling and body node of each rule.
    pub rules: Vec<(String, usize)>,
}

/// A refusal: its number and its line.
#[derive(Clone, Copy, Debug, PartialEq, Eq)]
pub struct Fault {
    pub number: u32,
    pub line: usize,
}

pub fn fault<T>(number: u32, line: usize) -> Result<T, Fault> {
    Err(Fault { number, line })
}

impl Fault {
    pub fn layer(&self) -> &'static str {
        match self.number {
            1..=3 => "line",
            4 | 5 => "table",
            6 | 7 => "grammar",
            10..=14 => "sheet",
            _ => "call",
        }
    }
}

impl std::fmt::Display for Fault {
    fn fmt(&self, f: &mut std::fmt::Formatter) -> std::fmt::Result {
        write!(f, "refused number={} line={} layer={}", self.number, self.line, self.layer())
    }
}

/// A number: one to nine digits, no leading zero.
pub fn number(field: &[u8]) -> Option<usize> {
    let digits = !field.is_empty() && field.len() <= 9 && field.iter().all(u8::is_ascii_digit);
    if !digits || (field.len() > 1 && field[0] == b'0') {
        return None;
    }
    Some(field.iter().fold(0, |sum, d| sum * 10 + (d - b'0') as usize))
}

/// A spelling: a letter or underscore, then up to 31 letters, digits, underscores, points or hyphens.
fn spelling(field: &[u8]) -> bool {
    let first = |c: u8| c.is_ascii_alphabetic() || c == b'_';
    let later = |c: u8| first(c) || c.is_ascii_digit() || c == b'.' || c == b'-';
    !field.is_empty() && field.len() <= 32 && first(field[0]) && field.iter().all(|&c| later(c))
}

/// The lines of a text, each cut into its key and fields; a line without `=` has no key.
struct Lines<'a> {
    lines: Vec<(Option<&'a [u8]>, Vec<&'a [u8]>)>,
    next: usize,
}

impl<'a> Lines<'a> {
    fn new(text: &'a [u8], limit: usize) -> Result<Self, Fault> {
        if text.is_empty() || text.len() > limit || text[text.len() - 1] != b'\n' {
            return fault(1, 1);
        }
        let lines = text[..text.len() - 1].split(|&c| c == b'\n').map(|line| match line.iter().position(|&c| c == b'=') {
            Some(at) => (Some(&line[..at]), line[at + 1..].split(|&c| c == b',').collect()),
            None => (None, Vec::new()),
        });
        Ok(Lines { lines: lines.collect(), next: 0 })
    }

    /// The next line's number, key and fields.
    fn take(&mut self) -> Result<(usize, &'a [u8], Vec<&'a [u8]>), Fault> {
        let at = self.next + 1;
        if self.next == self.lines.len() {
            return fault(1, at);
        }
        let (key, fields) = self.lines[self.next].clone();
        self.next = at;
        match key {
            Some(key) => Ok((at, key, fields)),
            None => fault(1, at),
        }
    }

    /// The `end` line has been taken with these fields; `count` records stood before it.
    fn end(&self, at: usize, fields: &[&[u8]], count: usize) -> Result<(), Fault> {
        if fields.len() != 1 {
            return fault(1, at);
        }
        match number(fields[0]) {
            None => return fault(2, at),
            Some(n) if n != count => return fault(5, at),
            _ => {}
        }
        if self.next < self.lines.len() {
            return fault(1, at + 1);
        }
        Ok(())
    }
}

fn numbers(fields: &[&[u8]], at: usize) -> Result<Vec<usize>, Fault> {
    let all: Option<Vec<usize>> = fields.iter().map(|f| number(f)).collect();
    all.ok_or(Fault { number: 2, line: at })
}

fn keep(allowed: bool, at: usize) -> Result<(), Fault> {
    if allowed { Ok(()) } else { fault(5, at) }
}

/// Reads a grammar text. The sizes that rest on derivatives (fault 7) are not judged here.
pub fn grammar(text: &[u8]) -> Result<Grammar, Fault> {
    let mut lines = Lines::new(text, 65_536)?;
    let mut g = Grammar::default();
    let (at, key, fields) = lines.take()?;
    if key != b"grammar" || fields != [&b"1"[..]] {
        return fault(1, at);
    }
    let order: [&[u8]; 5] = [b"name", b"under", b"node", b"rule", b"end"];
    let mut stage = 0;
    let (mut node_lines, mut rule_lines) = (Vec::new(), Vec::new());
    loop {
        let (at, key, fields) = lines.take()?;
        match order.iter().position(|k| *k == key) {
            Some(s) if s >= stage => stage = s,
            _ => return fault(1, at),
        }
        match stage {
            0 => name_line(&mut g, at, &fields)?,
            1 => under_line(&mut g, at, &fields)?,
            2 => {
                node_line(&mut g, at, &fields)?;
                node_lines.push(at);
            }
            3 => {
                rule_line(&mut g, at, &fields)?;
                rule_lines.push(at);
            }
            _ => {
                lines.end(at, &fields, g.rules.len())?;
                break;
            }
        }
    }
    for (node, &at) in g.nodes.iter().zip(&node_lines) {
        if let Node::Rule(k) = node {
            keep(*k < g.rules.len(), at)?;
        }
    }
    match unlawful(&g) {
        Some(k) => fault(6, rule_lines[k]),
        None => Ok(g),
    }
}

fn name_line(g: &mut Grammar, at: usize, fields: &[&[u8]]) -> Result<(), Fault> {
    if fields.len() != 2 || (fields[0] != b"simple" && fields[0] != b"element") {
        return fault(1, at);
    }
    if g.names.len() == 64 {
        return fault(4, at);
    }
    let said = String::from_utf8_lossy(fields[1]).into_owned();
    if !spelling(fields[1]) || g.names.iter().any(|n| n.spelling == said) {
        return fault(3, at);
    }
    g.names.push(Name { element: fields[0] == b"element", spelling: said, head: None });
    Ok(())
}

fn under_line(g: &mut Grammar, at: usize, fields: &[&[u8]]) -> Result<(), Fault> {
    if fields.len() != 2 {
        return fault(1, at);
    }
    let n = numbers(fields, at)?;
    let (t, h) = (n[0], n[1]);
    keep(t < g.names.len() && h < t && g.names[t].element == g.names[h].element && g.names[t].head.is_none(), at)?;
    g.names[t].head = Some(h);
    Ok(())
}

fn node_line(g: &mut Grammar, at: usize, fields: &[&[u8]]) -> Result<(), Fault> {
    let width = match fields[0] {
        b"none" | b"empty" => 0,
        b"simple" | b"rule" | b"star" => 1,
        b"element" | b"union" | b"seq" => 2,
        _ => return fault(1, at),
    };
    if fields.len() != width + 1 {
        return fault(1, at);
    }
    if g.nodes.len() == 256 {
        return fault(4, at);
    }
    let n = numbers(&fields[1..], at)?;
    let earlier = |k: usize| k < g.nodes.len();
    let named = |k: usize, element: bool| k < g.names.len() && g.names[k].element == element;
    let node = match fields[0] {
        b"none" => Node::None,
        b"empty" => Node::Empty,
        b"simple" => {
            keep(named(n[0], false), at)?;
            Node::Simple(n[0])
        }
        b"rule" => Node::Rule(n[0]),
        b"star" => {
            keep(earlier(n[0]), at)?;
            Node::Star(n[0])
        }
        b"element" => {
            keep(named(n[0], true) && earlier(n[1]), at)?;
            Node::Element(n[0], n[1])
        }
        kind => {
            keep(earlier(n[0]) && earlier(n[1]), at)?;
            if kind == b"union" { Node::Union(n[0], n[1]) } else { Node::Seq(n[0], n[1]) }
        }
    };
    g.nodes.push(node);
    Ok(())
}

fn rule_line(g: &mut Grammar, at: usize, fields: &[&[u8]]) -> Result<(), Fault> {
    if fields.len() != 2 {
        return fault(1, at);
    }
    if g.rules.len() == 32 {
        return fault(4, at);
    }
    let body = numbers(&fields[1..], at)?[0];
    let said = String::from_utf8_lossy(fields[0]).into_owned();
    if !spelling(fields[0]) || g.rules.iter().any(|r| r.0 == said) {
        return fault(3, at);
    }
    keep(body < g.nodes.len(), at)?;
    g.rules.push((said, body));
    Ok(())
}

/// Which nodes have the empty hedge: the least answer, found by going round until nothing is added.
pub fn nullable(g: &Grammar) -> Vec<bool> {
    let mut has = vec![false; g.nodes.len()];
    loop {
        let mut grew = false;
        for k in 0..g.nodes.len() {
            let now = match g.nodes[k] {
                Node::None | Node::Simple(_) | Node::Element(..) => false,
                Node::Empty | Node::Star(_) => true,
                Node::Rule(r) => has[g.rules[r].1],
                Node::Union(a, b) => has[a] || has[b],
                Node::Seq(a, b) => has[a] && has[b],
            };
            grew |= now && !has[k];
            has[k] |= now;
        }
        if !grew {
            return has;
        }
    }
}

/// How the way from a rule's body to a node stands to "last place".
#[derive(Clone, Copy, PartialEq)]
enum Way {
    /// A star or the left side of a `seq` lies on it.
    Spoiled,
    /// Only unions and right sides, none after a left side that is not nullable.
    Bare,
    /// Only unions and right sides, one of them after a left side that is not nullable.
    Last,
}

/// The first rule whose recursion is not lawful.
pub fn unlawful(g: &Grammar) -> Option<usize> {
    let nullable = nullable(g);
    (0..g.rules.len()).find(|&k| {
        let mut seen = vec![[false; 3]; g.nodes.len()];
        let mut todo = vec![(g.rules[k].1, Way::Bare)];
        while let Some((node, way)) = todo.pop() {
            if std::mem::replace(&mut seen[node][way as usize], true) {
                continue;
            }
            match g.nodes[node] {
                Node::Rule(j) if j > k || (j == k && way != Way::Last) => return true,
                Node::Union(a, b) => todo.extend([(a, way), (b, way)]),
                Node::Star(a) => todo.push((a, Way::Spoiled)),
                Node::Seq(a, b) => {
                    todo.push((a, Way::Spoiled));
                    todo.push((b, if way == Way::Bare && !nullable[a] { Way::Last } else { way }));
                }
                _ => {}
            }
        }
        false
    })
}

/// The text of a grammar.
pub fn grammar_text(g: &Grammar) -> String {
    let mut out = String::from("grammar=1\n");
    for n in &g.names {
        out += &format!("name={},{}\n", if n.element { "element" } else { "simple" }, n.spelling);
    }
    for (t, n) in g.names.iter().enumerate() {
        if let Some(h) = n.head {
            out += &format!("under={t},{h}\n");
        }
    }
    for node in &g.nodes {
        out += &match *node {
            Node::None => "node=none\n".to_string(),
            Node::Empty => "node=empty\n".to_string(),
            Node::Simple(n) => format!("node=simple,{n}\n"),
            Node::Rule(k) => format!("node=rule,{k}\n"),
            Node::Element(n, c) => format!("node=element,{n},{c}\n"),
            Node::Union(a, b) => format!("node=union,{a},{b}\n"),
            Node::Seq(a, b) => format!("node=seq,{a},{b}\n"),
            Node::Star(a) => format!("node=star,{a}\n"),
        };
    }
    for (said, body) in &g.rules {
        out += &format!("rule={said},{body}\n");
    }
    out + &format!("end={}\n", g.rules.len())
}

/// Which name covers which: `covers[h][t]`.
#[derive(Clone)]
pub struct Relation {
    covers: Vec<Vec<bool>>,
}

impl Relation {
    /// The relation called `exact` or `heads`.
    pub fn new(g: &Grammar, called: &str) -> Option<Self> {
        let n = g.names.len();
        let mut covers = vec![vec![false; n]; n];
        for t in 0..n {
            covers[t][t] = true;
            let mut at = t;
            while let (true, Some(h)) = (called == "heads", g.names[at].head) {
                covers[h][t] = true;
                at = h;
            }
        }
        (called == "heads" || called == "exact").then_some(Relation { covers })
    }

    pub fn covers(&self, h: usize, t: usize) -> bool {
        self.covers[h][t]
    }
}

/// One item: its name, the item that begins what is inside it, the item that follows it (0: none).
#[derive(Clone, Copy, Debug, PartialEq, Eq, Hash)]
pub struct Item {
    pub name: usize,
    pub child: usize,
    pub next: usize,
}

/// Items counted from 1; the last one begins the hedge, and without items the hedge is empty.
#[derive(Clone, Debug, Default)]
pub struct Hedge {
    pub items: Vec<Item>,
}

impl Hedge {
    pub fn lines(&self) -> String {
        self.items.iter().map(|i| format!("item={},{},{}\n", i.name, i.child, i.next)).collect()
    }

    pub fn text(&self) -> String {
        format!("hedge=1\n{}end={}\n", self.lines(), self.items.len())
    }
}

/// Reads `item=T,CHILD,NEXT` fields as the next item of `hedge`, with room for `room` items.
fn item_line(g: &Grammar, hedge: &mut Hedge, room: usize, at: usize, fields: &[&[u8]]) -> Result<(), Fault> {
    if fields.len() != 3 {
        return fault(1, at);
    }
    let before = hedge.items.len();
    if before >= room {
        return fault(9, at);
    }
    let n = numbers(fields, at)?;
    keep(n[0] < g.names.len() && n[1] <= before && n[2] <= before && (g.names[n[0]].element || n[1] == 0), at)?;
    hedge.items.push(Item { name: n[0], child: n[1], next: n[2] });
    Ok(())
}

/// Reads a hedge text with room for `room` items.
pub fn hedge(g: &Grammar, text: &[u8], room: usize) -> Result<Hedge, Fault> {
    let mut lines = Lines::new(text, 262_144)?;
    let (at, key, fields) = lines.take()?;
    if key != b"hedge" || fields != [&b"1"[..]] {
        return fault(1, at);
    }
    let mut out = Hedge::default();
    loop {
        let (at, key, fields) = lines.take()?;
        match key {
            b"item" => item_line(g, &mut out, room, at, &fields)?,
            b"end" => {
                lines.end(at, &fields, out.items.len())?;
                return Ok(out);
            }
            _ => return fault(1, at),
        }
    }
}

/// What a sheet shows: rows (left state, right states) or a hedge.
pub enum Evidence {
    Rows(Vec<Vec<usize>>),
    Hedge(Hedge),
}

pub struct Sheet {
    pub left: usize,
    pub right: usize,
    pub evidence: Evidence,
}

/// Reads a sheet text with room for `room` records, on a grammar that is said to have `states` states.
pub fn sheet(g: &Grammar, states: usize, text: &[u8], room: usize) -> Result<Sheet, Fault> {
    let mut lines = Lines::new(text, 262_144)?;
    let (at, key, fields) = lines.take()?;
    let mut evidence = match (key, &fields[..]) {
        (b"sheet", [b"included"]) => Evidence::Rows(Vec::new()),
        (b"sheet", [b"excluded"]) => Evidence::Hedge(Hedge::default()),
        _ => return fault(1, at),
    };
    let (at, key, fields) = lines.take()?;
    if key != b"pair" || fields.len() != 2 {
        return fault(1, at);
    }
    let pair = numbers(&fields, at)?;
    if pair.iter().any(|&r| r >= g.rules.len()) {
        return fault(8, at);
    }
    loop {
        let (at, key, fields) = lines.take()?;
        match (key, &mut evidence) {
            (b"item", Evidence::Hedge(h)) => item_line(g, h, room, at, &fields)?,
            (b"row", Evidence::Rows(rows)) => {
                if rows.len() >= room {
                    return fault(9, at);
                }
                let n = numbers(&fields, at)?;
                keep(n.iter().all(|&s| s < states) && n[1..].windows(2).all(|w| w[0] < w[1]), at)?;
                rows.push(n);
            }
            (b"end", evidence) => {
                let count = match evidence {
                    Evidence::Rows(rows) => rows.len(),
                    Evidence::Hedge(h) => h.items.len(),
                };
                lines.end(at, &fields, count)?;
                break;
            }
            _ => return fault(1, at),
        }
    }
    Ok(Sheet { left: pair[0], right: pair[1], evidence })
}
