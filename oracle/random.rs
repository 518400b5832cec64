//! Random small grammars, scripts and hedges, each made from a seed alone.

use crate::text::{unlawful, Grammar, Hedge, Item, Name, Node, Relation};

pub struct Dice(u64);

impl Dice {
    pub fn new(seed: u64) -> Self {
        Dice(seed.wrapping_mul(0x9e37_79b9_7f4a_7c15) ^ 0x5851_f42d_4c95_7f2d)
    }

    fn throw(&mut self) -> u64 {
        self.0 = self.0.wrapping_add(0x9e37_79b9_7f4a_7c15);
        let mut z = self.0;
        z = (z ^ (z >> 30)).wrapping_mul(0xbf58_476d_1ce4_e5b9);
        z = (z ^ (z >> 27)).wrapping_mul(0x94d0_49bb_1331_11eb);
        z ^ (z >> 31)
    }

    /// A number below n.
    fn below(&mut self, n: usize) -> usize {
        (self.throw() % n as u64) as usize
    }

    fn from(&mut self, low: usize, high: usize) -> usize {
        low + self.below(high - low + 1)
    }

    /// True so many times in a hundred.
    fn chance(&mut self, percent: usize) -> bool {
        self.below(100) < percent
    }
}

/// A grammar with lawful recursion. By even seeds it has 2 to 5 names, 3 to 14 nodes and 1 to 4 rules put
/// together at random; by odd seeds its rules are rewritings of each other, or unions of items with a
/// rest whose contents and rests overlap.
pub fn grammar(seed: u64) -> Grammar {
    let mut dice = Dice::new(seed);
    loop {
        let g = match seed % 4 {
            1 => related(&mut dice),
            3 => crossed(&mut dice),
            _ => attempt(&mut dice),
        };
        if let Some(g) = g {
            return g;
        }
    }
}

fn names(dice: &mut Dice) -> Vec<Name> {
    let mut names: Vec<Name> = Vec::new();
    let simple_first = dice.chance(75);
    for k in 0..dice.from(2, 5) {
        let element = if k == 0 { !simple_first } else { k == 1 || dice.chance(80) };
        let mut head = None;
        if k > 0 && dice.chance(45) {
            head = Some(dice.below(k)).filter(|&h| names[h].element == element);
        }
        names.push(Name { element, spelling: format!("n{k}"), head });
    }
    names
}

struct Maker<'a> {
    dice: &'a mut Dice,
    g: Grammar,
    most: usize,
    rules: usize,
    /// Bodies that a pattern asks for.
    bodies: Vec<Option<usize>>,
}

fn attempt(dice: &mut Dice) -> Option<Grammar> {
    let g = Grammar { names: names(dice), ..Grammar::default() };
    let (most, rules) = (dice.from(3, 14), dice.from(1, 4));
    let mut maker = Maker { dice, g, most, rules, bodies: vec![None; rules] };
    while maker.g.nodes.len() < most {
        maker.grow();
    }
    let Maker { dice, mut g, bodies, .. } = maker;
    for _ in 0..30 {
        g.rules = (0..rules)
            .map(|k| {
                // late nodes are the large ones
                let late = (0..2).map(|_| dice.below(g.nodes.len())).max().unwrap_or(0);
                (format!("r{k}"), bodies[k].unwrap_or(late))
            })
            .collect();
        if unlawful(&g).is_none() {
            return Some(g);
        }
    }
    None
}

impl Maker<'_> {
    fn add(&mut self, node: Node) -> usize {
        self.g.nodes.push(node);
        self.g.nodes.len() - 1
    }

    fn earlier(&mut self) -> usize {
        let n = self.g.nodes.len();
        if self.dice.chance(50) { n - 1 - self.dice.below(n.min(4)) } else { self.dice.below(n) }
    }

    fn named(&mut self, element: bool) -> Option<usize> {
        let fit: Vec<usize> = (0..self.g.names.len()).filter(|&k| self.g.names[k].element == element).collect();
        (!fit.is_empty()).then(|| fit[self.dice.below(fit.len())])
    }

    /// Adds a node, or a pattern of several where there is room.
    fn grow(&mut self) {
        let room = self.most - self.g.nodes.len();
        if self.g.nodes.is_empty() {
            let first = match self.named(false) {
                Some(n) if self.dice.chance(60) => Node::Simple(n),
                _ => Node::Empty,
            };
            self.add(first);
            return;
        }
        let Some(e) = self.named(true) else {
            self.add(Node::Empty);
            return;
        };
        let (a, b) = (self.earlier(), self.earlier());
        match self.dice.below(100) {
            0..=24 => self.add(Node::Element(e, a)),
            25..=40 => self.add(Node::Seq(a, b)),
            41..=57 => self.add(Node::Union(a, b)),
            58..=66 => self.add(Node::Star(a)),
            67..=72 => match self.named(false) {
                Some(n) => self.add(Node::Simple(n)),
                None => self.add(Node::Empty),
            },
            73..=76 => self.add(Node::Empty),
            77..=78 => self.add(Node::None),
            79..=84 => {
                let k = self.dice.below(self.rules);
                self.add(Node::Rule(k))
            }
            85..=89 if room >= 5 => self.list(e, a, b),
            90..=94 if room >= 4 => self.tree(e, a),
            95..=99 if room >= 5 => self.cut(e, a, b),
            _ => self.add(Node::Element(e, b)),
        };
    }

    /// A list by recursion in last place: an item and the rule again, or an end (sometimes none).
    fn list(&mut self, e: usize, a: usize, b: usize) -> usize {
        let k = self.dice.below(self.rules);
        let item = self.add(Node::Element(e, a));
        let again = self.add(Node::Rule(k));
        let more = self.add(Node::Seq(item, again));
        let body = match self.dice.below(4) {
            0 => more,
            1 => self.add(Node::Union(more, b)),
            _ => {
                let stop = self.add(Node::Empty);
                self.add(Node::Union(stop, more))
            }
        };
        self.bodies[k] = Some(body);
        body
    }

    /// A tree: the rule mentions itself inside brackets.
    fn tree(&mut self, e: usize, a: usize) -> usize {
        let k = self.dice.below(self.rules);
        let again = self.add(Node::Rule(k));
        let inside = match self.dice.below(3) {
            0 => self.add(Node::Star(again)),
            1 => self.add(Node::Union(again, a)),
            _ => self.add(Node::Seq(a, again)),
        };
        let item = self.add(Node::Element(e, inside));
        let body = if self.dice.chance(50) { self.add(Node::Star(item)) } else { self.add(Node::Union(a, item)) };
        self.bodies[k] = Some(body);
        body
    }

    /// One element with either content beside two elements with one content each.
    fn cut(&mut self, e: usize, a: usize, b: usize) -> usize {
        let either = self.add(Node::Union(a, b));
        let whole = self.add(Node::Element(e, either));
        let (one, two) = (self.add(Node::Element(e, a)), self.add(Node::Element(e, b)));
        let parts = self.add(Node::Union(one, two));
        let k = self.dice.below(self.rules);
        self.bodies[k] = Some(if self.dice.chance(50) { whole } else { parts });
        parts
    }
}

/// A grammar of 2 to 4 rules and at most 40 nodes: the first body is drawn at random, each other one is
/// an earlier one rewritten a few times, mostly into one that says the same.
fn related(dice: &mut Dice) -> Option<Grammar> {
    let g = Grammar { names: names(dice), ..Grammar::default() };
    let rules = dice.from(2, 4);
    let mut maker = Maker { dice, g, most: 0, rules, bodies: Vec::new() };
    let depth = maker.dice.from(2, 4);
    let mut bodies = vec![maker.expression(depth, false)];
    while bodies.len() < rules {
        let mut body = bodies[maker.dice.below(bodies.len())];
        for _ in 0..maker.dice.from(1, 6) {
            body = maker.rewrite(body);
        }
        bodies.push(body);
    }
    let mut g = maker.g;
    for k in 0..rules {
        g.rules.push((format!("r{k}"), bodies[k]));
    }
    let g = trimmed(&g);
    (g.nodes.len() <= 40 && unlawful(&g).is_none()).then_some(g)
}

/// A grammar whose rules are unions of one to four parts `e[C];R`, where C and R are choices among the
/// same few expressions; so a rule may be within another by several parts together and by none alone.
fn crossed(dice: &mut Dice) -> Option<Grammar> {
    let named = |element: bool, k: usize, head: Option<usize>| Name { element, spelling: format!("n{k}"), head };
    let below_label = dice.chance(60).then_some(1);
    let below_other = [None, Some(1), Some(3)][dice.below(3)];
    let names = vec![
        named(false, 0, None),
        named(true, 1, None),
        named(true, 2, below_label),
        named(true, 3, None),
        named(true, 4, below_other),
    ];
    let rules = dice.from(2, 3);
    let g = Grammar { names, ..Grammar::default() };
    let mut maker = Maker { dice, g, most: 0, rules, bodies: Vec::new() };
    let blank = maker.add(Node::Empty);
    let mut atoms = vec![maker.add(Node::Simple(0)), maker.add(Node::Element(3, blank)), maker.add(Node::Element(4, blank))];
    if maker.dice.chance(30) {
        atoms[0] = blank;
    }
    if maker.dice.chance(25) {
        let k = maker.dice.below(rules);
        let again = maker.add(Node::Rule(k));
        atoms[1] = maker.add(Node::Element(3, again));
    }
    for k in 0..rules {
        let parts = if k == 0 { 1 } else { maker.dice.from(2, 4) };
        let mut body = maker.part(&atoms, k == 0);
        for _ in 1..parts {
            let part = maker.part(&atoms, false);
            body = maker.add(Node::Union(body, part));
        }
        match maker.dice.below(12) {
            0 => body = maker.add(Node::Star(body)),
            1 => body = maker.add(Node::Element(1, body)),
            _ => {}
        }
        maker.g.rules.push((format!("r{k}"), body));
    }
    let g = trimmed(&maker.g);
    unlawful(&g).is_none().then_some(g)
}

impl Maker<'_> {
    fn part(&mut self, atoms: &[usize], narrow: bool) -> usize {
        let label = if narrow || self.dice.chance(25) { 2 } else { 1 };
        let label = if self.dice.chance(15) { 3 - label } else { label };
        let content = self.choice(atoms);
        let item = self.add(Node::Element(label, content));
        let rest = self.choice(atoms);
        self.add(Node::Seq(item, rest))
    }

    /// A union of one or more of the atoms.
    fn choice(&mut self, atoms: &[usize]) -> usize {
        let set = self.dice.from(1, (1 << atoms.len()) - 1);
        let chosen: Vec<usize> = (0..atoms.len()).filter(|k| set >> k & 1 == 1).map(|k| atoms[k]).collect();
        chosen[1..].iter().fold(chosen[0], |a, &b| self.add(Node::Union(a, b)))
    }
}

/// The grammar without nodes that no body uses, and with like nodes put together.
fn trimmed(g: &Grammar) -> Grammar {
    let mut used = vec![false; g.nodes.len()];
    g.rules.iter().for_each(|r| used[r.1] = true);
    for k in (0..g.nodes.len()).rev().filter(|&k| used[k]).collect::<Vec<_>>() {
        mark(g, k, &mut used);
    }
    let mut nodes: Vec<Node> = Vec::new();
    let mut place = vec![0; g.nodes.len()];
    for k in (0..g.nodes.len()).filter(|&k| used[k]) {
        let node = match g.nodes[k] {
            Node::Element(n, c) => Node::Element(n, place[c]),
            Node::Union(a, b) => Node::Union(place[a], place[b]),
            Node::Seq(a, b) => Node::Seq(place[a], place[b]),
            Node::Star(a) => Node::Star(place[a]),
            node => node,
        };
        place[k] = nodes.iter().position(|n| *n == node).unwrap_or(nodes.len());
        if place[k] == nodes.len() {
            nodes.push(node);
        }
    }
    let rules = g.rules.iter().map(|(said, body)| (said.clone(), place[*body])).collect();
    Grammar { names: g.names.clone(), nodes, rules }
}

fn mark(g: &Grammar, node: usize, used: &mut Vec<bool>) {
    used[node] = true;
    match g.nodes[node] {
        Node::Element(_, a) | Node::Star(a) => mark(g, a, used),
        Node::Union(a, b) | Node::Seq(a, b) => {
            mark(g, a, used);
            mark(g, b, used);
        }
        _ => {}
    }
}

impl Maker<'_> {
    /// A random expression; mentions of rules stand inside brackets.
    fn expression(&mut self, depth: usize, inside: bool) -> usize {
        if depth == 0 || self.dice.chance(8) {
            let node = match (self.dice.below(10), self.named(false), inside) {
                (0, _, _) => Node::Empty,
                (1..=2, _, true) => Node::Rule(self.dice.below(self.rules)),
                (1..=6, Some(n), _) => Node::Simple(n),
                _ => {
                    let blank = self.add(Node::Empty);
                    self.named(true).map_or(Node::Empty, |e| Node::Element(e, blank))
                }
            };
            return self.add(node);
        }
        match (self.dice.below(10), self.named(true)) {
            (0..=3, Some(e)) => {
                let content = self.expression(depth - 1, true);
                self.add(Node::Element(e, content))
            }
            (4, _) => {
                let body = self.expression(depth - 1, inside);
                self.add(Node::Star(body))
            }
            (k, _) => {
                let (a, b) = (self.expression(depth - 1, inside), self.expression(depth - 1, inside));
                self.add(if k % 2 == 0 { Node::Union(a, b) } else { Node::Seq(a, b) })
            }
        }
    }

    /// The node with one place in it rewritten.
    fn rewrite(&mut self, node: usize) -> usize {
        if self.dice.chance(40) {
            return if self.dice.chance(75) { self.reword(node) } else { self.alter(node) };
        }
        match self.g.nodes[node] {
            Node::Element(e, c) => {
                let c = self.rewrite(c);
                self.add(Node::Element(e, c))
            }
            Node::Star(a) => {
                let a = self.rewrite(a);
                self.add(Node::Star(a))
            }
            Node::Union(a, b) => {
                let (a, b) = if self.dice.chance(50) { (self.rewrite(a), b) } else { (a, self.rewrite(b)) };
                self.add(Node::Union(a, b))
            }
            Node::Seq(a, b) => {
                let (a, b) = if self.dice.chance(50) { (self.rewrite(a), b) } else { (a, self.rewrite(b)) };
                self.add(Node::Seq(a, b))
            }
            _ => self.alter(node),
        }
    }

    /// The node said in another way, with the same language.
    fn reword(&mut self, node: usize) -> usize {
        let at = |g: &Grammar, k: usize| g.nodes[k];
        match at(&self.g, node) {
            Node::Element(e, c) => match at(&self.g, c) {
                Node::Union(a, b) => {
                    let (a, b) = (self.add(Node::Element(e, a)), self.add(Node::Element(e, b)));
                    self.add(Node::Union(a, b))
                }
                _ => node,
            },
            Node::Star(a) => {
                let (first, second) = if self.dice.chance(50) { (a, node) } else { (node, a) };
                let more = self.add(Node::Seq(first, second));
                let stop = self.add(Node::Empty);
                self.add(Node::Union(stop, more))
            }
            Node::Union(a, b) => match (at(&self.g, a), at(&self.g, b)) {
                (Node::Element(e, c), Node::Element(f, d)) if e == f => {
                    let either = self.add(Node::Union(c, d));
                    self.add(Node::Element(e, either))
                }
                _ => self.add(Node::Union(b, a)),
            },
            Node::Seq(a, b) => match (at(&self.g, a), at(&self.g, b)) {
                (Node::Union(c, d), _) => {
                    let (c, d) = (self.add(Node::Seq(c, b)), self.add(Node::Seq(d, b)));
                    self.add(Node::Union(c, d))
                }
                (_, Node::Union(c, d)) => {
                    let (c, d) = (self.add(Node::Seq(a, c)), self.add(Node::Seq(a, d)));
                    self.add(Node::Union(c, d))
                }
                (Node::Seq(c, d), _) => {
                    let right = self.add(Node::Seq(d, b));
                    self.add(Node::Seq(c, right))
                }
                _ => node,
            },
            _ => node,
        }
    }

    /// The node with another language, often one near to its own.
    fn alter(&mut self, node: usize) -> usize {
        match (self.dice.below(6), self.g.nodes[node]) {
            // an element and its rest, with another content in one part and another rest in the other
            (0..=3, Node::Seq(a, b)) => {
                let Node::Element(e, c) = self.g.nodes[a] else { return node };
                let (content, rest) = (self.alter(c), self.alter(b));
                let one = self.add(Node::Element(e, content));
                let (left, right) = (self.add(Node::Seq(one, b)), self.add(Node::Seq(a, rest)));
                self.add(Node::Union(left, right))
            }
            (0..=2, Node::Union(a, b)) => if self.dice.chance(50) { a } else { b },
            (0, Node::Element(_, c)) => match self.named(true) {
                Some(e) => self.add(Node::Element(e, c)),
                None => node,
            },
            (1, Node::Star(a)) => a,
            (2, _) => self.add(Node::Star(node)),
            (3, _) => self.add(Node::Empty),
            _ => {
                let other = self.expression(1, false);
                self.add(Node::Union(node, other))
            }
        }
    }
}

/// A script that asks about all pairs of rules in some order and looks each up, writes the sheets, and
/// tests the hedges of the files for all rules.
pub fn script(seed: u64, g: &Grammar, hedges: &[String]) -> String {
    let mut dice = Dice::new(seed ^ 0x5c21_9700);
    let rules = g.rules.len();
    let mut pairs: Vec<(usize, usize)> = (0..rules * rules).map(|k| (k / rules, k % rules)).collect();
    for k in (1..pairs.len()).rev() {
        pairs.swap(k, dice.below(k + 1));
    }
    let mut out = String::new();
    for &(a, b) in &pairs {
        out += &format!("question={a},{b},512\nwrite=262144\nlookup={a},{b}\n");
    }
    if dice.chance(30) {
        out += "clear\n";
    }
    for &(a, b) in &pairs {
        out += &format!("lookup={a},{b}\n");
    }
    for file in hedges {
        for k in 0..rules {
            out += &format!("member={k},{file},512\n");
        }
    }
    out
}

/// A hedge in some order of its items: mostly one drawn from a rule, sometimes changed a little, else
/// any items.
pub fn hedge(seed: u64, g: &Grammar, relation: &Relation) -> Hedge {
    let mut dice = Dice::new(seed ^ 0x4ed9_e000);
    let mut out = Hedge::default();
    if !g.rules.is_empty() && dice.chance(80) {
        for _ in 0..20 {
            let rule = dice.below(g.rules.len());
            out.items.clear();
            if let Some(last) = draw(&mut dice, g, relation, g.rules[rule].1, 0, 12, &mut out) {
                // the last item has to begin the hedge
                out.items.truncate(last);
                break;
            }
        }
        if out.items.len() > 200 {
            out.items.clear();
        }
        if !out.items.is_empty() && dice.chance(35) {
            let k = dice.below(out.items.len());
            let t = dice.below(g.names.len());
            out.items[k].name = t;
            if !g.names[t].element {
                out.items[k].child = 0;
            } else if dice.chance(40) {
                out.items[k].child = dice.below(k + 1);
            } else if dice.chance(40) {
                out.items[k].next = dice.below(k + 1);
            }
        }
        return out;
    }
    for k in 0..dice.below(7) {
        let name = dice.below(g.names.len());
        let child = if g.names[name].element { dice.below(k + 1) } else { 0 };
        out.items.push(Item { name, child, next: dice.below(k + 1) });
    }
    out
}

/// Draws a hedge of the node in front of the item `next`; answers the item that begins it.
fn draw(dice: &mut Dice, g: &Grammar, r: &Relation, node: usize, next: usize, fuel: usize, out: &mut Hedge) -> Option<usize> {
    if fuel == 0 || out.items.len() > 200 {
        return None;
    }
    match g.nodes[node] {
        Node::None => None,
        Node::Empty => Some(next),
        Node::Simple(n) | Node::Element(n, _) => {
            let fit: Vec<usize> = (0..g.names.len()).filter(|&t| r.covers(n, t)).collect();
            let name = fit[dice.below(fit.len())];
            let child = match g.nodes[node] {
                Node::Element(_, content) => draw(dice, g, r, content, 0, fuel - 1, out)?,
                _ => 0,
            };
            out.items.push(Item { name, child, next });
            Some(out.items.len())
        }
        Node::Rule(k) => draw(dice, g, r, g.rules[k].1, next, fuel - 1, out),
        Node::Union(a, b) => {
            let (a, b) = if dice.chance(50) { (a, b) } else { (b, a) };
            let before = out.items.len();
            draw(dice, g, r, a, next, fuel, out).or_else(|| {
                out.items.truncate(before);
                draw(dice, g, r, b, next, fuel, out)
            })
        }
        Node::Seq(a, b) => {
            let middle = draw(dice, g, r, b, next, fuel, out)?;
            draw(dice, g, r, a, middle, fuel, out)
        }
        Node::Star(a) => {
            let mut at = next;
            for _ in 0..dice.below(4) {
                let before = out.items.len();
                match draw(dice, g, r, a, at, fuel, out) {
                    Some(begin) => at = begin,
                    None => out.items.truncate(before),
                }
            }
            Some(at)
        }
    }
}
