//! Inclusion by a bottom-up determinised automaton over hedges.
//!
//! Every rule and every content expression becomes a word automaton whose letters are the `simple` and
//! `element` nodes. A mention outside brackets becomes a way into a copy of its rule, and a rule's
//! mention of itself in last place a way back to the beginning of the copy. All end in one place.
//!
//! The state of a hedge is the set of all places from which it leads to the end. The empty hedge has
//! the places that reach the end without a letter. The state of an item followed by a hedge comes from
//! the state of what is inside the item, which tells the nodes that the item can be, and the state of
//! the hedge that follows. Going on until no new state is met gives all states that hedges have; each
//! keeps one hedge that has it. Rule A is included in rule B when each state met that holds the
//! beginning of A holds that of B.

use crate::text::{Grammar, Hedge, Item, Node, Relation};
use std::collections::HashMap;

type Bits = Box<[u64]>;

fn bits(size: usize) -> Bits {
    vec![0; size / 64 + 1].into_boxed_slice()
}

fn has(set: &Bits, k: usize) -> bool {
    set[k / 64] >> (k % 64) & 1 == 1
}

fn put(set: &mut Bits, k: usize) {
    set[k / 64] |= 1 << (k % 64);
}

fn none_of(a: &Bits, b: &Bits) -> bool {
    a.iter().zip(b.iter()).all(|(x, y)| x & y == 0)
}

/// Limits of the search; past them the answer is "too large".
const MOST_PLACES: usize = 20_000;
const MOST_STATES: usize = 20_000;
const MOST_STEPS: usize = 6_000_000;

#[derive(Debug)]
pub struct TooLarge;

/// The word automata, with steps that read no letter and steps that read one node's item.
struct Words<'a> {
    g: &'a Grammar,
    silent: Vec<Vec<usize>>,
    letter: Vec<Option<(usize, usize)>>,
    /// The place that begins a node's automaton with a given end.
    begun: HashMap<(usize, usize), usize>,
    /// The place that begins a rule's copy with a given end.
    copies: HashMap<(usize, usize), usize>,
}

const END: usize = 0;

impl<'a> Words<'a> {
    fn new(g: &'a Grammar) -> Self {
        Words { g, silent: vec![Vec::new()], letter: vec![None], begun: HashMap::new(), copies: HashMap::new() }
    }

    fn place(&mut self) -> Result<usize, TooLarge> {
        self.silent.push(Vec::new());
        self.letter.push(None);
        if self.silent.len() > MOST_PLACES { Err(TooLarge) } else { Ok(self.silent.len() - 1) }
    }

    /// A place from which the node's hedges, and only those, lead to `end`.
    fn begin(&mut self, node: usize, end: usize) -> Result<usize, TooLarge> {
        if let Some(&at) = self.begun.get(&(node, end)) {
            return Ok(at);
        }
        let at = match self.g.nodes[node] {
            Node::None => self.place()?,
            Node::Empty => end,
            Node::Simple(_) | Node::Element(..) => {
                let at = self.place()?;
                self.letter[at] = Some((node, end));
                at
            }
            Node::Rule(k) => self.copy(k, end)?,
            Node::Union(a, b) => {
                let (a, b) = (self.begin(a, end)?, self.begin(b, end)?);
                let at = self.place()?;
                self.silent[at] = vec![a, b];
                at
            }
            Node::Seq(a, b) => {
                let middle = self.begin(b, end)?;
                self.begin(a, middle)?
            }
            Node::Star(a) => {
                let at = self.place()?;
                let round = self.begin(a, at)?;
                self.silent[at] = vec![end, round];
                at
            }
        };
        self.begun.insert((node, end), at);
        Ok(at)
    }

    /// The beginning of rule k's copy that ends in `end`. The rule's mention of itself in last place
    /// has the same end, so it leads back here.
    fn copy(&mut self, k: usize, end: usize) -> Result<usize, TooLarge> {
        if let Some(&at) = self.copies.get(&(k, end)) {
            return Ok(at);
        }
        let at = self.place()?;
        self.copies.insert((k, end), at);
        let body = self.begin(self.g.rules[k].1, end)?;
        self.silent[at] = vec![body];
        Ok(at)
    }

    /// All places reached from `from` without a letter.
    fn reach(&self, from: usize) -> Vec<usize> {
        let mut seen = vec![false; self.silent.len()];
        let (mut todo, mut out) = (vec![from], Vec::new());
        seen[from] = true;
        while let Some(at) = todo.pop() {
            out.push(at);
            for &to in &self.silent[at] {
                if !std::mem::replace(&mut seen[to], true) {
                    todo.push(to);
                }
            }
        }
        out
    }
}

/// A step that reads one node's item: its end, and the beginnings that reach it without a letter.
struct Step {
    end: usize,
    before: Bits,
}

/// A letter: a `simple` or `element` node that some rule in view uses.
struct Leaf {
    name: usize,
    /// Where the content's automaton begins; none for a simple name.
    content: Option<usize>,
    steps: Vec<Step>,
}

/// The places that matter (beginnings of rules and contents, ends of letters), numbered anew.
struct Table {
    places: usize,
    rules: HashMap<usize, usize>,
    leaves: Vec<Leaf>,
    /// The state of the empty hedge.
    empty: Bits,
}

impl Table {
    /// The table for the given rules and all that they use.
    fn new(g: &Grammar, rules: &[usize]) -> Result<Self, TooLarge> {
        let mut words = Words::new(g);
        let mut number: HashMap<usize, usize> = HashMap::new();
        let mut order: Vec<usize> = Vec::new();
        let mut know = |place: usize, order: &mut Vec<usize>| {
            *number.entry(place).or_insert_with(|| {
                order.push(place);
                order.len() - 1
            })
        };
        let mut begins = HashMap::new();
        for &k in rules {
            let place = words.copy(k, END)?;
            begins.insert(k, know(place, &mut order));
        }
        // (place known, node read, end known), and the places known that reach the end
        let mut reads: Vec<(usize, usize, usize)> = Vec::new();
        let mut ending: Vec<usize> = Vec::new();
        let mut contents: HashMap<usize, Option<usize>> = HashMap::new();
        let mut at = 0;
        while at < order.len() {
            for place in words.reach(order[at]) {
                if place == END {
                    ending.push(at);
                }
                let Some((node, end)) = words.letter[place] else { continue };
                reads.push((at, node, know(end, &mut order)));
                if let Node::Element(_, content) = g.nodes[node] {
                    let begin = words.begin(content, END)?;
                    contents.insert(node, Some(know(begin, &mut order)));
                } else {
                    contents.insert(node, None);
                }
            }
            at += 1;
        }
        let places = order.len();
        let mut empty = bits(places);
        ending.iter().for_each(|&k| put(&mut empty, k));
        let mut nodes: Vec<usize> = contents.keys().copied().collect();
        nodes.sort();
        let mut leaves = Vec::new();
        for node in nodes {
            let mut steps: Vec<Step> = Vec::new();
            for &(from, _, end) in reads.iter().filter(|r| r.1 == node) {
                let k = match steps.iter().position(|s| s.end == end) {
                    Some(k) => k,
                    None => {
                        steps.push(Step { end, before: bits(places) });
                        steps.len() - 1
                    }
                };
                put(&mut steps[k].before, from);
            }
            let name = match g.nodes[node] {
                Node::Simple(n) | Node::Element(n, _) => n,
                _ => unreachable!("only simple and element nodes are letters"),
            };
            leaves.push(Leaf { name, content: contents[&node], steps });
        }
        Ok(Table { places, rules: begins, leaves, empty })
    }

    /// The letters that an item can be: name t with a hedge of state `inside` in it.
    fn letters(&self, relation: &Relation, t: usize, inside: &Bits) -> Bits {
        let mut out = bits(self.leaves.len());
        for (k, leaf) in self.leaves.iter().enumerate() {
            if relation.covers(leaf.name, t) && leaf.content.map_or(true, |c| has(inside, c)) {
                put(&mut out, k);
            }
        }
        out
    }

    /// The state of an item that can be `letters`, followed by a hedge of state `rest`.
    fn step(&self, letters: &Bits, rest: &Bits) -> Bits {
        let mut out = bits(self.places);
        for (k, leaf) in self.leaves.iter().enumerate() {
            if !has(letters, k) {
                continue;
            }
            for step in leaf.steps.iter().filter(|s| has(rest, s.end)) {
                out.iter_mut().zip(step.before.iter()).for_each(|(x, y)| *x |= y);
            }
        }
        out
    }

    /// The places that rule k uses, inside brackets too.
    fn used_by(&self, k: usize) -> Bits {
        let mut out = bits(self.places);
        put(&mut out, self.rules[&k]);
        loop {
            let before = out.clone();
            for leaf in &self.leaves {
                for step in leaf.steps.iter().filter(|s| !none_of(&s.before, &before)) {
                    put(&mut out, step.end);
                    leaf.content.iter().for_each(|&c| put(&mut out, c));
                }
            }
            if out == before {
                return out;
            }
        }
    }
}

/// All states that hedges of the rules in view have, each with how it was first met.
struct States {
    table: Table,
    met: Vec<(Bits, Option<Item>)>,
}

impl States {
    /// Meets every state. A hedge that no rule's automaton can use is passed over, for no hedge in a
    /// rule's language has it as a part. Where a pair of rules is given, so is a hedge that its left
    /// cannot use, and the search ends with the first state of a hedge in the left and not in the right.
    fn new(g: &Grammar, relation: &Relation, rules: &[usize], pair: Option<(usize, usize)>) -> Result<Self, TooLarge> {
        let table = Table::new(g, rules)?;
        let needed = match pair {
            Some((left, _)) => table.used_by(left),
            None => vec![!0; table.places / 64 + 1].into_boxed_slice(),
        };
        let begins = pair.map(|(left, right)| (table.rules[&left], table.rules[&right]));
        let sought = |state: &Bits| begins.map_or(false, |(l, r)| has(state, l) && !has(state, r));
        let mut met = Vec::new();
        let mut known: HashMap<Bits, usize> = HashMap::new();
        if !none_of(&table.empty, &needed) {
            met.push((table.empty.clone(), None));
            known.insert(table.empty.clone(), 0);
            if sought(&table.empty) {
                return Ok(States { table, met });
            }
        }
        // letters that items have, each with a name and the state inside
        let mut items: Vec<(Bits, usize, usize)> = Vec::new();
        let mut known_items: HashMap<Bits, ()> = HashMap::new();
        let mut tried: Vec<usize> = Vec::new();
        let mut steps = 0;
        loop {
            while tried.len() < met.len() {
                let k = tried.len();
                tried.push(0);
                for t in 0..g.names.len() {
                    if k > 0 && !g.names[t].element {
                        continue;
                    }
                    let letters = table.letters(relation, t, &met[k].0);
                    if letters.iter().any(|&x| x != 0) && known_items.insert(letters.clone(), ()).is_none() {
                        items.push((letters, t, k));
                    }
                }
            }
            let mut grew = false;
            for k in 0..tried.len() {
                while tried[k] < items.len() {
                    let (letters, name, inside) = &items[tried[k]];
                    tried[k] += 1;
                    steps += 1;
                    if steps > MOST_STEPS {
                        return Err(TooLarge);
                    }
                    let state = table.step(letters, &met[k].0);
                    if none_of(&state, &needed) || known.contains_key(&state) {
                        continue;
                    }
                    known.insert(state.clone(), met.len());
                    let last = sought(&state);
                    met.push((state, Some(Item { name: *name, child: *inside, next: k })));
                    if last {
                        return Ok(States { table, met });
                    }
                    grew = true;
                    if met.len() > MOST_STATES {
                        return Err(TooLarge);
                    }
                }
            }
            if !grew {
                return Ok(States { table, met });
            }
        }
    }

    /// Whether the rule has the hedge, by the state of the hedge.
    fn holds(&self, relation: &Relation, rule: usize, hedge: &Hedge) -> bool {
        let mut found = vec![self.table.empty.clone()];
        for item in &hedge.items {
            let letters = self.table.letters(relation, item.name, &found[item.child]);
            found.push(self.table.step(&letters, &found[item.next]));
        }
        has(&found[hedge.items.len()], self.table.rules[&rule])
    }

    fn find(&self, left: usize, right: usize) -> Option<Hedge> {
        let (l, r) = (self.table.rules[&left], self.table.rules[&right]);
        let at = self.met.iter().position(|(state, _)| has(state, l) && !has(state, r))?;
        Some(self.spell(at))
    }

    /// The hedge that was kept for a state; what an item uses was met before it.
    fn spell(&self, at: usize) -> Hedge {
        let mut wanted = vec![false; at + 1];
        wanted[at] = true;
        for k in (0..=at).rev() {
            if let (true, Some(i)) = (wanted[k], self.met[k].1) {
                wanted[i.child] = true;
                wanted[i.next] = true;
            }
        }
        let mut number = vec![0; at + 1];
        let mut hedge = Hedge::default();
        for k in 0..=at {
            if let (true, Some(i)) = (wanted[k], self.met[k].1) {
                hedge.items.push(Item { name: i.name, child: number[i.child], next: number[i.next] });
                number[k] = hedge.items.len();
            }
        }
        hedge
    }
}

pub enum Verdict {
    Included,
    /// With a hedge of the left rule outside the right one.
    Excluded(Hedge),
    TooLarge,
}

/// Answers questions on one grammar and relation. The states over all rules are met once; where they
/// are too many, those over the two rules of a question.
pub struct Decider<'a> {
    g: &'a Grammar,
    relation: &'a Relation,
    all: Option<Result<States, TooLarge>>,
}

impl<'a> Decider<'a> {
    pub fn new(g: &'a Grammar, relation: &'a Relation) -> Self {
        Decider { g, relation, all: None }
    }

    fn all(&mut self) -> &Result<States, TooLarge> {
        let (g, relation) = (self.g, self.relation);
        let rules: Vec<usize> = (0..g.rules.len()).collect();
        self.all.get_or_insert_with(|| States::new(g, relation, &rules, None))
    }

    /// Whether the rule has the hedge, by the automaton; none where it is too large.
    pub fn holds(&mut self, rule: usize, hedge: &Hedge) -> Option<bool> {
        let relation = self.relation;
        self.all().as_ref().ok().map(|states| states.holds(relation, rule, hedge))
    }

    pub fn decide(&mut self, left: usize, right: usize) -> Verdict {
        let found = match self.all() {
            Ok(states) => states.find(left, right),
            Err(TooLarge) => match self.decide_alone(left, right) {
                Ok(found) => found,
                Err(TooLarge) => return Verdict::TooLarge,
            },
        };
        found.map_or(Verdict::Included, Verdict::Excluded)
    }

    /// Decides with the states over the two rules alone, and only those that the left can use.
    pub fn decide_alone(&self, left: usize, right: usize) -> Result<Option<Hedge>, TooLarge> {
        let states = States::new(self.g, self.relation, &[left, right], Some((left, right)))?;
        Ok(states.find(left, right))
    }
}
