//! The search in Rust by an index with counters: for each literal the clauses that name it, for each clause its true and its open
//! literals, and the clauses that could force as a set of bits. A literal that stands in a clause twice counts once; a clause with both
//! signs of a variable is always true in the end, and never counts.

use reference::search::{Answer, End, Steps};

const OPEN: u8 = 2;
const CHOSEN: u8 = 3;

struct Clause {
    /// its first literal in the list, and the one behind its last
    from: u32,
    to: u32,
    trues: u32,
    opens: u32,
}

impl Clause {
    fn is_false(&self) -> bool {
        self.trues == 0 && self.opens == 0
    }
}

struct Index {
    clauses: Vec<Clause>,
    /// the clauses of each literal, one after another, and where those of a literal begin
    named: Vec<u32>,
    starts: Vec<u32>,
    /// the clauses with one open literal and no true one
    units: Vec<u64>,
    falses: usize,
}

/// The place of a literal.
fn place(literal: i32) -> usize {
    2 * (literal.unsigned_abs() as usize - 1) + usize::from(literal < 0)
}

/// The literals of a clause that count.
fn counted(clause: &[i32]) -> Vec<i32> {
    let mut literals = clause.to_vec();
    literals.sort_unstable();
    literals.dedup();
    if literals.iter().any(|literal| literals.binary_search(&-literal).is_ok()) {
        literals.clear();
    }
    literals
}

impl Index {
    /// With all variables open.
    fn new(list: &[i32], v: usize) -> Index {
        let (mut clauses, mut literals, mut at) = (Vec::new(), Vec::new(), 0);
        while at < list.len() {
            let (from, to) = (at + 1, at + 1 + list[at] as usize);
            let counted = counted(&list[from..to]);
            let (trues, opens) = (u32::from(counted.is_empty()), counted.len() as u32);
            clauses.push(Clause { from: from as u32, to: to as u32, trues, opens });
            literals.push(counted);
            at = to;
        }
        let (named, starts) = named(&literals, v);
        let units = vec![0; clauses.len().div_ceil(64)];
        let mut index = Index { clauses, named, starts, units, falses: 0 };
        (0..index.clauses.len()).for_each(|at| index.note(at));
        index
    }

    /// Whether a clause could force.
    fn note(&mut self, at: usize) {
        let unit = self.clauses[at].trues == 0 && self.clauses[at].opens == 1;
        let (word, bit) = (&mut self.units[at / 64], 1 << (at % 64));
        *word = if unit { *word | bit } else { *word & !bit };
    }

    fn of(&self, literal: i32) -> std::ops::Range<usize> {
        let place = place(literal);
        self.starts[place] as usize..self.starts[place + 1] as usize
    }

    /// A literal becomes true, and its opposite false.
    fn set(&mut self, literal: i32) {
        for k in self.of(literal) {
            let at = self.named[k] as usize;
            self.clauses[at].trues += 1;
            self.clauses[at].opens -= 1;
            self.note(at);
        }
        for k in self.of(-literal) {
            let at = self.named[k] as usize;
            self.clauses[at].opens -= 1;
            self.falses += usize::from(self.clauses[at].is_false());
            self.note(at);
        }
    }

    /// A literal that was true is open again, and so is its opposite.
    fn open(&mut self, literal: i32) {
        for k in self.of(literal) {
            let at = self.named[k] as usize;
            self.clauses[at].trues -= 1;
            self.clauses[at].opens += 1;
            self.note(at);
        }
        for k in self.of(-literal) {
            let at = self.named[k] as usize;
            self.falses -= usize::from(self.clauses[at].is_false());
            self.clauses[at].opens += 1;
            self.note(at);
        }
    }

    /// The first clause that forces.
    fn first(&self) -> Option<&Clause> {
        let word = self.units.iter().position(|&word| word != 0)?;
        Some(&self.clauses[64 * word + self.units[word].trailing_zeros() as usize])
    }
}

/// The clauses of each literal, and where they begin.
fn named(literals: &[Vec<i32>], v: usize) -> (Vec<u32>, Vec<u32>) {
    let mut starts = vec![0; 2 * v + 1];
    literals.iter().flatten().for_each(|&literal| starts[place(literal) + 1] += 1);
    (0..2 * v).for_each(|place| starts[place + 1] += starts[place]);
    let (mut named, mut next) = (vec![0; starts[2 * v] as usize], starts.clone());
    for (at, clause) in literals.iter().enumerate() {
        for &literal in clause {
            let next = &mut next[place(literal)];
            named[*next as usize] = at as u32;
            *next += 1;
        }
    }
    (named, starts)
}

/// A search under way.
struct Search<'a> {
    list: &'a [i32],
    values: &'a mut [u8],
    trail: &'a mut [i32],
    length: usize,
    steps: Steps,
    index: Index,
    choices: usize,
    /// no variable below it is open
    lowest: usize,
}

/// The search over a good list, with slices of v values and v words.
pub fn search(list: &[i32], values: &mut [u8], trail: &mut [i32], budget: u64) -> Answer {
    values.fill(OPEN);
    trail.fill(0);
    let index = Index::new(list, values.len());
    Search { list, values, trail, length: 0, steps: Steps::default(), index, choices: 0, lowest: 0 }.run(budget)
}

impl Search<'_> {
    fn run(&mut self, budget: u64) -> Answer {
        for _ in 0..budget {
            if let Some(answer) = self.end() {
                return answer;
            }
            self.step();
        }
        self.end().unwrap_or(Answer { end: End::Spent, steps: self.steps })
    }

    fn end(&mut self) -> Option<Answer> {
        let end = match self.index.falses {
            0 if self.length == self.values.len() => End::Found,
            1.. if self.choices == 0 => End::None,
            _ => return None,
        };
        if end == End::None {
            self.values.fill(OPEN);
            self.trail.fill(0);
        }
        Some(Answer { end, steps: self.steps })
    }

    fn step(&mut self) {
        if self.index.falses > 0 {
            self.turn();
            self.steps.turns += 1;
        } else if let Some(literal) = self.forced() {
            self.set(literal, u8::from(literal > 0));
            self.steps.forces += 1;
        } else {
            while self.values[self.lowest] != OPEN {
                self.lowest += 1;
            }
            self.set(-(self.lowest as i32 + 1), CHOSEN);
            self.choices += 1;
            self.steps.choices += 1;
        }
    }

    fn forced(&self) -> Option<i32> {
        let clause = self.index.first()?;
        let literals = &self.list[clause.from as usize..clause.to as usize];
        literals.iter().copied().find(|literal| self.values[literal.unsigned_abs() as usize - 1] == OPEN)
    }

    fn set(&mut self, literal: i32, value: u8) {
        self.values[literal.unsigned_abs() as usize - 1] = value;
        self.trail[self.length] = literal;
        self.length += 1;
        self.index.set(literal);
    }

    /// Opens all back to the latest choice, which becomes true.
    fn turn(&mut self) {
        loop {
            self.length -= 1;
            let literal = std::mem::take(&mut self.trail[self.length]);
            let variable = literal.unsigned_abs() as usize - 1;
            self.lowest = self.lowest.min(variable);
            self.index.open(literal);
            if std::mem::replace(&mut self.values[variable], OPEN) == CHOSEN {
                self.choices -= 1;
                return self.set(-literal, 1);
            }
        }
    }
}
