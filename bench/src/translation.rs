//! The translation of the library once more, in Rust: the same walk over matrices of at most 64 literals, OR in place over
//! a list that is lent, the same giving up past 16,000 variables. It gets the sheet already read.

use reference::clauses::Size;
use reference::sheet::{Node, Sheet};

const LIMIT: usize = 16_001;

#[derive(Clone, Copy)]
struct Matrix {
    arity: usize,
    rows: usize,
    columns: usize,
    cells: [i32; 64],
}

impl Matrix {
    fn new(arity: usize, rows: usize, columns: usize) -> Matrix {
        Matrix { arity, rows, columns, cells: [-1; 64] }
    }

    fn size(&self) -> usize {
        self.rows * self.columns
    }
}

struct Translation<'a> {
    sheet: &'a Sheet,
    /// the first cell of each relation
    starts: [usize; 16],
    next: usize,
    clauses: usize,
    words: usize,
    list: &'a mut [i32],
    /// OR makes a gate of every list of two or more, constants or not: the rule before Change 2
    plain: bool,
}

/// The numbers of a sheet's clauses, and the clauses in the list as far as it reaches.
pub fn translate(sheet: &Sheet, list: &mut [i32]) -> Result<Size, u32> {
    translate_by(sheet, list, false)
}

/// The same by the rule before Change 2.
pub fn plain(sheet: &Sheet, list: &mut [i32]) -> Result<Size, u32> {
    translate_by(sheet, list, true)
}

fn translate_by(sheet: &Sheet, list: &mut [i32], plain: bool) -> Result<Size, u32> {
    let mut starts = [0; 16];
    let mut cells = 0;
    for r in 0..sheet.relations.len() {
        starts[r] = cells;
        let (rows, columns) = dimensions(sheet, r);
        cells += rows * columns;
    }
    let mut walk = Translation { sheet, starts, next: 2 + cells, clauses: 0, words: 0, list, plain };
    walk.clause(1, &[]);
    walk.marks();
    let root = walk.formula(sheet.nodes.len() - 1, [0; 4]);
    walk.clause(root, &[]);
    if walk.next > LIMIT {
        return Err(10);
    }
    Ok(Size { variables: walk.next as u32 - 1, clauses: walk.clauses as u32, words: walk.words as u32 })
}

fn dimensions(sheet: &Sheet, r: usize) -> (usize, usize) {
    let relation = sheet.relations[r];
    let scope = |sort: u8| sheet.scopes[sort as usize] as usize;
    match relation.columns {
        1 => (1, scope(relation.first)),
        _ => (scope(relation.first), scope(relation.second)),
    }
}

/// Moves what remains of a list to the front and gives its number; 1 alone where the list holds 1 or opposites.
fn settle(inputs: &mut [i32]) -> usize {
    let mut remaining = 0;
    'inputs: for k in 0..inputs.len() {
        let l = inputs[k];
        if l == -1 {
            continue;
        }
        if l == 1 {
            inputs[0] = 1;
            return 1;
        }
        for m in 0..remaining {
            if inputs[m] == l {
                continue 'inputs;
            }
            if inputs[m] == -l {
                inputs[0] = 1;
                return 1;
            }
        }
        inputs[remaining] = l;
        remaining += 1;
    }
    remaining
}

impl Translation<'_> {
    fn clause(&mut self, first: i32, others: &[i32]) {
        if let Some(rest) = self.list.get_mut(self.words..) {
            let words = [1 + others.len() as i32, first].into_iter().chain(others.iter().copied());
            rest.iter_mut().zip(words).for_each(|(place, word)| *place = word);
        }
        self.clauses += 1;
        self.words += 2 + others.len();
    }

    fn gate(&mut self, inputs: &[i32]) -> i32 {
        if self.next > LIMIT {
            return 1;
        }
        let g = self.next as i32;
        inputs.iter().for_each(|&l| self.clause(g, &[-l]));
        self.clause(-g, inputs);
        self.next += 1;
        g
    }

    fn or(&mut self, inputs: &mut [i32]) -> i32 {
        let remaining = if self.plain { inputs.len() } else { settle(inputs) };
        match &inputs[..remaining] {
            [] => -1,
            &[l] => l,
            several => self.gate(several),
        }
    }

    fn and(&mut self, inputs: &mut [i32]) -> i32 {
        inputs.iter_mut().for_each(|l| *l = -*l);
        -self.or(inputs)
    }

    fn either(&mut self, p: i32, q: i32) -> i32 {
        match (p, q) {
            _ if self.plain => self.gate(&[p, q]),
            (-1, l) | (l, -1) => l,
            _ if p == q => p,
            _ if p == 1 || q == 1 || p == -q => 1,
            _ => self.gate(&[p, q]),
        }
    }

    fn both(&mut self, p: i32, q: i32) -> i32 {
        -self.either(-p, -q)
    }

    fn same(&mut self, p: i32, q: i32) -> i32 {
        let x = self.either(-p, q);
        let y = self.either(-q, p);
        self.both(x, y)
    }

    fn matched(&mut self, p: &Matrix, q: &Matrix, pair: impl Fn(&mut Self, i32, i32) -> i32) -> Matrix {
        let mut made = Matrix::new(p.arity, p.rows, p.columns);
        for k in 0..p.size() {
            made.cells[k] = pair(self, p.cells[k], q.cells[k]);
        }
        made
    }

    fn union(&mut self, p: &Matrix, q: &Matrix) -> Matrix {
        self.matched(p, q, |walk, l, k| walk.either(l, k))
    }

    /// A row of the left operand, and a column of the right one.
    fn join_cell(&mut self, left: &[i32], right: &[i32], columns: usize, j: usize) -> i32 {
        let mut middles = [-1; 8];
        for (m, &l) in left.iter().enumerate() {
            middles[m] = self.both(l, right[m * columns + j]);
        }
        self.or(&mut middles[..left.len()])
    }

    fn join(&mut self, p: &Matrix, q: &Matrix) -> Matrix {
        let columns = if q.arity == 1 { 1 } else { q.columns };
        let mut made = Matrix::new(2, p.rows, columns);
        for (i, left) in p.cells[..p.size()].chunks(p.columns.max(1)).enumerate() {
            for j in 0..columns {
                made.cells[i * columns + j] = self.join_cell(left, &q.cells, columns, j);
            }
        }
        if p.arity + q.arity < 4 {
            (made.arity, made.rows, made.columns) = (1, 1, p.rows * columns);
        }
        made
    }

    fn product(&mut self, p: &Matrix, q: &Matrix) -> Matrix {
        let mut made = Matrix::new(2, p.columns, q.columns);
        for k in 0..made.size() {
            made.cells[k] = self.both(p.cells[k / q.columns], q.cells[k % q.columns]);
        }
        made
    }

    /// The rounds up to one that takes no variable and leaves the cells as they were.
    fn closure(&mut self, p: &Matrix) -> Matrix {
        let mut made = *p;
        for _ in 0..p.rows.next_power_of_two().trailing_zeros() {
            let next = self.next;
            let joined = self.join(&made, &made);
            let closer = self.union(&made, &joined);
            if self.next == next && closer.cells == made.cells {
                break;
            }
            made = closer;
        }
        made
    }

    fn leaf(&self, node: Node, env: [usize; 4]) -> Matrix {
        let a = node.a as usize;
        let scope = |sort: u8| self.sheet.scopes[sort as usize] as usize;
        match node.kind {
            1 => {
                let (rows, columns) = dimensions(self.sheet, a);
                let mut made = Matrix::new(self.sheet.relations[a].columns as usize, rows, columns);
                (0..rows * columns).for_each(|k| made.cells[k] = (2 + self.starts[a] + k) as i32);
                made
            }
            2 => {
                let mut made = Matrix::new(1, 1, scope(self.sheet.variables[a]));
                made.cells[env[a]] = 1;
                made
            }
            3 => {
                let mut made = Matrix::new(1, 1, scope(node.a));
                made.cells[..made.columns].fill(1);
                made
            }
            _ => {
                let n = scope(node.a);
                let mut made = Matrix::new(2, n, n);
                (0..n).for_each(|i| made.cells[i * n + i] = 1);
                made
            }
        }
    }

    fn bodies(&mut self, x: usize, body: usize, env: [usize; 4]) -> Matrix {
        let mut made = Matrix::new(1, 1, self.sheet.scopes[self.sheet.variables[x] as usize] as usize);
        for atom in 0..made.columns {
            let mut inner = env;
            inner[x] = atom;
            made.cells[atom] = self.formula(body, inner);
        }
        made
    }

    fn expression(&mut self, v: usize, env: [usize; 4]) -> Matrix {
        if self.next > LIMIT {
            return Matrix::new(1, 1, 0);
        }
        let node = self.sheet.nodes[v];
        let (a, b) = (node.a as usize, node.b as usize);
        match node.kind {
            1..=4 => self.leaf(node, env),
            5..=9 => {
                let (p, q) = (self.expression(a, env), self.expression(b, env));
                match node.kind {
                    5 => self.union(&p, &q),
                    6 => self.matched(&p, &q, |walk, l, k| walk.both(l, k)),
                    7 => self.matched(&p, &q, |walk, l, k| walk.both(l, -k)),
                    8 => self.join(&p, &q),
                    _ => self.product(&p, &q),
                }
            }
            10 => {
                let p = self.expression(a, env);
                let mut made = Matrix::new(2, p.columns, p.rows);
                (0..p.size()).for_each(|k| made.cells[k] = p.cells[k % p.rows * p.columns + k / p.rows]);
                made
            }
            11 => {
                let p = self.expression(a, env);
                self.closure(&p)
            }
            _ => self.bodies(a, b, env),
        }
    }

    fn lone(&mut self, p: &Matrix) -> i32 {
        let (mut pairs, mut count) = ([-1; 2016], 0);
        for i in 0..p.size() {
            for j in i + 1..p.size() {
                pairs[count] = self.both(p.cells[i], p.cells[j]);
                count += 1;
            }
        }
        -self.or(&mut pairs[..count])
    }

    /// A formula over expressions.
    fn comparison(&mut self, node: Node, env: [usize; 4]) -> i32 {
        let mut p = self.expression(node.a as usize, env);
        let size = p.size();
        match node.kind {
            20 | 21 => {
                let q = self.expression(node.b as usize, env);
                let mut made = match node.kind {
                    20 => self.matched(&p, &q, |walk, l, k| walk.same(l, k)),
                    _ => self.matched(&p, &q, |walk, l, k| walk.either(-l, k)),
                };
                self.and(&mut made.cells[..size])
            }
            22 => self.or(&mut p.cells[..size]),
            23 => -self.or(&mut p.cells[..size]),
            _ => self.lone(&p),
        }
    }

    fn formula(&mut self, v: usize, env: [usize; 4]) -> i32 {
        if self.next > LIMIT {
            return -1;
        }
        let node = self.sheet.nodes[v];
        let (a, b) = (node.a as usize, node.b as usize);
        match node.kind {
            20..=24 => self.comparison(node, env),
            30 => -self.formula(a, env),
            31..=34 => {
                let (p, q) = (self.formula(a, env), self.formula(b, env));
                match node.kind {
                    31 => self.both(p, q),
                    32 => self.either(p, q),
                    33 => self.either(-p, q),
                    _ => self.same(p, q),
                }
            }
            _ => {
                let mut made = self.bodies(a, b, env);
                let literals = &mut made.cells[..made.columns];
                if node.kind == 40 {
                    self.and(literals)
                } else {
                    self.or(literals)
                }
            }
        }
    }

    fn marks(&mut self) {
        let sheet = self.sheet;
        for (r, relation) in sheet.relations.iter().enumerate() {
            let (rows, columns) = dimensions(sheet, r);
            for i in 0..rows {
                let row: [i32; 8] = std::array::from_fn(|j| (2 + self.starts[r] + i * columns + j) as i32);
                let row = &row[..columns];
                if relation.mark > 0 {
                    for j in 0..columns {
                        row[j + 1..].iter().for_each(|&q| self.clause(-row[j], &[-q]));
                    }
                }
                if relation.mark == 2 {
                    self.clause(row[0], &row[1..]);
                }
            }
        }
    }
}
