//! The clause list of a sheet (document 01, "Clauses", numbers 1 to 10 and 13; OR as Change 2 has it, limited sorts as
//! Change 8).

use crate::sheet::{self, Relation, Shape, Sheet, SHORT, SIZE};
use std::collections::BTreeMap;

/// The most variables that a list may have.
pub const VARIABLES: usize = 16_000;

/// What counting and writing answer.
#[derive(Clone, Copy, Debug, PartialEq, Eq)]
pub struct Size {
    pub variables: u32,
    pub clauses: u32,
    pub words: u32,
}

/// What OR meets in a list, for a suite that wants to have met each; the last three where something was struck out.
pub const MET: [&str; 7] = [
    "a -1 struck out",
    "a repeat struck out",
    "a list that holds 1",
    "a literal and its opposite",
    "nothing that remains",
    "one literal that remains",
    "several literals that remain",
];

/// A clause list before it is laid out in words.
#[derive(Clone, Debug, PartialEq, Eq)]
pub struct Clauses {
    pub variables: u32,
    pub clauses: Vec<Vec<i32>>,
    /// How often each of `MET` came up.
    pub met: [usize; MET.len()],
}

impl Clauses {
    pub fn size(&self) -> Size {
        let words: usize = self.clauses.iter().map(|clause| 1 + clause.len()).sum();
        Size { variables: self.variables, clauses: self.clauses.len() as u32, words: words as u32 }
    }

    /// Each clause headed by its literal count.
    pub fn words(&self) -> Vec<i32> {
        let mut words = Vec::new();
        for clause in &self.clauses {
            words.push(clause.len() as i32);
            words.extend(clause);
        }
        words
    }
}

/// A literal for each cell: the rows of an expression. A set has one row.
type Matrix = Vec<Vec<i32>>;

/// What is written so far. Number 10 ends the work as soon as it is known to apply.
struct Translation<'s> {
    sheet: &'s Sheet,
    shapes: Vec<Shape>,
    /// The highest variable so far.
    last: usize,
    clauses: Vec<Vec<i32>>,
    met: [usize; MET.len()],
}

/// The whole list of an accepted sheet, or number 10.
pub fn translate(sheet: &Sheet) -> Result<Clauses, u32> {
    let shapes = sheet::shapes(sheet).expect("an accepted sheet");
    let last = 1 + sheet.cells();
    let mut translation = Translation { sheet, shapes, last, clauses: vec![vec![1]], met: [0; MET.len()] };
    for relation in 0..sheet.relations.len() {
        translation.membership(relation);
    }
    for relation in 0..sheet.relations.len() {
        translation.mark(relation);
    }
    let root = sheet.nodes.len() - 1;
    let literal = translation.formula(root as u8, [0; 4])?;
    translation.clauses.push(vec![literal]);
    Ok(Clauses { variables: translation.last as u32, clauses: translation.clauses, met: translation.met })
}

impl Translation<'_> {
    /// The variables of a relation's cells, row by row.
    fn cells(&self, relation: usize) -> Matrix {
        let before = self.sheet.cells_before(relation);
        let (rows, columns) = self.sheet.extent(self.sheet.relations[relation].shape());
        let cell = |row: usize, column: usize| (2 + before + row * columns + column) as i32;
        (0..rows).map(|row| (0..columns).map(|column| cell(row, column)).collect()).collect()
    }

    /// The variable of an atom's membership cell; none where its sort is not limited.
    fn member(&self, sort: u8, atom: usize) -> Option<i32> {
        let before: usize = self.sheet.limited().take_while(|&s| s < sort).map(|s| self.sheet.scope(s)).sum();
        self.sheet.is_limited(sort).then_some((2 + before + atom) as i32)
    }

    /// For each cell of a relation and each of its columns over a limited sort: the cell's atom there is a member.
    fn membership(&mut self, relation: usize) {
        let sorts = self.sheet.relations[relation].sorts();
        for (row, cells) in self.cells(relation).iter().enumerate() {
            for (column, &cell) in cells.iter().enumerate() {
                let atoms = if sorts.len() == 1 { vec![column] } else { vec![row, column] };
                let members = sorts.iter().zip(atoms).filter_map(|(&sort, atom)| self.member(sort, atom));
                let clauses: Vec<Vec<i32>> = members.map(|member| vec![-cell, member]).collect();
                self.clauses.extend(clauses);
            }
        }
    }

    /// The clauses of a relation's mark. A row of two columns is bound to have a value only if its atom is a member.
    fn mark(&mut self, relation: usize) {
        let Relation { columns, mark, first, .. } = self.sheet.relations[relation];
        for (number, row) in self.cells(relation).into_iter().enumerate() {
            if mark >= 1 {
                self.clauses.extend(pairs(&row).iter().map(|&(p, q)| vec![-p, -q]));
            }
            if mark == 2 {
                let member = if columns == 2 { self.member(first, number) } else { None };
                self.clauses.push(member.map(|member| -member).into_iter().chain(row).collect());
            }
        }
    }

    /// OR of a list: -1 and every repeat are struck out; 1, or a literal and its opposite, make it 1.
    fn or(&mut self, list: &[i32]) -> Result<i32, u32> {
        let mut places = first_places(list);
        let repeats = places.len() < list.len();
        let falsity = places.remove(&-1).is_some();
        let truth = places.contains_key(&1);
        let opposites = places.keys().any(|literal| places.contains_key(&-literal));
        let mut remaining: Vec<i32> = places.keys().copied().collect();
        remaining.sort_by_key(|literal| places[literal]);
        self.meet(falsity, repeats, truth, opposites, remaining.len());
        match remaining.as_slice() {
            _ if truth || opposites => Ok(1),
            [] => Ok(-1),
            [literal] => Ok(*literal),
            _ => self.gate(&remaining),
        }
    }

    /// The next variable, and its clauses.
    fn gate(&mut self, literals: &[i32]) -> Result<i32, u32> {
        self.last += 1;
        if self.last > VARIABLES {
            return Err(SIZE);
        }
        let gate = self.last as i32;
        self.clauses.extend(literals.iter().map(|&literal| vec![gate, -literal]));
        self.clauses.push([&[-gate], literals].concat());
        Ok(gate)
    }

    /// Counts what came up in a list.
    fn meet(&mut self, falsity: bool, repeats: bool, truth: bool, opposites: bool, remaining: usize) {
        let struck = (falsity || repeats) && !truth && !opposites;
        let remains = [remaining == 0, remaining == 1, remaining > 1].map(|met| struck && met);
        let met = [&[falsity, repeats, truth, opposites], &remains[..]].concat();
        self.met.iter_mut().zip(met).for_each(|(times, met)| *times += usize::from(met));
    }

    fn and(&mut self, literals: &[i32]) -> Result<i32, u32> {
        let opposites: Vec<i32> = literals.iter().map(|literal| -literal).collect();
        Ok(-self.or(&opposites)?)
    }

    fn iff(&mut self, p: i32, q: i32) -> Result<i32, u32> {
        let forth = self.or(&[-p, q])?;
        let back = self.or(&[-q, p])?;
        self.and(&[forth, back])
    }

    /// Matrices of one extent put together cell by cell, in row order.
    fn each<F>(&mut self, a: &Matrix, b: &Matrix, mut cell: F) -> Result<Matrix, u32>
    where
        F: FnMut(&mut Self, i32, i32) -> Result<i32, u32>,
    {
        let mut rows = Matrix::new();
        for (left, right) in a.iter().zip(b) {
            let mut row = Vec::new();
            for (&p, &q) in left.iter().zip(right) {
                row.push(cell(self, p, q)?);
            }
            rows.push(row);
        }
        Ok(rows)
    }

    /// OR over the middle atoms of AND, each middle list finished before the next cell's.
    fn join(&mut self, a: &Matrix, b: &Matrix) -> Result<Matrix, u32> {
        let mut rows = Matrix::new();
        for left in a {
            let mut row = Vec::new();
            for column in 0..b[0].len() {
                let mut halves = Vec::new();
                for (middle, &p) in left.iter().enumerate() {
                    halves.push(self.and(&[p, b[middle][column]])?);
                }
                row.push(self.or(&halves)?);
            }
            rows.push(row);
        }
        Ok(rows)
    }

    fn closure(&mut self, mut matrix: Matrix) -> Result<Matrix, u32> {
        let mut reach = 1;
        while reach < matrix.len() {
            let joined = self.join(&matrix, &matrix)?;
            matrix = self.each(&matrix, &joined, |t, old, new| t.or(&[old, new]))?;
            reach *= 2;
        }
        Ok(matrix)
    }

    /// The walk of an expression, with the atoms of the bound variables.
    fn expression(&mut self, at: u8, environment: [u8; 4]) -> Result<Matrix, u32> {
        let node = self.sheet.nodes[at as usize];
        match node.kind {
            1 => Ok(self.cells(node.a as usize)),
            2 => {
                let atom = environment[node.a as usize] as usize;
                Ok(constants(1, self.sheet.range(node.a), |_, column| column == atom))
            }
            3 => Ok(vec![self.atoms(node.a)]),
            4 => {
                let atoms = self.atoms(node.a);
                let row =
                    |at: usize| (0..atoms.len()).map(|column| if column == at { atoms[at] } else { -1 }).collect();
                Ok((0..atoms.len()).map(row).collect())
            }
            10 => Ok(transposed(&self.expression(node.a, environment)?)),
            11 => {
                let matrix = self.expression(node.a, environment)?;
                self.closure(matrix)
            }
            12 => {
                let bodies = self.bodies(node.a, node.b, environment)?;
                Ok(vec![self.guarded(node.a, bodies, |t, member, body| t.and(&[member, body]))?])
            }
            _ => {
                let a = self.expression(node.a, environment)?;
                let b = self.expression(node.b, environment)?;
                self.operation(at, a, b)
            }
        }
    }

    /// The cells of an expression of two operands.
    fn operation(&mut self, at: u8, a: Matrix, b: Matrix) -> Result<Matrix, u32> {
        let node = self.sheet.nodes[at as usize];
        match node.kind {
            5 => self.each(&a, &b, |t, p, q| t.or(&[p, q])),
            6 => self.each(&a, &b, |t, p, q| t.and(&[p, q])),
            7 => self.each(&a, &b, |t, p, q| t.and(&[p, -q])),
            8 => match self.shapes[node.b as usize] {
                // a set on the right stands as a column, and the answer's column is its row
                Shape::Set(_) => Ok(transposed(&self.join(&a, &transposed(&b))?)),
                _ => self.join(&a, &b),
            },
            9 => {
                let (rows, columns) = (a[0].len(), b[0].len());
                let left = (0..rows).map(|row| vec![a[0][row]; columns]).collect();
                let right = vec![b[0].clone(); rows];
                self.each(&left, &right, |t, p, q| t.and(&[p, q]))
            }
            kind => unreachable!("kind {kind} is no expression"),
        }
    }

    /// The walk of a formula.
    fn formula(&mut self, at: u8, environment: [u8; 4]) -> Result<i32, u32> {
        let node = self.sheet.nodes[at as usize];
        match node.kind {
            20..=24 => self.comparison(at, environment),
            30 => Ok(-self.formula(node.a, environment)?),
            40 => {
                let bodies = self.bodies(node.a, node.b, environment)?;
                let each = self.guarded(node.a, bodies, |t, member, body| t.or(&[-member, body]))?;
                self.and(&each)
            }
            41 => {
                let bodies = self.bodies(node.a, node.b, environment)?;
                let each = self.guarded(node.a, bodies, |t, member, body| t.and(&[member, body]))?;
                self.or(&each)
            }
            kind => {
                let p = self.formula(node.a, environment)?;
                let q = self.formula(node.b, environment)?;
                match kind {
                    31 => self.and(&[p, q]),
                    32 => self.or(&[p, q]),
                    33 => self.or(&[-p, q]),
                    34 => self.iff(p, q),
                    kind => unreachable!("kind {kind} is no formula"),
                }
            }
        }
    }

    /// The walk of a formula over expressions.
    fn comparison(&mut self, at: u8, environment: [u8; 4]) -> Result<i32, u32> {
        let node = self.sheet.nodes[at as usize];
        let a = self.expression(node.a, environment)?;
        if node.kind == 20 || node.kind == 21 {
            let b = self.expression(node.b, environment)?;
            let cells = match node.kind {
                20 => self.each(&a, &b, |t, p, q| t.iff(p, q))?,
                _ => self.each(&a, &b, |t, p, q| t.or(&[-p, q]))?,
            };
            return self.and(&cells.concat());
        }
        let cells = a.concat();
        match node.kind {
            22 => self.or(&cells),
            23 => Ok(-self.or(&cells)?),
            _ => {
                let mut apart = Vec::new();
                for (p, q) in pairs(&cells) {
                    apart.push(self.or(&[-p, -q])?);
                }
                self.and(&apart)
            }
        }
    }

    /// The literals of a binder's body, walked for each atom, ascending.
    fn bodies(&mut self, variable: u8, body: u8, environment: [u8; 4]) -> Result<Vec<i32>, u32> {
        let mut literals = Vec::new();
        for atom in 0..self.sheet.range(variable) {
            let mut inner = environment;
            inner[variable as usize] = atom as u8;
            literals.push(self.formula(body, inner)?);
        }
        Ok(literals)
    }

    /// The bodies of a binder, all walked, each put together with its atom's member; as they are where the sort is not
    /// limited.
    fn guarded<F>(&mut self, variable: u8, bodies: Vec<i32>, mut guard: F) -> Result<Vec<i32>, u32>
    where
        F: FnMut(&mut Self, i32, i32) -> Result<i32, u32>,
    {
        let sort = self.sheet.variables[variable as usize];
        let mut literals = Vec::new();
        for (atom, body) in bodies.into_iter().enumerate() {
            literals.push(match self.member(sort, atom) {
                Some(member) => guard(self, member, body)?,
                None => body,
            });
        }
        Ok(literals)
    }

    /// For each atom of a sort that it exists.
    fn atoms(&self, sort: u8) -> Vec<i32> {
        (0..self.sheet.scope(sort)).map(|atom| self.member(sort, atom).unwrap_or(1)).collect()
    }
}

/// The literals of a list, each with the place where it stands first.
fn first_places(list: &[i32]) -> BTreeMap<i32, usize> {
    let mut places = BTreeMap::new();
    for (place, &literal) in list.iter().enumerate() {
        places.entry(literal).or_insert(place);
    }
    places
}

/// A matrix of 1 and -1.
fn constants(rows: usize, columns: usize, holds: impl Fn(usize, usize) -> bool) -> Matrix {
    let cell = |row, column| if holds(row, column) { 1 } else { -1 };
    (0..rows).map(|row| (0..columns).map(|column| cell(row, column)).collect()).collect()
}

fn transposed(matrix: &Matrix) -> Matrix {
    (0..matrix[0].len()).map(|column| matrix.iter().map(|row| row[column]).collect()).collect()
}

/// All pairs of a list, in order.
fn pairs(literals: &[i32]) -> Vec<(i32, i32)> {
    let mut pairs = Vec::new();
    for (at, &p) in literals.iter().enumerate() {
        pairs.extend(literals[at + 1..].iter().map(|&q| (p, q)));
    }
    pairs
}

/// Counting: numbers 1 to 10, else the size of the list.
pub fn count(sheet: &[u8]) -> Result<Size, u32> {
    Ok(translate(&sheet::read(sheet)?)?.size())
}

/// Writing: numbers 1 to 10 and 13, else the size; the list stands at the front of the slice.
pub fn write(sheet: &[u8], list: &mut [i32]) -> Result<Size, u32> {
    let clauses = translate(&sheet::read(sheet)?)?;
    let words = clauses.words();
    if list.len() < words.len() {
        return Err(SHORT);
    }
    list[..words.len()].copy_from_slice(&words);
    Ok(clauses.size())
}
