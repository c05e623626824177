//! What the suite `dimacs` met: answers, slices, and the lengths of the numbers in the texts.

use super::covered;

/// How often each was met.
pub struct Met {
    answers: [(&'static str, usize); 3],
    slices: [(&'static str, usize); 6],
    /// Lists with a positive, and with a negative literal of each length.
    literals: [[usize; 5]; 2],
    /// Lists whose v, and whose number of clauses, has each length.
    variables: [usize; 5],
    clauses: [usize; 7],
    solvers: usize,
}

/// The place of a number's length: 0 where it has one digit.
fn place(number: u32) -> usize {
    number.to_string().len() - 1
}

impl Met {
    pub fn nothing() -> Met {
        Met {
            answers: [("a text", 0), ("number 12", 0), ("number 13", 0)],
            slices: [
                ("a slice of the text's length", 0),
                ("a slice of one byte less", 0),
                ("a slice of one byte more", 0),
                ("a longer slice", 0),
                ("a shorter slice", 0),
                ("a slice of no byte", 0),
            ],
            literals: [[0; 5]; 2],
            variables: [0; 5],
            clauses: [0; 7],
            solvers: 0,
        }
    }

    /// A call of the text with a slice of so many bytes; the text's length, where there is one.
    pub fn call(&mut self, answer: Result<u64, u32>, text: Option<usize>, slice: usize) {
        let at = match answer {
            Ok(_) => 0,
            Err(12) => 1,
            Err(_) => 2,
        };
        self.answers[at].1 += 1;
        let Some(text) = text else { return };
        let at = match slice {
            0 => 5,
            _ if slice == text => 0,
            _ if slice + 1 == text => 1,
            _ if slice == text + 1 => 2,
            _ if slice > text => 3,
            _ => 4,
        };
        self.slices[at].1 += 1;
    }

    /// A list whose text agreed.
    pub fn list(&mut self, clauses: &[Vec<i32>], v: u32) {
        let mut met = [[false; 5]; 2];
        clauses.iter().flatten().for_each(|&l| met[usize::from(l < 0)][place(l.unsigned_abs())] = true);
        for (times, met) in self.literals.iter_mut().flatten().zip(met.iter().flatten()) {
            *times += usize::from(*met);
        }
        self.variables[place(v)] += 1;
        self.clauses[place(clauses.len() as u32)] += 1;
    }

    /// A text that the solvers read.
    pub fn read_by(&mut self, solvers: usize) {
        self.solvers += solvers;
    }

    /// That enough of each was met; the suite's line.
    pub fn line(&self) -> Result<String, String> {
        covered(&self.answers, 50)?;
        covered(&self.slices, 1_000)?;
        covered(&[("a solver", self.solvers)], 50)?;
        each_length("a positive literal", &self.literals[0], 200)?;
        each_length("a negative literal", &self.literals[1], 200)?;
        each_length("a number of variables", &self.variables, 100)?;
        each_length("a number of clauses", &self.clauses, 2)?;
        let [(_, texts), (_, list), (_, short)] = self.answers;
        let least = self.literals.iter().flatten().min().unwrap_or(&0);
        Ok(format!(
            "{texts} texts agree, {list} number 12, {short} number 13; literals of each length and sign in {least} lists or more, \
             1 to 7 digits of clauses in {:?}; {} readings by solvers without a complaint",
            self.clauses, self.solvers
        ))
    }
}

/// That numbers of one digit and of each further length came up in enough lists.
fn each_length(what: &str, lists: &[usize], least: usize) -> Result<(), String> {
    let named: Vec<(String, usize)> =
        lists.iter().zip(1..).map(|(&times, digits)| (format!("{what} with {digits} digit(s)"), times)).collect();
    named.iter().try_for_each(|(what, times)| covered(&[(what.as_str(), *times)], least))
}
