//! "The written steps. These fix which rows are appended and in what order."
//!
//! Every step is taken as it is written, again each time: nothing is remembered. That can take
//! exponential time, so steps are counted against a budget.

/// Number of a polynomial: 0 and 1 are the constants, row k has number k + 2.
pub type Number = u32;

/// "Row (v, t, e) means x_v·t + e."
#[derive(Clone, Copy, Debug, PartialEq, Eq, Hash)]
pub struct Row {
    pub var: u32,
    pub then: Number,
    pub els: Number,
}

/// Why the steps end before their answer.
#[derive(Clone, Copy, Debug, PartialEq, Eq)]
pub enum Stop {
    /// "Room has run out when a row must be appended and all R are in use."
    NoRoom,
    /// More steps than the caller is ready to wait for.
    OverBudget,
}

pub type Step<T> = Result<T, Stop>;

/// Rows in use, the room for them, and the steps still allowed.
pub struct Steps {
    pub n: u32,
    pub rows: Vec<Row>,
    pub room: usize,
    pub budget: u64,
}

impl Steps {
    fn row(&self, f: Number) -> Row {
        self.rows[f as usize - 2]
    }

    /// "Its root is x_v; a constant's root counts as index N."
    pub fn root(&self, f: Number) -> u32 {
        if f < 2 {
            self.n
        } else {
            self.row(f).var
        }
    }

    fn then(&self, f: Number) -> Number {
        self.row(f).then
    }

    fn els(&self, f: Number) -> Number {
        self.row(f).els
    }

    fn spend(&mut self, cost: u64) -> Step<()> {
        self.budget = self.budget.checked_sub(cost).ok_or(Stop::OverBudget)?;
        Ok(())
    }

    /// "Make (v, t, e): if t = 0 the answer is e; if a row in use is alike, its number; else append."
    pub fn make(&mut self, var: u32, then: Number, els: Number) -> Step<Number> {
        self.spend(1 + self.rows.len() as u64 / 16)?;
        if then == 0 {
            return Ok(els);
        }
        let row = Row { var, then, els };
        if let Some(index) = self.rows.iter().position(|&used| used == row) {
            return Ok(index as Number + 2);
        }
        if self.rows.len() == self.room {
            return Err(Stop::NoRoom);
        }
        self.rows.push(row);
        Ok(self.rows.len() as Number + 1)
    }

    /// Sum f + g.
    pub fn sum(&mut self, f: Number, g: Number) -> Step<Number> {
        self.spend(1)?;
        // "f = 0 gives g; g = 0 gives f; f = g gives 0."
        if f == 0 {
            return Ok(g);
        }
        if g == 0 {
            return Ok(f);
        }
        if f == g {
            return Ok(0);
        }
        let (root_f, root_g) = (self.root(f), self.root(g));
        if root_f == root_g {
            // "sum of the then-parts, sum of the else-parts, make."
            let then = self.sum(self.then(f), self.then(g))?;
            let els = self.sum(self.els(f), self.els(g))?;
            return self.make(root_f, then, els);
        }
        // "take the smaller root, keep its then-part, add the other operand to its else-part, make."
        let (smaller, other) = if root_f < root_g { (f, g) } else { (g, f) };
        let els = self.sum(self.els(smaller), other)?;
        self.make(self.root(smaller), self.then(smaller), els)
    }

    /// Product f·g.
    pub fn product(&mut self, f: Number, g: Number) -> Step<Number> {
        self.spend(1)?;
        // "f = 1 gives g; f or g = 0 gives 0; g = 1 or f = g gives f."
        if f == 1 {
            return Ok(g);
        }
        if f == 0 || g == 0 {
            return Ok(0);
        }
        if g == 1 || f == g {
            return Ok(f);
        }
        let (root_f, root_g) = (self.root(f), self.root(g));
        if root_f == root_g {
            return self.product_of_equal_roots(f, g);
        }
        // "the smaller root's then-part times the other operand, then its else-part times the
        // other, make; f's side stays the left operand."
        if root_f < root_g {
            let then = self.product(self.then(f), g)?;
            let els = self.product(self.els(f), g)?;
            self.make(root_f, then, els)
        } else {
            let then = self.product(f, self.then(g))?;
            let els = self.product(f, self.els(g))?;
            self.make(root_g, then, els)
        }
    }

    /// "With equal roots, in this order: else(f)·then(g), then(f)·then(g), then(f)·else(g), sum of
    /// the first two, that plus the third, else(f)·else(g), make."
    fn product_of_equal_roots(&mut self, f: Number, g: Number) -> Step<Number> {
        let first = self.product(self.els(f), self.then(g))?;
        let second = self.product(self.then(f), self.then(g))?;
        let third = self.product(self.then(f), self.els(g))?;
        let two = self.sum(first, second)?;
        let three = self.sum(two, third)?;
        let els = self.product(self.els(f), self.els(g))?;
        self.make(self.root(f), three, els)
    }

    /// Normal form of p by F.
    pub fn normal_form(&mut self, p: Number, system: Number) -> Step<Number> {
        self.spend(1)?;
        // "F = 1 or p constant gives p."
        if system == 1 || p < 2 {
            return Ok(p);
        }
        let (root_p, root_system) = (self.root(p), self.root(system));
        if root_p > root_system {
            // "Root of p above F's in index: normal form of p by then(F)."
            return self.normal_form(p, self.then(system));
        }
        if root_p < root_system {
            // "Below: normal forms of then(p) and else(p) by F, make with *p's* root."
            let then = self.normal_form(self.then(p), system)?;
            let els = self.normal_form(self.els(p), system)?;
            return self.make(root_p, then, els);
        }
        // "Equal: a = else(F) by then(F), b = then(p) by then(F), c = else(p) by then(F), then
        // a·b, then that + c."
        let rest = self.then(system);
        let a = self.normal_form(self.els(system), rest)?;
        let b = self.normal_form(self.then(p), rest)?;
        let c = self.normal_form(self.els(p), rest)?;
        let both = self.product(a, b)?;
        self.sum(both, c)
    }

    /// "Finding a one: at each row, if the else-part isn't 0 the variable is 0 and the else-part is
    /// followed; otherwise it is 1 and the then-part is followed. Variables not met are 0."
    pub fn find_one(&self, f: Number) -> Vec<u8> {
        let mut assignment = vec![0; self.n as usize];
        let mut at = f;
        while at >= 2 {
            let row = self.row(at);
            if row.els != 0 {
                at = row.els;
            } else {
                assignment[row.var as usize] = 1;
                at = row.then;
            }
        }
        assignment
    }

    /// The value at an assignment: each row's value from the rows below it, as
    /// "Row (v, t, e) means x_v·t + e" says.
    pub fn value(&self, f: Number, assignment: &[u8]) -> u8 {
        let mut values = vec![0, 1];
        for row in &self.rows {
            let x = assignment[row.var as usize];
            values.push((x & values[row.then as usize]) ^ values[row.els as usize]);
        }
        values[f as usize]
    }
}
