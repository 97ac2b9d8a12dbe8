//! What a caller lends: the slices of every call, as they stand before and after it.

use crate::steps::Row;

/// "of one length R (0 to 8,192)"
pub const TABLE_LIMIT: usize = 8_192;

/// A table's three lent slices.
#[derive(Clone, Default, Debug, PartialEq, Eq)]
pub struct Slices {
    pub var: Vec<u16>,
    pub then: Vec<u16>,
    pub els: Vec<u16>,
}

impl Slices {
    /// "three lent slices of 16-bit numbers, for variable, then and else, of one length R"
    pub fn lengths_in_range(&self) -> bool {
        let room = self.var.len();
        self.then.len() == room && self.els.len() == room && room <= TABLE_LIMIT
    }

    /// The first `count` rows.
    pub fn rows(&self, count: usize) -> Vec<Row> {
        (0..count)
            .map(|k| Row {
                var: u32::from(self.var[k]),
                then: u32::from(self.then[k]),
                els: u32::from(self.els[k]),
            })
            .collect()
    }

    /// Writes rows from row `from` on.
    pub fn write(&mut self, from: usize, rows: &[Row]) {
        for (k, row) in rows.iter().enumerate() {
            self.var[from + k] = row.var as u16;
            self.then[from + k] = row.then as u16;
            self.els[from + k] = row.els as u16;
        }
    }

    /// Zeros the rows from row `from` on.
    pub fn zero_from(&mut self, from: usize) {
        for slice in [&mut self.var, &mut self.then, &mut self.els] {
            slice[from..].fill(0);
        }
    }
}

/// Everything a caller lends to one call or another.
#[derive(Clone, Default)]
pub struct Lent {
    /// N, for the calls on a table.
    pub n: u64,
    pub table: Slices,
    /// The count of rows in use, for the calls on a table.
    pub count: u64,
    pub work: Vec<u64>,
    /// For value and one.
    pub assignment: Vec<u8>,
    /// For the circuit call and the text call.
    pub text: Vec<u8>,
    /// For the circuit call.
    pub pattern: Vec<u8>,
}
