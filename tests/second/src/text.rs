//! The reader of combinational ASCII AIGER, by the paper's section "AIGER text".

/// "text longer than 32,768 bytes" is refusal 9.
pub const TEXT_LIMIT: usize = 32_768;
/// "M or O above 1,024" is refusal 11.
pub const HEADER_LIMIT: u16 = 1_024;

/// A gate line `left right0 right1`.
#[derive(Clone, Copy, Debug, PartialEq, Eq)]
pub struct Gate {
    pub left: u16,
    pub right0: u16,
    pub right1: u16,
}

/// What an accepted text says.
#[derive(Clone, Debug, PartialEq, Eq)]
pub struct Circuit {
    pub max: u16,
    pub inputs: Vec<u16>,
    pub outputs: Vec<u16>,
    pub gates: Vec<Gate>,
}

/// How a line breaks the form.
#[derive(Clone, Copy, Debug, PartialEq, Eq)]
pub enum LineFault {
    /// (a) "when no newline is left in the text from its start on"
    NoNewline,
    /// (b) "a number missing, above 65,535 or with a leading zero"
    Number,
    /// (c) "anything else"
    Other,
}

/// Why a text is refused.
#[derive(Clone, Copy, Debug, PartialEq, Eq)]
pub enum TextRefusal {
    TooLong,
    Line(LineFault),
    Limits,
    Literal,
    Order,
}

impl TextRefusal {
    /// The number in the table "Numbered answers".
    pub fn number(self) -> u32 {
        match self {
            TextRefusal::TooLong => 9,
            TextRefusal::Line(_) => 10,
            TextRefusal::Limits => 11,
            TextRefusal::Literal => 12,
            TextRefusal::Order => 13,
        }
    }
}

impl From<LineFault> for TextRefusal {
    fn from(fault: LineFault) -> TextRefusal {
        TextRefusal::Line(fault)
    }
}

/// "The reader carries the lent text and its position together."
struct Reader<'a> {
    text: &'a [u8],
    at: usize,
}

impl Reader<'_> {
    /// "(a) when no newline is left in the text from its start on; otherwise at its leftmost fault".
    fn begin_line(&self) -> Result<(), LineFault> {
        if self.text[self.at..].contains(&b'\n') {
            Ok(())
        } else {
            Err(LineFault::NoNewline)
        }
    }

    /// The byte at the position. `begin_line` has seen the line's newline, which no read passes
    /// but the one that ends the line.
    fn byte(&self) -> u8 {
        self.text[self.at]
    }

    /// The word `aag` of line 1.
    fn word(&mut self) -> Result<(), LineFault> {
        for expected in *b"aag" {
            if self.byte() != expected {
                return Err(LineFault::Other);
            }
            self.at += 1;
        }
        Ok(())
    }

    /// "Numbers are decimal, no sign, no leading zeros but 0 itself, at most 65,535."
    fn number(&mut self) -> Result<u16, LineFault> {
        let start = self.at;
        let mut value: u32 = 0;
        while self.byte().is_ascii_digit() {
            // Digits that go on past 65,535 are one number, however long.
            value = (value * 10 + u32::from(self.byte() - b'0')).min(65_536);
            self.at += 1;
        }
        let digits = self.at - start;
        let leading_zero = digits > 1 && self.text[start] == b'0';
        if digits == 0 || leading_zero {
            return Err(LineFault::Number);
        }
        u16::try_from(value).map_err(|_| LineFault::Number)
    }

    /// "One space between numbers"; a newline in its place means that a number is missing.
    fn space(&mut self) -> Result<(), LineFault> {
        match self.byte() {
            b' ' => {
                self.at += 1;
                Ok(())
            }
            b'\n' => Err(LineFault::Number),
            _ => Err(LineFault::Other),
        }
    }

    /// "one newline after each line"
    fn newline(&mut self) -> Result<(), LineFault> {
        if self.byte() != b'\n' {
            return Err(LineFault::Other);
        }
        self.at += 1;
        Ok(())
    }

    /// Line 1, `aag M I L O A`.
    fn header(&mut self) -> Result<[u16; 5], LineFault> {
        self.begin_line()?;
        self.word()?;
        let mut fields = [0; 5];
        for field in &mut fields {
            self.space()?;
            *field = self.number()?;
        }
        self.newline()?;
        Ok(fields)
    }

    /// A line with one literal.
    fn literal_line(&mut self) -> Result<u16, LineFault> {
        self.begin_line()?;
        let literal = self.number()?;
        self.newline()?;
        Ok(literal)
    }

    /// A line `left right0 right1`.
    fn gate_line(&mut self) -> Result<Gate, LineFault> {
        self.begin_line()?;
        let left = self.number()?;
        self.space()?;
        let right0 = self.number()?;
        self.space()?;
        let right1 = self.number()?;
        self.newline()?;
        Ok(Gate { left, right0, right1 })
    }
}

/// The variable of a literal: "A literal 2v is variable v, 2v+1 its inverse".
pub fn variable_of(literal: u16) -> u16 {
    literal / 2
}

/// Whether a literal is odd.
fn is_inverse(literal: u16) -> bool {
    literal % 2 == 1
}

/// Which variables have been defined so far; variable 0 stands for the constants.
struct Defined {
    max: u16,
    seen: Vec<bool>,
}

impl Defined {
    fn new(max: u16) -> Defined {
        let mut seen = vec![false; usize::from(max) + 1];
        seen[0] = true; // "0 and 1 are constants"
        Defined { max, seen }
    }

    /// "Inputs and gate lefts are even, at least 2, at most 2M+1, each defined once."
    fn define(&mut self, literal: u16) -> Result<(), TextRefusal> {
        let in_form = !is_inverse(literal) && literal >= 2 && literal <= 2 * self.max + 1;
        if !in_form || self.seen[usize::from(variable_of(literal))] {
            return Err(TextRefusal::Literal);
        }
        self.seen[usize::from(variable_of(literal))] = true;
        Ok(())
    }

    /// In range and defined.
    fn has(&self, literal: u16) -> bool {
        literal <= 2 * self.max + 1 && self.seen[usize::from(variable_of(literal))]
    }
}

/// "M or O above 1,024, L not 0, or I + A above M"
fn check_limits([max, inputs, latches, outputs, gates]: [u16; 5]) -> Result<(), TextRefusal> {
    let too_many = u32::from(inputs) + u32::from(gates) > u32::from(max);
    if max > HEADER_LIMIT || outputs > HEADER_LIMIT || latches != 0 || too_many {
        return Err(TextRefusal::Limits);
    }
    Ok(())
}

/// "Gates come in ascending order of left, and each right literal's variable is below the left's
/// variable."
fn check_order(previous_left: Option<u16>, gate: Gate) -> Result<(), TextRefusal> {
    let ascending = previous_left.is_none_or(|previous| gate.left > previous);
    let below = |right| variable_of(right) < variable_of(gate.left);
    if ascending && below(gate.right0) && below(gate.right1) {
        Ok(())
    } else {
        Err(TextRefusal::Order)
    }
}

/// Everything a text is checked for, "from 9 to the output literals", in the paper's order.
pub fn read(text: &[u8]) -> Result<Circuit, TextRefusal> {
    if text.len() > TEXT_LIMIT {
        return Err(TextRefusal::TooLong);
    }
    let mut reader = Reader { text, at: 0 };
    let header = reader.header()?;
    check_limits(header)?;
    let [max, input_count, _, output_count, gate_count] = header;
    let mut defined = Defined::new(max);

    let mut inputs = Vec::new();
    for _ in 0..input_count {
        let literal = reader.literal_line()?;
        defined.define(literal)?;
        inputs.push(literal);
    }

    let mut outputs = Vec::new();
    for _ in 0..output_count {
        outputs.push(reader.literal_line()?);
    }

    let mut gates: Vec<Gate> = Vec::new();
    for _ in 0..gate_count {
        let gate = reader.gate_line()?;
        defined.define(gate.left)?;
        check_order(gates.last().map(|previous| previous.left), gate)?;
        if !defined.has(gate.right0) || !defined.has(gate.right1) {
            return Err(TextRefusal::Literal);
        }
        gates.push(gate);
    }

    // "After the last gate, output literals out of range or undefined (12)".
    if !outputs.iter().all(|&literal| defined.has(literal)) {
        return Err(TextRefusal::Literal);
    }
    Ok(Circuit { max, inputs, outputs, gates })
}

/// The text of a circuit, as the paper's form has it.
pub fn print(circuit: &Circuit) -> String {
    let mut text = format!(
        "aag {} {} 0 {} {}\n",
        circuit.max,
        circuit.inputs.len(),
        circuit.outputs.len(),
        circuit.gates.len()
    );
    for literal in circuit.inputs.iter().chain(&circuit.outputs) {
        text.push_str(&format!("{literal}\n"));
    }
    for gate in &circuit.gates {
        text.push_str(&format!("{} {} {}\n", gate.left, gate.right0, gate.right1));
    }
    text
}
