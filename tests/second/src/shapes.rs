//! Circuits for the generators: random ones, adders, multipliers, counters, tied pairs.
//!
//! A `Net` is built with its own literals (2k for node k, 0 and 1 for the constants) and then
//! numbered, with or without gaps, into a `Circuit`.

use crate::rng::Rng;
use crate::text::{Circuit, Gate};

type Lit = usize;

#[derive(Clone, Copy)]
enum Node {
    Input,
    And(Lit, Lit),
}

#[derive(Default)]
struct Net {
    nodes: Vec<Node>,
    outputs: Vec<Lit>,
}

/// The inverse of a literal.
fn not(literal: Lit) -> Lit {
    literal ^ 1
}

impl Net {
    fn push(&mut self, node: Node) -> Lit {
        self.nodes.push(node);
        2 * self.nodes.len()
    }

    fn input(&mut self) -> Lit {
        self.push(Node::Input)
    }

    fn inputs(&mut self, count: usize) -> Vec<Lit> {
        (0..count).map(|_| self.input()).collect()
    }

    fn output(&mut self, literal: Lit) {
        self.outputs.push(literal);
    }

    fn and(&mut self, a: Lit, b: Lit) -> Lit {
        self.push(Node::And(a, b))
    }

    fn or(&mut self, a: Lit, b: Lit) -> Lit {
        not(self.and(not(a), not(b)))
    }

    fn xor(&mut self, a: Lit, b: Lit) -> Lit {
        let only_a = self.and(a, not(b));
        let only_b = self.and(not(a), b);
        self.or(only_a, only_b)
    }

    /// The same function as `xor` by other gates.
    fn xor_other(&mut self, a: Lit, b: Lit) -> Lit {
        let both = self.and(a, b);
        let none = self.and(not(a), not(b));
        self.and(not(both), not(none))
    }

    fn mux(&mut self, pick: Lit, a: Lit, b: Lit) -> Lit {
        let first = self.and(pick, a);
        let second = self.and(not(pick), b);
        self.or(first, second)
    }

    /// Sum and carry of three bits.
    fn full_adder(&mut self, a: Lit, b: Lit, carry: Lit) -> (Lit, Lit) {
        let half = self.xor(a, b);
        let sum = self.xor(half, carry);
        let both = self.and(a, b);
        let through = self.and(half, carry);
        let out = self.or(both, through);
        (sum, out)
    }

    /// The sum bits of two numbers, the carry last.
    fn adder(&mut self, a: &[Lit], b: &[Lit]) -> Vec<Lit> {
        let mut carry = 0;
        let mut bits = Vec::new();
        for (&x, &y) in a.iter().zip(b) {
            let (sum, out) = self.full_adder(x, y, carry);
            bits.push(sum);
            carry = out;
        }
        bits.push(carry);
        bits
    }

    /// The bits of the product of two numbers.
    fn multiplier(&mut self, a: &[Lit], b: &[Lit]) -> Vec<Lit> {
        let mut total = vec![0; a.len()];
        let mut bits = Vec::new();
        for &y in b {
            let row: Vec<Lit> = a.iter().map(|&x| self.and(x, y)).collect();
            total = self.adder(&total, &row);
            bits.push(total.remove(0));
        }
        bits.extend(total);
        bits
    }

    /// The bits of a number that is one greater.
    fn increment(&mut self, bits: &[Lit]) -> Vec<Lit> {
        let mut carry = 1;
        let mut next = Vec::new();
        for &bit in bits {
            next.push(self.xor(bit, carry));
            carry = self.and(bit, carry);
        }
        next
    }

    /// "tied pairs by XOR": 1 where two literals differ.
    fn tie(&mut self, a: Lit, b: Lit, rng: &mut Rng) -> Lit {
        if rng.chance(1, 2) {
            self.xor(a, b)
        } else {
            self.xor_other(a, b)
        }
    }

    /// A literal of any node so far or a constant.
    fn any(&self, rng: &mut Rng) -> Lit {
        if self.nodes.is_empty() || rng.chance(1, 20) {
            return rng.below(2);
        }
        2 + rng.below(2 * self.nodes.len())
    }

    fn input_count(&self) -> usize {
        self.nodes.iter().filter(|node| matches!(node, Node::Input)).count()
    }
}

/// How the nodes of a net get their numbers.
#[derive(Clone, Copy)]
struct Numbering {
    /// Leave out numbers between the nodes, and above the last.
    gaps: bool,
    /// Write the inputs in any order.
    shuffle: bool,
}

impl Numbering {
    fn any(rng: &mut Rng) -> Numbering {
        Numbering { gaps: rng.chance(1, 3), shuffle: rng.chance(1, 2) }
    }
}

/// Numbers the nodes of a net in ascending order.
fn number(net: &Net, numbering: Numbering, rng: &mut Rng) -> Circuit {
    let mut spare = if numbering.gaps { rng.below(40).min(1024 - net.nodes.len()) } else { 0 };
    let mut take_gap = |rng: &mut Rng| {
        let gap = if rng.chance(1, 3) { rng.below(spare.min(3) + 1) } else { 0 };
        spare -= gap;
        gap
    };
    let mut variable = vec![0];
    let mut last = 0;
    for _ in &net.nodes {
        last += 1 + take_gap(rng);
        variable.push(last);
    }
    let max = last + take_gap(rng);
    let literal = |lit: Lit| (2 * variable[lit / 2] + lit % 2) as u16;
    let mut inputs = Vec::new();
    let mut gates = Vec::new();
    for (index, node) in net.nodes.iter().enumerate() {
        let left = literal(2 * (index + 1));
        match *node {
            Node::Input => inputs.push(left),
            Node::And(a, b) => gates.push(Gate { left, right0: literal(a), right1: literal(b) }),
        }
    }
    if numbering.shuffle {
        rng.shuffle(&mut inputs);
    }
    let outputs = net.outputs.iter().map(|&lit| literal(lit)).collect();
    Circuit { max: max as u16, inputs, outputs, gates }
}

/// A net of random gates; inputs may come after gates.
fn random(rng: &mut Rng) -> Net {
    let (inputs, gates) = (rng.below(9), rng.below(16));
    random_of(inputs, gates, rng)
}

fn random_of(inputs: usize, gates: usize, rng: &mut Rng) -> Net {
    let mut net = Net::default();
    let early = rng.between(inputs / 2, inputs);
    net.inputs(early);
    for gate in 0..gates {
        if net.input_count() < inputs && rng.chance(inputs - net.input_count(), gates - gate) {
            net.input();
        }
        let (a, b) = (net.any(rng), net.any(rng));
        net.and(a, b);
    }
    for _ in 0..rng.below(5) {
        let literal = net.any(rng);
        net.output(literal);
    }
    net
}

/// An adder of small width; some or all of its bits are outputs.
fn adder(rng: &mut Rng) -> Net {
    let width = rng.between(1, 4);
    let mut net = Net::default();
    let a = net.inputs(width);
    let b = net.inputs(width);
    for bit in net.adder(&a, &b) {
        net.output(bit);
    }
    net
}

/// Two adders with the operands exchanged, bit by bit tied: every output is 0.
fn tied_adders(rng: &mut Rng) -> Net {
    let width = rng.between(1, 2);
    let mut net = Net::default();
    let a = net.inputs(width);
    let b = net.inputs(width);
    let one = net.adder(&a, &b);
    let other = net.adder(&b, &a);
    for (&x, &y) in one.iter().zip(&other) {
        let differ = net.tie(x, y, rng);
        net.output(differ);
    }
    net
}

/// A multiplier of small widths.
fn multiplier(rng: &mut Rng) -> Net {
    let mut net = Net::default();
    let (wide, narrow) = rng.pick(&[(1, 1), (2, 1), (1, 2), (2, 2), (3, 2)]);
    let a = net.inputs(wide);
    let b = net.inputs(narrow);
    for bit in net.multiplier(&a, &b) {
        net.output(bit);
    }
    net
}

/// A counter's next state, or the state after two steps.
fn counter(rng: &mut Rng) -> Net {
    let mut net = Net::default();
    let width = rng.between(1, 5);
    let mut bits = net.inputs(width);
    for _ in 0..rng.between(1, 2) {
        bits = net.increment(&bits);
    }
    for bit in bits {
        net.output(bit);
    }
    net
}

/// Two literals made in two ways and tied; the verdict is 0, or 1 where the second is spoilt.
fn tied_pair(rng: &mut Rng) -> Net {
    let mut net = Net::default();
    let (a, b, c) = (net.input(), net.input(), net.input());
    let one = net.mux(a, b, c);
    let other = {
        let either = net.or(not(a), b);
        let second = net.or(a, c);
        net.and(either, second)
    };
    let spoilt = if rng.chance(1, 3) { net.and(other, b) } else { other };
    let differ = net.tie(one, spoilt, rng);
    net.output(differ);
    net.output(not(differ));
    net
}

/// A chain of equal gates over few or many variables, long but of simple shape.
fn chain(rng: &mut Rng) -> Net {
    let mut net = Net::default();
    let length = if rng.chance(1, 6) { rng.between(200, 500) } else { rng.between(1, 60) };
    let mut last = net.input();
    for _ in 0..length {
        let fresh = net.input();
        last = net.and(last, fresh);
    }
    net.output(last);
    net.output(not(last));
    net
}

/// Outputs and rights that are constants.
fn constants(rng: &mut Rng) -> Net {
    let mut net = Net::default();
    let count = rng.below(3);
    net.inputs(count);
    for _ in 0..rng.below(5) {
        let other = net.any(rng);
        let constant = rng.below(2);
        if rng.chance(1, 2) {
            net.and(constant, other);
        } else {
            net.and(other, constant);
        }
    }
    for _ in 0..rng.between(1, 4) {
        let literal = if rng.chance(1, 2) { rng.below(2) } else { net.any(rng) };
        net.output(literal);
    }
    net
}

/// Inputs, or outputs, or neither, and no gates.
fn gateless(rng: &mut Rng) -> Net {
    let mut net = Net::default();
    let count = rng.below(5);
    net.inputs(count);
    for _ in 0..rng.below(4) {
        let literal = net.any(rng);
        net.output(literal);
    }
    net
}

/// A net of many random gates that use the newest nodes most.
fn large_random(rng: &mut Rng) -> Net {
    let (inputs, gates) = (rng.between(3, 14), rng.between(10, 80));
    let mut net = random_of(inputs, gates, rng);
    for _ in 0..rng.between(1, 10) {
        let newest = net.nodes.len();
        let recent = |rng: &mut Rng| 2 * (newest - rng.below(newest.min(12))) + rng.below(2);
        let (a, b) = (recent(rng), recent(rng));
        net.and(a, b);
    }
    net.output(2 * net.nodes.len());
    net
}

/// The parity of some inputs by a chain of either kind of XOR.
fn parity(rng: &mut Rng) -> Net {
    let mut net = Net::default();
    let width = rng.between(2, 9);
    let inputs = net.inputs(width);
    let mut last = inputs[0];
    for &input in &inputs[1..] {
        last = net.tie(last, input, rng);
    }
    net.output(last);
    net.output(not(last));
    net
}

/// Whether one number is less than another.
fn less(rng: &mut Rng) -> Net {
    let mut net = Net::default();
    let width = rng.between(1, 6);
    let a = net.inputs(width);
    let b = net.inputs(width);
    let mut less = 0;
    for (&x, &y) in a.iter().zip(&b) {
        let differ = net.tie(x, y, rng);
        less = net.mux(differ, y, less);
    }
    net.output(less);
    net.output(not(less));
    net
}

/// An input picked out of several by others.
fn pick_tree(rng: &mut Rng) -> Net {
    let mut net = Net::default();
    let depth = rng.between(1, 3);
    let mut layer = net.inputs(1 << depth);
    for _ in 0..depth {
        let pick = net.input();
        layer = layer.chunks(2).map(|pair| net.mux(pick, pair[0], pair[1])).collect();
    }
    net.output(layer[0]);
    net.output(not(layer[0]));
    net
}

/// A multiplier and the same one with its operands exchanged, bit by bit tied.
fn tied_multipliers(rng: &mut Rng) -> Net {
    let mut net = Net::default();
    let a = net.inputs(2);
    let b = net.inputs(2);
    let one = net.multiplier(&a, &b);
    let other = net.multiplier(&b, &a);
    for (&x, &y) in one.iter().zip(&other) {
        let differ = net.tie(x, y, rng);
        net.output(differ);
    }
    net
}

/// An adder of greater width; one of its bits is the output.
fn wide_adder(rng: &mut Rng) -> Net {
    let width = rng.between(4, 7);
    let mut net = Net::default();
    let a = net.inputs(width);
    let b = net.inputs(width);
    let bits = net.adder(&a, &b);
    net.output(rng.pick(&bits));
    net
}

type Shape = fn(&mut Rng) -> Net;

/// One of the shapes, numbered in any way.
fn one_of(shapes: &[Shape], rng: &mut Rng) -> Circuit {
    let shape = rng.pick(shapes);
    let net = shape(rng);
    let numbering = Numbering::any(rng);
    number(&net, numbering, rng)
}

/// A circuit of few gates.
pub fn small_circuit(rng: &mut Rng) -> Circuit {
    let shapes: [Shape; 12] = [
        random,
        random,
        random,
        random,
        adder,
        tied_adders,
        multiplier,
        counter,
        tied_pair,
        chain,
        constants,
        gateless,
    ];
    one_of(&shapes, rng)
}

/// A circuit of more gates.
pub fn large_circuit(rng: &mut Rng) -> Circuit {
    let shapes: [Shape; 9] = [
        large_random,
        large_random,
        large_random,
        parity,
        less,
        pick_tree,
        tied_multipliers,
        wide_adder,
        chain,
    ];
    one_of(&shapes, rng)
}
