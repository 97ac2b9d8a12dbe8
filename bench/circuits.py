"""The circuits of bench/blocks.py: two versions of each, and how they are tied."""


class Net:
    """A combinational circuit in AIGER's numbering: inputs are variables 1 to I, gates follow, each above what it reads."""

    def __init__(self, names):
        self.names = names
        self.gates = []  # (right0, right1), right0 above right1
        self.outputs = []  # (literal, name)

    def inputs(self):
        return [2 * (k + 1) for k in range(len(self.names))]

    def variables(self):
        return len(self.names) + len(self.gates)

    def both(self, a, b):
        """AND. Constants and equal variables make no gate."""
        a, b = max(a, b), min(a, b)
        if b == 0 or a == b ^ 1:
            return 0
        if b == 1 or a == b:
            return a
        self.gates.append((a, b))
        return 2 * self.variables()

    def either(self, a, b):
        return self.both(a ^ 1, b ^ 1) ^ 1

    def differ(self, a, b):
        """XOR, in three gates."""
        if a < 2 or b < 2:
            return a ^ b
        return self.both(self.both(a, b) ^ 1, self.both(a ^ 1, b ^ 1) ^ 1)

    def half_adder(self, a, b):
        return self.differ(a, b), self.both(a, b)

    def full_adder(self, a, b, c):
        """Sum and carry."""
        ab = self.differ(a, b)
        return self.differ(ab, c), self.either(self.both(a, b), self.both(ab, c))

    def cone(self, literals):
        """The variables of the gates that these literals rest on, ascending."""
        needed = {literal // 2 for literal in literals}
        for variable in range(self.variables(), len(self.names), -1):
            if variable in needed:
                needed |= {right // 2 for right in self.gate(variable)}
        return sorted(variable for variable in needed if variable > len(self.names))

    def gate(self, variable):
        return self.gates[variable - len(self.names) - 1]

    def swept(self):
        """The same circuit without the gates that no output rests on."""
        net = Net(self.names)
        literals = {0: 0, 1: 1}
        for literal in self.inputs():
            literals |= {literal: literal, literal ^ 1: literal ^ 1}
        for variable in self.cone(literal for literal, _ in self.outputs):
            literal = net.both(*(literals[right] for right in self.gate(variable)))
            literals |= {2 * variable: literal, 2 * variable + 1: literal ^ 1}
        net.outputs = [(literals[literal], name) for literal, name in self.outputs]
        return net


class Block:
    """An old and a new version over the same inputs. Each version takes a net and the inputs and gives its output literals."""

    def __init__(self, inputs, old, new, each=False):
        self.inputs, self.old, self.new = inputs, old, new
        self.each = each

    def half(self, version):
        net = Net(self.inputs)
        for k, literal in enumerate(version(net, net.inputs())):
            net.outputs.append((literal, f"bit[{k}]"))
        return net.swept()

    def tie(self):
        """Both versions tied by XORs: output 0 is the OR of all differences; where `each` is set, each difference follows."""
        net = Net(self.inputs)
        pairs = zip(self.old(net, net.inputs()), self.new(net, net.inputs()))
        differences = [net.differ(a, b) for a, b in pairs]
        any_difference = 0
        for difference in differences:
            any_difference = net.either(any_difference, difference)
        net.outputs.append((any_difference, "any_difference"))
        if self.each:
            net.outputs += [(d, f"difference[{k}]") for k, d in enumerate(differences)]
        return net.swept()


# --- the families ---------------------------------------------------------------------------------------------------------------


def counter(bits, dropped=False, each=False):
    """The next state of a door counter: one up for each who enters, one down for each who leaves.

    Old: a ripple of carries for `enter`, then a ripple of borrows for `leave`. New: one ripple for both. `dropped`: the new
    version forgets the carry into the top bit.
    """
    inputs = ["leave", "enter"] + [f"count[{k}]" for k in range(bits)]

    def old(net, literals):
        leave, enter, *count = literals
        up = []
        carry = enter
        for bit in count:
            up.append(net.differ(bit, carry))
            carry = net.both(bit, carry)
        down = []
        borrow = leave
        for bit in up:
            down.append(net.differ(bit, borrow))
            borrow = net.both(bit ^ 1, borrow)
        return down

    def new(net, literals):
        leave, enter, *count = literals
        moved = net.differ(enter, leave)
        backwards = net.both(leave, enter ^ 1)
        result = []
        for k, bit in enumerate(count):
            if dropped and k == bits - 1:
                moved = 0
            result.append(net.differ(bit, moved))
            moved = net.both(net.differ(bit, backwards), moved)
        return result

    return Block(inputs, old, new, each)


def lookahead_carries(net, generate, propagate, carry):
    """Carries out of each place of a group, each written out over the carry into the group."""
    carries = []
    for top in range(len(generate)):
        result, product = generate[top], propagate[top]
        for k in range(top - 1, -1, -1):
            result = net.either(result, net.both(product, generate[k]))
            product = net.both(product, propagate[k])
        carries.append(net.either(result, net.both(product, carry)))
    return carries


def adder(bits, interleaved=True, each=False):
    """a + b with the carry out. Old: ripple. New: carry-lookahead in groups of four."""
    if interleaved:
        inputs = [f"{word}[{k}]" for k in range(bits) for word in "ab"]
    else:
        inputs = [f"{word}[{k}]" for word in "ab" for k in range(bits)]

    def words(literals):
        if interleaved:
            return literals[0::2], literals[1::2]
        return literals[:bits], literals[bits:]

    def old(net, literals):
        a, b = words(literals)
        result, carry = [], 0
        for k in range(bits):
            place, carry = net.full_adder(a[k], b[k], carry)
            result.append(place)
        return result + [carry]

    def new(net, literals):
        a, b = words(literals)
        result, carry = [], 0
        for low in range(0, bits, 4):
            group = range(low, min(low + 4, bits))
            generate = [net.both(a[k], b[k]) for k in group]
            propagate = [net.differ(a[k], b[k]) for k in group]
            carries = lookahead_carries(net, generate, propagate, carry)
            for place, into in zip(propagate, [carry] + carries[:-1]):
                result.append(net.differ(place, into))
            carry = carries[-1]
        return result + [carry]

    return Block(inputs, old, new, each)


def compress(net, columns):
    """Adds up columns of bits of equal weight with full and half adders, earliest bits first."""
    result = []
    while columns:
        column, *columns = columns
        columns = [list(c) for c in columns]
        while len(column) > 1:
            place, carry = net.full_adder(*column[:3]) if len(column) > 2 else net.half_adder(*column)
            column = column[3:] + [place]
            if carry != 0:
                columns = columns or [[]]
                columns[0].append(carry)
        result.append(column[0] if column else 0)
    return result


def multiplier(bits):
    """a * b. Old: an array, one row of adders for each bit of b. New: the columns of partial products compressed."""
    inputs = [f"{word}[{k}]" for k in range(bits) for word in "ab"]

    def old(net, literals):
        a, b = literals[0::2], literals[1::2]
        result = [net.both(bit, b[0]) for bit in a] + [0] * bits
        for row in range(1, bits):
            carry = 0
            for k in range(bits):
                result[row + k], carry = net.full_adder(result[row + k], net.both(a[k], b[row]), carry)
            result[row + bits] = carry
        return result

    def new(net, literals):
        a, b = literals[0::2], literals[1::2]
        columns = [[] for _ in range(2 * bits)]
        for i in range(bits):
            for j in range(bits):
                columns[i + j].append(net.both(a[i], b[j]))
        return compress(net, columns)[: 2 * bits]

    return Block(inputs, old, new)


def popcount(bits):
    """How many inputs are 1. Old: a counter that each input moves up. New: a tree of full adders."""
    inputs = [f"x[{k}]" for k in range(bits)]
    width = bits.bit_length()

    def old(net, literals):
        count = [0] * width
        for carry in literals:
            for k in range(width):
                count[k], carry = net.half_adder(count[k], carry)
        return count

    def new(net, literals):
        result = compress(net, [list(literals)])
        return result + [0] * (width - len(result))

    return Block(inputs, old, new)


def decoder(bits):
    """One output for each value of a word. Old: every product written out. New: two halves decoded first. One output each."""
    inputs = [f"word[{k}]" for k in range(bits)]

    def product(net, literals, value):
        result = 1
        for k, literal in enumerate(literals):
            result = net.both(result, literal ^ 1 ^ (value >> k & 1))
        return result

    def old(net, literals):
        return [product(net, literals, value) for value in range(1 << bits)]

    def new(net, literals):
        half = bits // 2
        low = [product(net, literals[:half], value) for value in range(1 << half)]
        high = [product(net, literals[half:], value) for value in range(1 << bits - half)]
        return [net.both(h, l) for h in high for l in low]

    return Block(inputs, old, new, each=True)


def random_logic(gates, changed=False):
    """Random ANDs and XORs over 16 inputs, each reading two of the 24 signals before it; the last four are tied.

    New: the same with other gates. `changed`: with one literal inverted in the last.
    """
    inputs = [f"x[{k}]" for k in range(16)]
    state = gates

    def below(limit):
        nonlocal state
        state = (state * 6364136223846793005 + 1442695040888963407) % 2**64
        return (state >> 33) % limit

    plan = [(below(2), below(24) + 1, below(2), below(24) + 1, below(2)) for _ in range(gates)]

    def old(net, literals):
        signals = literals[8:] + literals
        for is_xor, back_a, invert_a, back_b, invert_b in plan:
            a, b = signals[-back_a] ^ invert_a, signals[-back_b] ^ invert_b
            signals.append(net.differ(a, b) if is_xor else net.both(a, b))
        return signals[-4:]

    def new(net, literals):
        signals = literals[8:] + literals
        for k, (is_xor, back_a, invert_a, back_b, invert_b) in enumerate(plan):
            a, b = signals[-back_a] ^ invert_a, signals[-back_b] ^ invert_b
            if changed and k == gates - 1:
                a ^= 1
            if is_xor:
                signals.append(net.either(net.both(a, b ^ 1), net.both(a ^ 1, b)))
            else:
                signals.append(net.both(a, net.both(a, b ^ 1) ^ 1))
        return signals[-4:]

    return Block(inputs, old, new)
