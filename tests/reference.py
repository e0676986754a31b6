"""An independent reference for the seven fields and for pages.

It shares no code and no method with the library: fields are computed from their rules, with no table of powers; the check
symbols of a row come from Gaussian elimination; a row is read by solving Berlekamp's and Welch's equations.
It is made to be plain, not fast.
"""

class Field:
    """One of the seven fields. Its elements are the numbers 0 to order - 1."""

    # kind number: (order, modulus of the binary polynomials or None for whole numbers modulo the order, generator)
    KINDS = {
        1: (17, None, 3),
        2: (31, None, 3),
        3: (127, None, 3),
        4: (257, None, 3),
        5: (16, 0x13, 2),
        6: (64, 0x43, 2),
        7: (256, 0x11D, 2),
    }

    def __init__(self, kind):
        self.order, self.modulus, self.generator = self.KINDS[kind]

    def add(self, a, b):
        if self.modulus is None:
            return (a + b) % self.order
        return a ^ b

    def neg(self, a):
        if self.modulus is None:
            return -a % self.order
        return a

    def sub(self, a, b):
        return self.add(a, self.neg(b))

    def mul(self, a, b):
        if self.modulus is None:
            return a * b % self.order
        product = 0
        for bit in range(b.bit_length()):
            if b >> bit & 1:
                product ^= a << bit
        return self.remainder(product)

    def remainder(self, a):
        """The remainder of a binary polynomial by the modulus."""
        size = self.modulus.bit_length()
        while a.bit_length() >= size:
            a ^= self.modulus << (a.bit_length() - size)
        return a

    def power(self, a, exponent):
        answer = 1
        for _ in range(exponent):
            answer = self.mul(answer, a)
        return answer

    def inverse(self, a):
        """What gives 1 when multiplied by a, found by trying. a is not 0."""
        return next(b for b in range(1, self.order) if self.mul(a, b) == 1)

    def points(self, count):
        """The points of the first columns: the generator to the powers 0, 1, 2 and so on."""
        points = [1]
        while len(points) < count:
            points.append(self.mul(points[-1], self.generator))
        return points


class Table(Field):
    """The same field with its products and inverses noted as they are first worked out."""

    def __init__(self, kind):
        super().__init__(kind)
        self.rows = {}
        self.inverses = {}

    def multiples(self, a):
        """a times each element."""
        if a not in self.rows:
            self.rows[a] = [super(Table, self).mul(a, b) for b in range(self.order)]
        return self.rows[a]

    def mul(self, a, b):
        return self.multiples(a)[b]

    def inverse(self, a):
        if a not in self.inverses:
            self.inverses[a] = self.multiples(a).index(1)
        return self.inverses[a]


FIELDS = {}


def field_of(kind):
    if kind not in FIELDS:
        FIELDS[kind] = Table(kind)
    return FIELDS[kind]


def eliminate(field, rows, width):
    """Brings rows into reduced echelon form over their first `width` entries, in place. Answers the pivot columns."""
    pivots = []
    for column in range(width):
        top = len(pivots)
        found = next((i for i in range(top, len(rows)) if rows[i][column]), None)
        if found is None:
            continue
        rows[top], rows[found] = rows[found], rows[top]
        unit = field.multiples(field.inverse(rows[top][column]))
        rows[top] = [unit[x] for x in rows[top]]
        for i, row in enumerate(rows):
            if i != top and row[column]:
                times = field.multiples(field.neg(row[column]))
                rows[i] = [field.add(x, times[y]) for x, y in zip(row, rows[top])]
        pivots.append(column)
    return pivots


def solve(field, matrix, target):
    """The one solution of a square system that is regular."""
    rows = [row + [value] for row, value in zip(matrix, target)]
    size = len(rows)
    assert eliminate(field, rows, size) == list(range(size))
    return [row[size] for row in rows]


def kernel_vector(field, matrix, width):
    """A vector other than 0 that every row of the matrix takes to 0, or None."""
    rows = [list(row) for row in matrix]
    pivots = eliminate(field, rows, width)
    free = next((c for c in range(width) if c not in pivots), None)
    if free is None:
        return None
    vector = [0] * width
    vector[free] = 1
    for row, pivot in zip(rows, pivots):
        vector[pivot] = field.neg(row[free])
    return vector


def value_at(field, polynomial, x):
    """The value of a polynomial, constant first."""
    value = 0
    for coefficient in reversed(polynomial):
        value = field.add(field.mul(value, x), coefficient)
    return value


def divide(field, a, b):
    """The quotient of two polynomials, constant first, or None where b is 0 or does not divide a."""
    a, b = list(a), list(b)
    while b and b[-1] == 0:
        b.pop()
    if not b:
        return None
    lead = field.inverse(b[-1])
    quotient = [0] * max(len(a) - len(b) + 1, 1)
    for shift in range(len(a) - len(b), -1, -1):
        factor = field.mul(a[shift + len(b) - 1], lead)
        quotient[shift] = factor
        for i, coefficient in enumerate(b):
            a[shift + i] = field.sub(a[shift + i], field.mul(factor, coefficient))
    return None if any(a) else quotient


class Refused(Exception):
    """A call's refusal: its number and two places, 0 where none is named."""

    def __init__(self, number, first=0, second=0):
        super().__init__(number, first, second)
        self.number, self.first, self.second = number, first, second


def refuse_if(wrong, number, first=0, second=0):
    if wrong:
        raise Refused(number, first, second)


class Page:
    """A page: n columns, of which the first r hold check symbols, R rows, H heights and the drift bound D."""

    def __init__(self, kind, n, r, rows, heights, drift):
        refuse_if(kind not in Field.KINDS, 1)
        order = Field.KINDS[kind][0]
        refuse_if(not 2 <= n <= min(order - 1, 256), 2)
        refuse_if(not 1 <= r <= min(64, n - 1), 3)
        refuse_if(not 1 <= rows <= 32, 4)
        refuse_if(not 1 <= heights <= 256 or order * heights > 4096, 5)
        refuse_if(not 1 <= drift <= order - 1, 6)
        self.field = field_of(kind)
        self.order = order
        self.n, self.r, self.rows, self.heights, self.drift = n, r, rows, heights, drift
        self.k = n - r
        self.levels = order * heights
        self.points = self.field.points(n)
        self.marked = []

    # Places and lengths

    def size(self):
        return self.rows * self.n

    def check_cells(self, cells):
        refuse_if(len(cells) != self.size(), 11, 1)

    def check_place(self, row, column):
        refuse_if(row >= self.rows or column >= self.n, 14, row, column)

    def unmarked(self):
        return [i for i in range(self.n) if i not in self.marked]

    # Code rows: for each j from 1 to r, the sum of symbol(i) times point(i) to the power j is 0

    def moments(self, symbols, columns):
        """The sums of symbol times point to the power j over these columns, for j from 1 to r."""
        field = self.field
        sums = []
        terms = [symbols[i] for i in columns]
        for _ in range(self.r):
            terms = [field.mul(term, self.points[i]) for term, i in zip(terms, columns)]
            total = 0
            for term in terms:
                total = field.add(total, term)
            sums.append(total)
        return sums

    def is_code_row(self, symbols):
        return not any(self.moments(symbols, range(self.n)))

    def encode(self, message):
        """The code row with these message symbols, by solving for its check symbols."""
        field, r = self.field, self.r
        row = [0] * r + list(message)
        target = [field.neg(s) for s in self.moments(row, range(r, self.n))]
        matrix = [[field.power(self.points[i], j) for i in range(r)] for j in range(1, r + 1)]
        row[:r] = solve(field, matrix, target)
        assert self.is_code_row(row)
        return row

    def weights(self):
        """Column weights: a row is a code row just when its symbols are weight(i) times f(point(i)) for a polynomial f
        of degree below k. weight(i) is the inverse of point(i) times the product of point(i) - point(m) over the
        other columns m."""
        field = self.field
        weights = []
        for i, a in enumerate(self.points):
            product = a
            for m, b in enumerate(self.points):
                if m != i:
                    product = field.mul(product, field.sub(a, b))
            weights.append(field.inverse(product))
        return weights

    def nearest(self, symbols):
        """The code row of which twice the unmarked columns that differ, plus the marked ones, is at most r, or None.

        Berlekamp and Welch: polynomials E of degree at most t and N of degree below k + t, not both 0, with
        N(point) = value times E(point) in every unmarked column; then N / E is the row's polynomial."""
        field, columns = self.field, self.unmarked()
        marks = len(self.marked)
        errors = (self.r - marks) // 2
        weights = self.weights()
        top = self.k + errors
        equations = []
        for i in columns:
            value = field.mul(symbols[i], field.inverse(weights[i]))
            powers = [1]
            while len(powers) < top:
                powers.append(field.mul(powers[-1], self.points[i]))
            against = field.multiples(field.neg(value))
            equations.append(powers + [against[p] for p in powers[: errors + 1]])
        vector = kernel_vector(field, equations, top + errors + 1)
        if vector is None:
            return None
        polynomial = divide(field, vector[:top], vector[top:])
        if polynomial is None or any(polynomial[self.k :]):
            return None
        row = [field.mul(w, value_at(field, polynomial, a)) for w, a in zip(weights, self.points)]
        apart = sum(row[i] != symbols[i] for i in columns)
        if not self.is_code_row(row) or 2 * apart + marks > self.r:
            return None
        return row

    # The calls

    def write(self, cells, symbols, heights):
        self.check_cells(cells)
        refuse_if(len(symbols) != self.rows * self.k, 11, 2)
        refuse_if(len(heights) != self.size(), 11, 3)
        for at, symbol in enumerate(symbols):
            refuse_if(symbol >= self.order, 12, at // self.k, self.r + at % self.k)
        for at, height in enumerate(heights):
            refuse_if(height >= self.heights, 13, at // self.n, at % self.n)
        for row in range(self.rows):
            code = self.encode(symbols[row * self.k : (row + 1) * self.k])
            for column in range(self.n):
                at = row * self.n + column
                cells[at] = heights[at] * self.order + code[column]

    def mark(self, column):
        refuse_if(column >= self.n, 14, 0, column)
        refuse_if(column in self.marked, 15, 0, column)
        refuse_if(len(self.marked) == self.r, 16, 0, column)
        self.marked = sorted(self.marked + [column])

    def raise_cell(self, cells, row, column, amount):
        self.check_cells(cells)
        self.check_place(row, column)
        refuse_if(column in self.marked, 17, row, column)
        at = row * self.n + column
        refuse_if(cells[at] >= self.levels, 21, row, column)
        refuse_if(amount == 0 or cells[at] + amount >= self.levels, 19, row, column)
        cells[at] += amount

    def jolt(self, cells, row, column, reading):
        self.check_cells(cells)
        self.check_place(row, column)
        refuse_if(column not in self.marked, 18, row, column)
        cells[row * self.n + column] = reading

    def decode_row(self, row, readings):
        """The levels that one row stands for."""
        marked = self.marked
        symbols = [0 if i in marked else y % self.order for i, y in enumerate(readings)]
        code = self.nearest(symbols)
        refuse_if(code is None, 22, row)
        drifts = {i: (readings[i] - code[i]) % self.order for i in self.unmarked()}
        for column, drift in drifts.items():
            refuse_if(drift > self.drift, 23, row, column)
        for column, drift in drifts.items():
            refuse_if(drift > readings[column], 24, row, column)
        return [code[i] if i in marked else readings[i] - drifts[i] for i in range(self.n)]

    def decode(self, cells):
        """All levels, the number of drifted cells and the levels risen."""
        for at, reading in enumerate(cells):
            row, column = divmod(at, self.n)
            refuse_if(reading >= self.levels and column not in self.marked, 21, row, column)
        levels = []
        for row in range(self.rows):
            levels += self.decode_row(row, cells[row * self.n : (row + 1) * self.n])
        rises = [y - x for at, (y, x) in enumerate(zip(cells, levels)) if at % self.n not in self.marked]
        return levels, sum(rise > 0 for rise in rises), sum(rises)

    def read(self, cells, symbol_room, height_room):
        self.check_cells(cells)
        refuse_if(symbol_room != self.rows * self.k, 11, 2)
        refuse_if(height_room != self.size(), 11, 3)
        levels, drifted, risen = self.decode(cells)
        symbols = [x % self.order for at, x in enumerate(levels) if at % self.n >= self.r]
        heights = [x // self.order for x in levels]
        return symbols, heights, drifted, risen

    def scrub(self, cells):
        self.check_cells(cells)
        levels, drifted, risen = self.decode(cells)
        cells[:] = levels
        return drifted, risen
