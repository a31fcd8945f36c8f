#!/usr/bin/env python3
"""Random plans, whose meaning is known here, as text and as their optimum. Each is solved by trying every assignment, in exact arithmetic.

A plan is in the whole width of our syntax: any first index, numbers with gaps, names, every operator, negated literals, repeated variables, the objective anywhere, without terms or not there, a header that
is not true, comments, statements without `;` and several on a line.
"""
import itertools
import operator

OPERATORS = {"<=": operator.le, ">=": operator.ge, "<": operator.lt, ">": operator.gt, "=": operator.eq}
COMMENTS = ["* night", "*", "* #variable= 3 #constraint= 1", "* objective offset for previous objective: 9", "* min: 3 x1;", "* 1 x1 >= 2;"]


def value(terms, bits):
    return sum(w for w, negated, v in terms if bits[v] != negated)


class Plan:
    """Variable v of 0 to n - 1 is called numbers[v] in the file. Terms are weight, whether negated, and variable; the objective is None where there is none, and stands behind `before`
    rows. `zeros` allows weights of 0."""

    def __init__(self, rng, zeros):
        self.rng, self.zeros, self.n = rng, zeros, rng.randint(1, 8)
        self.first = rng.choice((0, 1, 1, 7))
        offsets = range(self.n) if rng.random() < 0.5 else sorted(rng.sample(range(150), self.n))
        self.numbers = [self.first + offset for offset in offsets]
        self.names = {v: "held(%d,%d)" % (v, rng.randint(1, 9)) for v in range(self.n) if rng.random() < 0.5}
        self.most = rng.choice((3, 30, 1000000))
        self.rows = self.kept_rows()
        if rng.random() < 0.2:
            self.break_it()
        self.objective = self.some_objective()
        self.before = rng.randint(0, len(self.rows))

    def terms(self):
        places = self.rng.choices(range(self.n), k=self.rng.randint(1, self.n)) if self.rng.random() < 0.3 else self.rng.sample(range(self.n), self.rng.randint(1, self.n))
        weights = [w for w in (self.rng.randint(-self.most, self.most) for _ in range(99)) if w or self.zeros]
        return [(w, self.rng.random() < 0.4, v) for w, v in zip(weights, places)]

    def kept_rows(self):
        """Rows that some assignment keeps, often with no room to spare."""
        kept, rows = [self.rng.random() < 0.5 for _ in range(self.n)], []
        for _ in range(self.rng.randint(0, 7)):
            terms, symbol = self.terms(), self.rng.choice(list(OPERATORS))
            slack = {"=": 0, "<=": self.rng.randint(0, 3), "<": self.rng.randint(1, 3), ">=": -self.rng.randint(0, 3), ">": -self.rng.randint(1, 3)}[symbol]
            rows.append((terms, symbol, value(terms, kept) + slack))
        return rows

    def break_it(self):
        """Two rows that no assignment keeps both. No equality: clasp 3.3.5 takes `2 x1 = 1` as one that can hold."""
        terms = self.terms()
        bound = value(terms, [self.rng.random() < 0.5 for _ in range(self.n)])
        self.rows += [(terms, ">", bound), (terms, "<=", bound)]
        self.rng.shuffle(self.rows)

    def some_objective(self):
        """Often one that pushes against a row, where a bound off by one is seen."""
        kind = self.rng.random()
        if kind < 0.2 or (kind > 0.6 and not self.rows):
            return None if kind < 0.15 else []
        if kind < 0.6:
            return self.terms()
        terms, symbol, _ = self.rows[0]
        return [(-w if "<" in symbol else w, negated, v) for w, negated, v in terms]

    def keeps(self, bits):
        return all(OPERATORS[symbol](value(terms, bits), bound) for terms, symbol, bound in self.rows)

    def optimum(self):
        """The least value of an assignment that keeps every row; None where there is no such assignment."""
        kept = (bits for bits in itertools.product((False, True), repeat=self.n) if self.keeps(bits))
        return min((value(self.objective or [], bits) for bits in kept), default=None)

    def sums(self):
        """The terms of the objective and of each row, where they have any."""
        return [terms for terms in [self.objective or []] + [row[0] for row in self.rows] if terms]

    def weighs(self):
        """Whether every sum, and every variable in some sum, has a weight that is not 0 once the terms of each variable are added up."""
        weights = [{v: sum(-w if negated else w for w, negated, u in terms if u == v) for _, _, v in terms} for terms in self.sums()]
        heavy = {v for of_sum in weights for v, w in of_sum.items() if w}
        return all(any(of_sum.values()) for of_sum in weights) and all(v in heavy for of_sum in weights for v in of_sum)

    def evaluated(self, bits):
        """The lines of `opb evaluate`."""
        lines = []
        for terms, symbol, bound in self.rows:
            sum_, bound = value(terms, bits), bound + {"<": -1, ">": 1}.get(symbol, 0)
            lines.append("%s\t%d\t%d\t%s" % ({"<": "le", ">": "ge", "=": "eq"}[symbol[0]], sum_, bound, "holds"))
        if self.objective is not None:
            lines.insert(self.before, "min\t%d" % value(self.objective, bits))
        return lines

    def sum(self, terms):
        return " ".join("%d %sx%d" % (w, "~" if negated else "", self.numbers[v]) for w, negated, v in terms)

    def text(self):
        lines = ["%s %s %d" % (self.sum(terms), symbol, bound) for terms, symbol, bound in self.rows]
        if self.objective is not None:
            lines.insert(self.before, "min: " + self.sum(self.objective))
        lines = [line + self.rng.choice((";\n", ";\n", "\n", ";\r\n", "; ")) for line in lines]
        for comment in self.rng.sample(COMMENTS, self.rng.randint(0, 3)):
            lines.insert(self.rng.randint(0, len(lines)), comment + "\n")
        if self.names:
            names = ["* output x%d %s\n" % (self.numbers[v], name) for v, name in self.names.items()]
            lines.insert(self.rng.randint(0, len(lines)), "".join(names) + "* 0\n")
        return "".join(lines)
