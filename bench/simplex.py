"""Linear programs in whole numbers, solved exactly.

The least cost of numbers from 0 on that keep rows is found by the simplex method of two phases. Entering and leaving are the first in the
order of the variables that may (R. Bland, "New Finite Pivoting Rules for the Simplex Method", Mathematics of Operations Research 2, 1977),
so that it ends. The tableau keeps whole numbers over one denominator, the last pivot (J. Edmonds, "Systems of Distinct Representatives and
Linear Algebra", Journal of Research of the National Bureau of Standards 71B, 1967). Nothing of it is shared with the program.
"""
from fractions import Fraction

# The variable of phase 1, which lets each row be exceeded; the last rows of a tableau: what costs and phase 1 come to.
EXCESS = -1
COST, SUM = -2, -1


class Tableau:
    """Each row says that its basic variable, times the denominator, is the last number less the others times their columns' variables."""

    def __init__(self, costs, rows):
        self.columns, self.basic = list(range(len(costs))), list(range(len(costs), len(costs) + len(rows)))
        self.rows = [[*factors, limit] for factors, limit in rows]
        self.rows += [[*(-it for it in costs), 0], [0] * (len(costs) + 1)]
        self.denominator = 1

    def pivot(self, r, s):
        """The basic variable of row r and the variable of column s change places."""
        row, before = self.rows[r], self.denominator
        pivot, sign = row[s], 1 if row[s] > 0 else -1
        for k, other in enumerate(self.rows):
            if k != r:
                factor = other[s]
                changed = [sign * (a * pivot - factor * b) // before for a, b in zip(other, row)]
                changed[s] = -sign * factor
                self.rows[k] = changed
        self.rows[r] = [sign * it for it in row]
        self.rows[r][s] = sign * before
        self.denominator = abs(pivot)
        self.basic[r], self.columns[s] = self.columns[s], self.basic[r]

    def leaving(self, s):
        """The row that limits the variable of column s first."""
        best = None
        for i, name in enumerate(self.basic):
            row = self.rows[i]
            if row[s] > 0:
                ratio = Fraction(row[-1], row[s]), name
                best = min(best or (ratio, i), (ratio, i))
        if best is None:
            raise ValueError("the cost has no least")
        return best[1]

    def run(self, objective):
        """Pivots as long as what the objective's row comes to gets less by one."""
        while True:
            falling = [(name, s) for s, name in enumerate(self.columns) if self.rows[objective][s] > 0]
            if not falling:
                return Fraction(self.rows[objective][-1], self.denominator)
            s = min(falling)[1]
            self.pivot(self.leaving(s), s)

    def is_possible(self):
        """Whether some numbers keep the rows; the tableau then is at some that do."""
        lowest = min(range(len(self.basic)), key=lambda i: self.rows[i][-1], default=None)
        if lowest is None or self.rows[lowest][-1] >= 0:
            return True
        excess = len(self.columns)
        for k, row in enumerate(self.rows):
            row.insert(excess, 0 if k == len(self.basic) else -1)
        self.columns.append(EXCESS)
        self.pivot(lowest, excess)
        if self.run(SUM) > 0:
            return False
        if EXCESS in self.basic:
            r = self.basic.index(EXCESS)
            self.pivot(r, next(s for s, it in enumerate(self.rows[r][:-1]) if it))
        excess = self.columns.index(EXCESS)
        for row in self.rows:
            del row[excess]
        self.columns.remove(EXCESS)
        return True


def least(costs, rows):
    """The least sum of costs times numbers from 0 on, where for each row the sum of its factors times them is at most its limit."""
    tableau = Tableau(costs, rows)
    return tableau.run(COST) if tableau.is_possible() else None
