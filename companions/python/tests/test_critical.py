"""Critical values are the shortest fractions near enough, and tails are those of tables and of scipy."""

import importlib.util
import unittest
from fractions import Fraction as F

from quantreg_exact import critical_value
from quantreg_exact.critical import AGREEMENT, chi_squared_tail, given_critical
from quantreg_exact.numbers import simplest_between

# The two-sided critical values of the normal distribution, to 16 digits as tables have them.
NORMAL = {0.1: "1.644853626951473", 0.05: "1.959963984540054", 0.01: "2.575829303548901"}

needs_scipy = unittest.skipUnless(importlib.util.find_spec("scipy"), "scipy is not there")


def by_search(low, high):
    """The first fraction of all in the range, by their denominators."""
    denominator = 1
    while True:
        numerator = -(-low.numerator * denominator // low.denominator)
        if F(numerator, denominator) <= high:
            return F(numerator, denominator)
        denominator += 1


class Fractions(unittest.TestCase):
    def test_the_simplest_fraction_is_the_first_of_all(self):
        for low, high in [(F(1, 3), F(1, 2)), (F(13, 5), F(27, 10)), (F(-7, 5), F(-13, 10)), (F(2), F(3)), (F(314, 100), F(315, 100))]:
            with self.subTest(low=low, high=high):
                self.assertEqual(simplest_between(low, high), by_search(low, high))
        # A convergent of pi.
        self.assertEqual(simplest_between(F(31415926, 10**7), F(314159293, 10**8)), F(355, 113))

    def test_critical_values_agree_to_five_digits_and_no_shorter_fraction_does(self):
        for alpha, root in NORMAL.items():
            square = F(root) ** 2
            found = critical_value(alpha)
            with self.subTest(alpha=alpha):
                self.assertLess(abs(found.value / square - 1), AGREEMENT)
                self.assertEqual(found.value, by_search(square * (1 - AGREEMENT), square * (1 + AGREEMENT)))
        self.assertEqual([critical_value(alpha).value for alpha in (0.1, 0.05)], [F(441, 163), F(315, 82)])
        self.assertEqual(str(critical_value(0.1)), "441/163 (2.7055, level 90 %)")

    def test_a_fraction_is_taken_as_it_is(self):
        for given, level in (("46/17", "90 %"), (F(73, 19), "95 %")):
            found = given_critical(given)
            self.assertEqual((found.value, found.level), (F(given), level))
            # Its own level is the one that it stands for, to three digits.
            self.assertAlmostEqual(found.alpha, {"90 %": 0.1, "95 %": 0.05}[level], 4)

    def test_a_level_that_is_none_is_refused(self):
        for alpha in (0, 1, -0.1, 5):
            with self.subTest(alpha=alpha), self.assertRaisesRegex(ValueError, "between 0 and 1"):
                critical_value(alpha)

    @needs_scipy
    def test_with_degrees_of_freedom_they_are_those_of_student(self):
        # qt(0.95, 17) of R is 1.739606726.
        self.assertLess(abs(critical_value(0.1, 17).value / F("1.739606726") ** 2 - 1), 2 * AGREEMENT)


class Tails(unittest.TestCase):
    def test_the_usual_table(self):
        # The 0.95 quantiles of the chi-squared distribution, to 6 digits.
        for degrees, quantile in ((1, 3.84146), (2, 5.99146), (3, 7.81473), (4, 9.48773), (10, 18.30704), (30, 43.77297)):
            with self.subTest(degrees=degrees):
                self.assertAlmostEqual(chi_squared_tail(quantile, degrees), 0.05, 6)
        self.assertEqual(chi_squared_tail(0, 3), 1)
        self.assertEqual(chi_squared_tail(10**5, 2), 0)

    @needs_scipy
    def test_scipy_has_the_same(self):
        from scipy.stats import chi2

        for degrees in (1, 2, 3, 5, 8, 127):
            for statistic in (1e-9, 0.3, 2, 7.5, 150):
                with self.subTest(degrees=degrees, statistic=statistic):
                    self.assertAlmostEqual(chi_squared_tail(statistic, degrees) / chi2.sf(statistic, degrees), 1, 10)


if __name__ == "__main__":
    unittest.main()
