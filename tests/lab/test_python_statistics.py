"""The statistics of the package for Python, against published tables."""
from packaged import PackageCase

FRONT = "import feast_lab, numpy\nfrom feast_lab import statistics\n"


class Statistics(PackageCase):
    """Each against a table that others have computed."""

    def test_student(self) -> None:
        """Student's quantiles, as the tables of textbooks have them for 95 and 99 %."""
        script = FRONT + ("print([f'{statistics.quantile(0.95, it):.3f}' for it in (1, 2, 3, 4, 9, 10, 30, 120)])\n"
                          "print([f'{statistics.quantile(0.99, it):.3f}' for it in (1, 2, 5, 9, 60)])\n")
        self.assertEqual(self.says(script), [
            str(["12.706", "4.303", "3.182", "2.776", "2.262", "2.228", "2.042", "1.980"]), str(["63.657", "9.925", "4.032", "3.250", "2.660"])])

    def test_paired(self) -> None:
        """Student's own example, the hours of sleep of ten patients (1908): R's t.test says t = 4.0621, p = 0.002833, and the
        interval 0.7001142 to 2.4598858."""
        script = FRONT + (
            "one = [1.9, 0.8, 1.1, 0.1, -0.1, 4.4, 5.5, 1.6, 4.6, 3.4]\n"
            "other = [0.7, -1.6, -0.2, -1.2, -0.1, 3.4, 3.7, 0.8, 0.0, 2.0]\n"
            "rows = [numpy.array(list(enumerate(it)), [('seed', 'i8'), ('sleep', 'f8')]) for it in (one, other)]\n"
            "found = statistics.paired(*rows, 'sleep', on='seed')\n"
            "print(found.dtype.names, [f'{it:.7f}' for it in found[0]])\n"
            "print([f'{it:.6f}' for it in statistics.paired(rows[0], rows[1][::-1], 'sleep', ['seed'])[0]] == [f'{it:.6f}' for it in found[0]])\n"
            "for wrong in (lambda: statistics.paired(rows[0], rows[1][1:], 'sleep', 'seed'), lambda: statistics.paired(*rows, 'sleep', 'x'),\n"
            "              lambda: statistics.paired(rows[0][[0, 0]], rows[1], 'sleep', 'seed')):\n"
            "    try: wrong()\n"
            "    except feast_lab.LabError as error: print(error)\n")
        self.assertEqual(self.says(script), [
            "('pairs', 'mean', 'low', 'high', 't', 'p') ['10.0000000', '1.5800000', '0.7001142', '2.4598858', '4.0621277', '0.0028329']",
            "True", "paired: {'seed': 0} is in one of the studies alone", "the rows have no column x; they have seed, sleep",
            "paired: {'seed': 0} is in 2 rows; on= has to name what tells rows apart"])

    def test_survival(self) -> None:
        """The remissions of 21 patients under 6-mercaptopurine (Freireich and others, 1963), whose curve textbooks print."""
        script = FRONT + (
            "weeks = [6, 6, 6, 7, 10, 13, 16, 22, 23, 6, 9, 10, 11, 17, 19, 20, 25, 32, 32, 34, 35]\n"
            "rows = [(run, aeps, aeps == weeks[run] and run < 9) for run in range(21) for aeps in range(weeks[run] + 1)]\n"
            "rows = numpy.array(rows, [('run', 'i8'), ('aeps', 'f8'), ('ill', '?')])\n"
            "found = statistics.times(rows, rows['ill'])\n"
            "print(found['time'].tolist() == weeks, found['is_over'].sum())\n"
            "print([(int(it['time']), int(it['at_risk']), f\"{it['part']:.3f}\") for it in statistics.survival(found)])\n"
            "print(statistics.median_time(found), statistics.median_time(found[found['time'] < 17]), statistics.median_time(found[9:]))\n")
        self.assertEqual(self.says(script), [
            "True 9", "[(6, 21, '0.857'), (7, 17, '0.807'), (10, 15, '0.753'), (13, 12, '0.690'), (16, 11, '0.627'), (22, 7, '0.538'), "
            "(23, 6, '0.448')]", "23.0 10.0 inf"])

    def test_means(self) -> None:
        """By groups: what is masked or NaN is left out; of one run there is no interval, and of none no mean."""
        script = FRONT + (
            "data = [(1, 'a', 2), (2, 'a', 4), (3, 'a', 9), (4, 'b', 7), (5, 'b', 0), (6, 'c', 0)]\n"
            "rows = numpy.array(data, [('run', 'i8'), ('kind', 'U1'), ('ants', 'i8')])\n"
            "rows = numpy.ma.array(rows, mask=[(False, False, run > 4) for run, _, _ in data])\n"
            "for kind, runs, *rest in statistics.means(rows, 'ants', 'kind', level=0.9).tolist():\n"
            "    print([kind, runs, *(f'{it:.4f}' for it in rest)])\n"
            "print(statistics.means(rows[:3], 'ants').dtype.names)\n"
            "try: statistics.means(rows, 'ants', level=95)\n"
            "except feast_lab.LabError as error: print(error)\n")
        # the standard error of 2, 4 and 9 is the root of 13/3, and Student's t for 90 % and two degrees of freedom 2.919986
        half = 2.919986 * (13 / 3) ** 0.5
        self.assertEqual(self.says(script), [
            str(["a", 3, "5.0000", f"{5 - half:.4f}", f"{5 + half:.4f}"]), str(["b", 1, "7.0000", "nan", "nan"]),
            str(["c", 0, "nan", "nan", "nan"]), "('runs', 'mean', 'low', 'high')", "level=95: it is between 0 and 1"])
