"""The pictures of the package for Python, by what is on their axes."""
from packaged import ELEMENTS, PackageCase

PLAIN = ("import matplotlib\nmatplotlib.use('Agg')\nimport feast_lab, numpy\nfrom feast_lab import plots\n"
         "run = feast_lab.run(world, elements, step=True)\n")


class Plots(PackageCase):
    """Axes with what was to be drawn on them."""

    def setUp(self) -> None:
        super().setUp()
        self.elements.write_text("/** \\color #112233 */\n" + ELEMENTS.replace("element Wall", "/** \\color #445566 */\nelement Wall"))

    def drawn(self, script: str) -> list[str]:
        """The lines that a script says."""
        return self.says(PLAIN + script, MPLCONFIGDIR=str(self.room))

    def test_curves(self) -> None:
        """Columns as curves, and means with their intervals as a band."""
        script = (
            "counts = run.counts(every=10)\n"
            "axes = plots.plot(counts, ['Cell', 'Wall'])\n"
            "print([it.get_label() for it in axes.lines], (axes.lines[0].get_ydata() == counts['Cell']).all(), axes.get_xlabel())\n"
            "print(plots.plot(counts, 'Cell', x='events', axes=axes, label='again') is axes, axes.lines[2].get_label())\n"
            "rows = numpy.array([(1, 2.0), (1, 4.0), (2, 5.0), (2, 9.0)], [('leg', 'i8'), ('ants', 'f8')])\n"
            "means = feast_lab.statistics.means(rows, 'ants', by='leg')\n"
            "axes = plots.plot_band(means, 'leg')\n"
            "ends = axes.collections[0].get_datalim(axes.transData)\n"
            "print(axes.lines[0].get_ydata().tolist(), numpy.isclose([ends.y0, ends.y1], [means['low'].min(), means['high'].max()]).all())\n"
            "other = plots.plot_band(rows, 'leg', 'ants')\n"
            "print((other.lines[0].get_ydata() == means['mean']).all(), other.lines[0].get_label(),\n"
            "      other.collections[0].get_datalim(other.transData).bounds == ends.bounds)\n"
            "try: plots.plot(counts, 'Cow')\n"
            "except feast_lab.LabError as error: print(error)\n")
        self.assertEqual(self.drawn(script), [
            "['Cell', 'Wall'] True aeps", "True again", "[3.0, 7.0] True", "True ants True",
            "the rows have no column Cow; they have events, abandoned, aeps, Cell, Wall"])

    def test_planes(self) -> None:
        """A plane in the colours of its elements, and grids as heat maps."""
        script = (
            "plane = run.at(0)\n"
            "axes = plots.plot_plane(plane)\n"
            "shown = axes.images[0].get_array()\n"
            "print(shown.shape, shown[1, 1].tolist(), shown[5, 9].tolist(), shown[0, 0].tolist(), int((shown != 255).any(axis=2).sum()))\n"
            "print([it.get_text() for it in axes.get_legend().get_texts()], axes.get_title())\n"
            "grid = run.grid('Cell.age')\n"
            "print((plots.plot_grid(grid).images[0].get_array() == grid).all())\n"
            "for given_up in (False, True):\n"
            "    shown = plots.plot_events(run, abandoned=given_up).images[0].get_array()\n"
            "    records = run.abandoned if given_up else run.events\n"
            "    print(shown.shape, shown.sum() == len(records), all(shown[it['y'], it['x']] > 0 for it in records))\n")
        self.assertEqual(self.drawn(script), [
            "(8, 16, 3) [17, 34, 51] [68, 85, 102] [255, 255, 255] 2", "['Cell', 'Wall'] w.world after 0 events", "True",
            "(8, 16) True True", "(8, 16) True True"])

    def test_space_time(self) -> None:
        """A row or a column of the plane, as the planes one after another have it."""
        script = (
            "shown = plots.plot_space_time(run, 10, row=1).images[0].get_array()\n"
            "there = (shown != 255).any(axis=2)\n"
            "print(there.shape, [set(numpy.flatnonzero(line)) == {int(it['x']) for it in plane.atoms if it['y'] == 1}\n"
            "                    for line, plane in zip(there, run.frames(10))])\n"
            "print(plots.plot_space_time(run, 20, column=9).images[0].get_array()[:, 5].tolist())\n"
            "for wrong in ({}, dict(row=1, column=1), dict(row=8), dict(column=16)):\n"
            "    try: plots.plot_space_time(run, 20, **wrong)\n"
            "    except feast_lab.LabError as error: print(error)\n")
        one, inside = "a diagram of space and time is of one row or of one column", "the plane has the rows 0 to 7 and the columns 0 to 15"
        wall = [68, 85, 102]
        self.assertEqual(self.drawn(script), [f"(6, 16) {[True] * 6}", str([wall] * 4), one, one, inside, inside])
