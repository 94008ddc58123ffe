"""Graphs of imports: how long their order takes, and the circles that are told."""

import time
import unittest

from holls import checking, graph
from holls.files import File


def files(imports):
    """Files by what each imports."""
    made = []
    for own, names in imports.items():
        file = File("/F/%s.hol" % own)
        file.take("".join("import %s;;\n" % name for name in names))
        made.append(file)
    return made


def seconds(imports):
    """The processor time of putting files in order, the least of three."""
    taken = []
    for _ in range(3):
        given = files(imports)
        begun = time.process_time()
        graph.ordered(graph.with_imports(given, lambda _, name: "there is none"))
        taken.append(time.process_time() - begun)
    return min(taken)


def chain(number):
    return {"F%03d" % at: ["F%03d" % (at - 1)] if at else [] for at in range(number)}


def ring(number):
    return {"F%03d" % at: ["F%03d" % ((at + 1) % number)] for at in range(number)}


def every(number):
    return {"F%03d" % at: ["F%03d" % other for other in range(number) if other != at] for at in range(number)}


class Graphs(unittest.TestCase):
    def test_four_times_the_imports_take_hardly_more_than_four_times_as_long(self):
        for made, few, many in ((chain, 150, 600), (every, 60, 120)):
            self.assertLess(seconds(made(many)), 12 * seconds(made(few)) + 0.02, made.__name__)

    def test_each_import_of_a_circle_tells_the_same_circle(self):
        given = files(ring(5))
        self.assertEqual(len(graph.ordered(graph.with_imports(given, lambda _, name: "there is none"))), 5)
        told = {blemish.text for file in given for blemish in file.context}
        self.assertEqual(told, {"imports go in a circle here: F000 imports F001 imports F002 imports F003 imports F004 imports F000; take one of them out"})

    def test_a_file_by_the_name_of_a_theory_that_it_imports_is_to_be_renamed(self):
        given = files({"lists": ["lists"]})
        graph.with_imports(given, lambda _, name: "there is none")
        self.assertEqual([blemish.text for blemish in given[0].context],
                         ["this file is the theory lists itself: rename it, so that the library's lists can be imported"])

    def test_the_shortest_circle_is_told(self):
        given = files({"A": ["B", "C"], "B": ["C"], "C": ["A"], "D": ["D", "A"]})
        graph.with_imports(given, lambda _, name: "there is none")
        circles = {file.name: sorted(blemish.text.split(": ")[1].split(";")[0] for blemish in file.context) for file in given}
        self.assertEqual(circles, {
            "A": ["A imports B imports C imports A", "A imports C imports A"], "B": ["A imports B imports C imports A"], "C": ["A imports C imports A"],
            "D": ["D imports D"]})

    def test_files_that_hang_together_are_checked_by_one_server_where_it_holds_them(self):
        made = checking.units({"": graph.ordered(graph.with_imports(files(dict(chain(5), A=["B"], B=[])), lambda _, name: "there is none"))})
        groups = {unit.file.name: unit.group for unit in made}
        self.assertEqual(len({groups["F%03d" % at] for at in range(5)}), 1)
        self.assertEqual(groups["A"], groups["B"])
        self.assertNotEqual(groups["A"], groups["F000"])
        large = checking.units({"": graph.ordered(graph.with_imports(files(chain(65)), lambda _, name: "there is none"))})
        self.assertEqual({unit.group for unit in large}, {None})


if __name__ == "__main__":
    unittest.main()
