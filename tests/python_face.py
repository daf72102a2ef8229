#!/usr/bin/env python3
"""Tests of python/beyqaloosh.py: nights with known bits, walks, calls on one block, every refusal that it can cause, marks and labels, and
what it takes."""
import array
import math
import os
import pathlib
import pickle
import re
import struct
import subprocess
import sys
import unittest
import unittest.mock

try:
    import numpy
except ImportError:
    numpy = None

REPOSITORY = pathlib.Path(__file__).resolve().parent.parent
sys.path[:0] = [str(REPOSITORY / "python"), str(REPOSITORY / "tools")]
import beyqaloosh
import sheet as sheets
from beyqaloosh import Builder, EliminationTree, Error, Mark, System

README = (REPOSITORY / "README.md").read_text()


def bits(number):
    return struct.unpack("<Q", struct.pack("<d", number))[0]


def float_of(word):
    return struct.unpack("<d", struct.pack("<Q", word))[0]


def night_of(name):
    """The system and the right side of a sheet, block by block."""
    read = sheets.from_bytes((REPOSITORY / "nights" / name).read_bytes())
    night = Builder(float_of(read.tolerance))
    for dim, late in zip(read.dims, read.late):
        night.block(dim, late)
    # in another order than they lie in the sheet
    for (row, column, _), body in reversed(list(zip(read.contents, read.bodies))):
        night.store(row, column, [float_of(word) for word in body])
    return night.order(read.perm).build(), [float_of(word) for word in read.right]


def answer(system, right):
    """What the program fit prints for a night."""
    factor = system.factorize()
    solution = factor.solve(system, right)
    first = f"blocks {len(system.dims)} scalars {system.scalars} stored {factor.plan.stored} products {factor.products}"
    lines = [f"{first} silent {solution.silent}"]
    # every NaN as one
    lines += [f"{k} {bits(math.nan if math.isnan(value) else value):016X} {mark.name.lower()}" for k, (value, mark) in enumerate(solution)]
    return lines


def links(n, links):
    """n blocks of dimension 1 with these links, 10.0 on the diagonal and 1.0 below it."""
    night = Builder(1e-12)
    for _ in range(n):
        block = night.block(1)
        night.store(block, block, [10.0])
    for row, column in links:
        night.store(row, column, [1.0])
    return night.build()


TWO_BLOCKS = dict(dims=[1, 1], starts=[0, 2, 3], rows=[0, 1, 1], values=[4.0, 2.0, 5.0], perm=[0, 1], late=[0, 0], tolerance=1e-12)


# the starts and rows of an upper pattern: 1 is linked to 0, 2 to 1, 3 to 0
P1 = ([0, 0, 1, 2, 3], [0, 1, 0])


def one_block():
    """What the calls on one block are handed, by name."""
    a, l, d = [4, 2, 2, 5], [1, 0.5, 0, 1], [4, 4]
    floats = {"mat_a": a, "mat_a_lower": a, "mat_l": l, "ld": l, "mat_d": d, "d": d, "x": [8, 8], "mat_x": [8, 8], "y": [8, 8]}
    numbers = {"m": 1, "n": 2, "nrhs": 1, "rel_tol": 1e-12, "tol_rel": 1e-12}
    return numbers | {name: array.array("d", part) for name, part in floats.items()}


class Nights(unittest.TestCase):
    def test_the_worked_night_has_the_bits_of_the_readme(self):
        lines = answer(*night_of("storm.sheet"))
        self.assertEqual(len(lines), 12)
        self.assertIn("".join(f"    {line}\n" for line in lines), README)

    def test_the_two_block_sheet(self):
        system, right = night_of("two_blocks.sheet")
        expected = ["blocks 2 scalars 2 stored 1 products 1 silent 0", "0 3FF8000000000000 heard", "1 3FF0000000000000 heard"]
        self.assertEqual(answer(system, right), expected)
        factor = system.factorize()
        self.assertEqual([list(part) for part in (factor.d, factor.values, factor.diag, factor.offsets)], [[4, 4], [0.5], [1, 1], [0, 1]])

    def test_plans_of_document_01(self):
        # P1
        plan = links(4, [(1, 0), (2, 1), (3, 0)]).plan()
        self.assertEqual((plan.parents, plan.stored, plan.numbers, plan.products), ([1, 2, 3, None], 5, 5, 7))
        self.assertEqual([list(plan.column(k)) for k in range(4)], [[1, 3], [2, 3], [3], []])
        # P3 and P4
        hub = links(4, [(1, 0), (2, 0), (3, 0)])
        self.assertEqual((hub.plan().stored, hub.plan().products), (6, 10))
        hub.perm = array.array("I", [3, 2, 1, 0])
        self.assertEqual((hub.plan().stored, hub.plan().products), (3, 3))
        # a late block is moved behind the others
        hub.late[1] = 1
        self.assertEqual(list(hub.plan().order), [3, 2, 0, 1])

    def test_no_blocks(self):
        empty = Builder(0.0).build()
        self.assertEqual(answer(empty, []), ["blocks 0 scalars 0 stored 0 products 0 silent 0"])
        self.assertEqual(list(empty.plan().starts), [0])

    def test_silence_is_not_calm(self):
        night = links(3, [])
        night.values[1] = 0.0
        solution = night.factorize().solve(night, [20, 0, 0])
        self.assertEqual(list(solution), [(2.0, Mark.HEARD), (0.0, Mark.SILENT), (0.0, Mark.HEARD)])
        self.assertEqual((solution.labels(), solution.silent), ([2.0, None, 0.0], 1))
        self.assertEqual((solution.label(1), solution.label(2)), (None, 0.0))
        self.assertEqual(bits(Mark.HEARD.label(-0.0)), 0)

    def test_which_sensors_were_heard(self):
        night = Builder(1e-9)
        stage, heard, quiet = night.block(2), night.block(1), night.block(1, late=True)
        night.store(stage, stage, [[12, 1], [1, 6]]).store(heard, stage, [[2, 0.5]]).store(heard, heard, [8])
        system = night.order([heard, quiet, stage]).build()
        solution = system.factorize().solve(system, [20, 3, 9, 0])
        self.assertEqual([system.scalars_of(block) for block in (stage, heard, quiet)], [range(2), range(2, 3), range(3, 4)])
        marks = {sensor: [solution.marks[scalar] for scalar in system.scalars_of(sensor)] for sensor in (heard, quiet)}
        self.assertEqual(marks, {heard: [Mark.HEARD], quiet: [Mark.SILENT]})
        for block in (-1, 3):
            with self.assertRaisesRegex(IndexError, f"there is no block {block}"):
                system.scalars_of(block)

    def test_a_nan_in_the_right_side_goes_through_and_gives_no_label(self):
        night = links(3, [(1, 0)])
        factor = night.factorize()
        solution = factor.solve(night, [math.nan, 1, 10])
        self.assertTrue(math.isnan(solution.values[0]) and math.isnan(solution.values[1]))
        self.assertEqual((solution.marks, solution.labels()), ([Mark.HEARD] * 3, [None, None, 1.0]))
        self.assertEqual(factor.solve(night, [0, 0, -math.inf]).labels(), [0.0, 0.0, None])

    def test_a_tolerance_of_minus_zero_passes(self):
        night = System(**TWO_BLOCKS | {"tolerance": -0.0})
        self.assertEqual(night.factorize().solve(night, [8, 8]).labels(), [1.5, 1.0])

    def test_with_a_cache_and_without(self):
        # a hub of one scalar, eliminated first, that reaches 4 blocks of 16: L has more numbers than its cache needs
        hub = Builder(tolerance=1e-12)
        first = hub.block(1)
        hub.store(first, first, [-1])
        for _ in range(4):
            hub.store(hub.block(16), first, [0.5] * 16)
        hub = hub.build()
        needs = beyqaloosh.call("factorize_with_cache_needs", **hub._shape(), l_blocks=10, l_numbers=1600)["needs"]
        self.assertEqual((needs[5], needs[21]), (1600, 1472))
        for night in (hub, night_of("storm.sheet")[0]):
            cached, plain = night.factorize(), night.factorize(cache=False)
            self.assertEqual(cached.products, plain.products)
            for name, numbers in cached._lists.items():
                self.assertEqual(numbers.tobytes(), plain._lists[name].tobytes(), name)

    def test_4096_blocks(self):
        night = links(4096, [(k + 1, k) for k in range(4095)])
        factor = night.factorize()
        self.assertEqual((factor.plan.stored, factor.products), (4095, 4095))
        x = factor.solve(night, [12.0] * 4096).values
        back = [10 * x[k] + (x[k - 1] if k else 0) + (x[k + 1] if k < 4095 else 0) for k in range(4096)]
        self.assertLess(max(abs(b - 12) for b in back), 1e-13)


class Walks(unittest.TestCase):
    def test_trees_of_document_01(self):
        tree = EliminationTree(4, *P1)
        self.assertEqual(tree.parents, [1, 2, 3, None])
        walker = tree.walker()
        for _ in range(3):
            self.assertEqual([walker.reach(j) for j in range(4)], [[], [0], [1], [2, 1, 0]])
        # P2
        tree = EliminationTree(3, [0, 0, 0, 2], [0, 1])
        self.assertEqual((tree.parents, tree.walker().reach(2)), ([2, 2, None], [1, 0]))
        self.assertEqual(EliminationTree(0, [0], []).parents, [])

    def test_beside_the_plan(self):
        pairs = [(3, 0), (4, 1), (5, 0), (5, 3), (6, 2), (7, 1), (7, 6)]
        plan = links(8, pairs).plan()
        starts = [sum(greater < j for greater, _ in pairs) for j in range(9)]
        tree = EliminationTree(8, starts, [lesser for _, lesser in pairs])
        self.assertEqual(tree.parents, plan.parents)
        walker = tree.walker()
        for j in range(8):
            self.assertEqual(sorted(walker.reach(j)), [k for k in range(8) if j in plan.column(k)])


class OneBlock(unittest.TestCase):
    """4 2; 2 5 with its factor, and A (1.5, 1) = (8, 8)."""

    def test_calls(self):
        for name, output, expected in [
            ("ldlt_decompose_inplace", "mat_a_lower", [1, 0.5, 0, 1]),
            ("decompose", "mat_l", [1, 0.5, 0, 1]),
            ("ldlt_solve_inplace", "x", [1.5, 1]),
            ("ldlt_matsolve_inplace", "mat_x", [1.5, 1]),
            ("solve_inplace_vec", "y", [1.5, 1]),
            ("ldlt_right_matsolve_inplace", "x", [1.5, 1]),
            ("right_solve_inplace", "x", [1.5, 1]),
        ]:
            handed = one_block()
            self.assertEqual(beyqaloosh.call(name, **handed), {})
            self.assertEqual(list(handed[output]), expected, name)
        product = {"m": 2, "n": 1, "k": 1, "y": array.array("d", [0, 1]), "mat_a": array.array("d", [2, 3])}
        beyqaloosh.call("sub_mat_diag_mat_t_inplace", **product, d=array.array("d", [10]), mat_b=array.array("d", [5]))
        self.assertEqual(list(product["y"]), [-100, -149])


class Strided:
    """A range of numbers as a numpy array hands it over: by the buffer protocol, each number a step away from the last."""

    def __new__(cls, code, numbers):
        wide = array.array(code, [number for each in numbers for number in (each, 99)])
        return memoryview(wide)[::2]


class Taken(unittest.TestCase):
    """What is taken for a table or for floats, all of it copied."""

    def solves(self, words, floats):
        """The night of two blocks, its tables and its floats made by these."""
        parts = {name: (floats if name == "values" else words)(part) for name, part in TWO_BLOCKS.items() if name != "tolerance"}
        night = System(tolerance=1e-12, **parts)
        self.assertEqual(night.factorize().solve(night, floats([8.0, 8.0])).labels(), [1.5, 1.0])

    def test_lists_arrays_and_views(self):
        for words in (list, tuple, lambda t: array.array("I", t), lambda t: array.array("q", t), lambda t: memoryview(array.array("I", t)),
                      lambda t: Strided("I", t), lambda t: Strided("q", t), lambda t: Strided("B", t)):
            for floats in (list, lambda t: array.array("d", t), lambda t: memoryview(array.array("d", t)), lambda t: Strided("d", t),
                           lambda t: Strided("f", t)):
                self.solves(words, floats)

    @unittest.skipUnless(numpy, "numpy is not there")
    def test_numpy_arrays(self):
        def made(kind, step):
            return lambda numbers: numpy.repeat(numpy.array(numbers, dtype=kind), step)[::step]

        for words in [made(kind, step) for kind in ("uint8", "uint16", "uint32", "int64") for step in (1, 2)]:
            for floats in [made(kind, step) for kind in ("float32", "float64") for step in (1, 2)]:
                self.solves(words, floats)
        for order in "CF":
            night = Builder(0.0)
            wide, high = night.block(2), night.block(3)
            body = numpy.array([[1, 4], [2, 5], [3, 6]], dtype=float, order=order)
            self.assertEqual(list(night.store(high, wide, body).build().values), [1, 2, 3, 4, 5, 6])

    def test_what_is_handed_over_is_copied(self):
        values, right = array.array("d", TWO_BLOCKS["values"]), array.array("d", [8, 8])
        night = System(**TWO_BLOCKS | {"values": values})
        values[0] = math.nan
        # one array as every table that it can be
        same = array.array("I", [0, 1])
        twice = System(**TWO_BLOCKS | {"perm": same, "late": same})
        self.assertEqual(twice.plan().products, 1)
        solution = night.factorize().solve(night, right)
        self.assertEqual((list(right), solution.labels()), ([8, 8], [1.5, 1.0]))

    def test_bodies_by_columns_or_by_rows(self):
        flat = array.array("d", [1, 2, 3, 4, 5, 6])
        rows = memoryview(array.array("d", [1, 4, 2, 5, 3, 6])).cast("B").cast("d", [3, 2])
        listed = [[1, 4], [2, 5], [3, 6]]
        for body in ([1, 2, 3, 4, 5, 6], flat, memoryview(flat), iter(flat), listed, rows, iter(listed), map(iter, listed), zip(*zip(*listed))):
            night = Builder(0.0)
            wide, high = night.block(2), night.block(3)
            self.assertEqual(list(night.store(high, wide, body).build().values), [1, 2, 3, 4, 5, 6])

    def test_an_order_is_copied(self):
        night, order = Builder(1e-12), [1, 0]
        for block in (night.block(1), night.block(1)):
            night.store(block, block, [1])
        night.order(order)
        order.append(7)
        self.assertEqual(list(night.build().plan().order), [1, 0])
        # one that can be read once serves each system that is built
        night.order(reversed([0, 1]))
        for _ in range(2):
            self.assertEqual(list(night.build().plan().order), [1, 0])

    def test_no_array_is_resized_while_a_call_reads_it(self):
        handed = one_block()
        arrays, tried = [handed[name] for name in ("mat_l", "mat_d", "x")], []

        class Stub:
            @staticmethod
            def beyqaloosh_ldlt_solve_inplace(*_):
                # as another thread would, which runs while the library does
                for numbers in arrays:
                    try:
                        numbers.extend([0.0] * 1000)
                    except BufferError:
                        tried.append(numbers)
                return answers

        for answers in (0, 12):
            tried.clear()
            with unittest.mock.patch.object(beyqaloosh, "library", Stub):
                try:
                    beyqaloosh.call("ldlt_solve_inplace", **handed)
                except Error as why:
                    refusal = why
            self.assertEqual([id(numbers) for numbers in tried], [id(numbers) for numbers in arrays])
            # afterwards it may be, also while a refusal is held
            for numbers in arrays:
                numbers.append(0.0)
        self.assertEqual(refusal.number, 12)

    def test_what_is_no_slice_of_its_own(self):
        one = one_block()
        for wrong in (array.array("f", [4, 4]), array.array("B", [4, 4]), [4.0, 4.0]):
            with self.assertRaisesRegex(TypeError, "mat_d is no array.array of type 'd'"):
                beyqaloosh.call("ldlt_solve_inplace", **one | {"mat_d": wrong})
        with self.assertRaisesRegex(ValueError, "x is handed over twice"):
            beyqaloosh.call("ldlt_solve_inplace", **one | {"mat_d": one["x"]})

    def test_what_is_no_number(self):
        for wrong in ({"dims": [1.5, 1]}, {"rows": ["0", 1, 1]}, {"values": [4, 2, None]}):
            with self.assertRaises(TypeError):
                System(**TWO_BLOCKS | wrong)
        with self.assertRaisesRegex(ValueError, "the rows of a body differ in length"):
            Builder(0.0).store(0, 0, [[1, 2], [3]])


class Refusals(unittest.TestCase):
    def refused(self, what, number, carries, *words):
        with self.assertRaises(Error) as caught:
            what()
        why = caught.exception
        self.assertEqual((why.number, why.carries), (number, carries), str(why))
        self.assertTrue(str(why).startswith(f"refused {number}, caused by {why.who}: "), str(why))
        for word in words:
            self.assertIn(word, str(why))
        return why

    def test_the_tables_of_a_system(self):
        a = {"of": "A"}
        for fault, number, carries, words in [
            ({"dims": [1] * 4097}, 1, {}, "more than 4,096 blocks"),
            ({"dims": [1, 17]}, 2, {"place": 1}, "block 1 has a dimension 0 or above 16"),
            ({"dims": [0, 1]}, 2, {"place": 0}, "block 0"),
            ({"dims": [-1, 1]}, 2, {"place": 0}, "block 0"),
            ({"dims": [2**32 + 1, 1]}, 2, {"place": 0}, "block 0"),
            ({"starts": [1, 2, 3]}, 3, {"place": 0} | a, "entry 0 of the column starts of A"),
            ({"starts": [0, 2, 2**40]}, 3, {"place": 2} | a, "entry 2"),
            ({"starts": []}, 3, {"place": 0} | a, "entry 0"),
            ({"rows": [0] * 65537, "starts": [0, 65537, 65537]}, 4, {}, "more than 65,536 blocks"),
            ({"rows": [0, 1, 2]}, 5, {"place": 2} | a, "entry 2 of the row table of A is outside its range"),
            ({"rows": [0, 1, -1]}, 5, {"place": 2} | a, "entry 2"),
            ({"rows": [0, 0, 1]}, 6, {"place": 1} | a, "entry 1 of the row table of A is not greater"),
            ({"values": [4, 2]}, 7, a, "not as many values as the blocks of A"),
            ({"perm": [0, 0]}, 8, {"place": 1}, "entry 1 of the permutation"),
            ({"perm": [0]}, 8, {"place": 1}, "entry 1 of the permutation"),
            ({"late": [0, 2]}, 9, {"place": 1}, "late flag 1"),
            ({"tolerance": math.nan}, 10, {}, "the tolerance is NaN, infinite or below zero"),
            ({"tolerance": math.inf}, 10, {}, "the tolerance"),
            ({"tolerance": -1e-300}, 10, {}, "the tolerance"),
            # the lowest number, and within it the first place
            ({"dims": [99, 99], "late": [2, 2], "tolerance": -1}, 2, {"place": 0}, "block 0"),
        ]:
            night = System(**TWO_BLOCKS | fault)
            why = self.refused(night.factorize, number, carries, words)
            if number not in (7, 10):
                self.assertEqual(str(self.refused(night.plan, number, carries)), str(why))
        system = System(**TWO_BLOCKS | {"values": [], "tolerance": math.nan})
        self.assertEqual(system.plan().products, 1)

    def test_what_a_builder_is_given(self):
        def night(*stored):
            made = Builder(1e-12)
            made.block(1), made.block(2)
            for row, column, body in stored:
                made.store(row, column, body)
            return made.build().factorize

        a = {"of": "A"}
        self.refused(night((0, 1, [1, 1])), 5, {"place": 0} | a)
        self.refused(night((2, 2, [1])), 3, {"place": 2} | a)
        self.refused(night((0, -1, [1])), 3, {"place": 2} | a)
        self.refused(night((2, 0, [1])), 5, {"place": 0} | a)
        self.refused(night((0, 0, [1]), (0, 0, [1])), 6, {"place": 1} | a)
        body = "the body of block (1, 0) has not rows × columns numbers. Send as many numbers as the blocks have"
        self.refused(night((1, 1, [1] * 3), (1, 0, [1] * 3)), 7, {"body": (1, 0)} | a, body)
        # rows of another shape, with as many numbers
        good = [(0, 0, [1]), (1, 0, [[0], [0]]), (1, 1, [[1, 0], [0, 1]])]
        night(*good)()
        self.refused(night(good[0], (1, 0, [[0, 0]]), good[2]), 7, {"body": (1, 0)} | a, body)
        view = memoryview(array.array("d", [0, 0])).cast("B").cast("d", [1, 2])
        self.refused(night(good[0], (1, 0, view), good[2]), 7, {"body": (1, 0)} | a, body)
        for rows in ([[1, 0, 0, 1]], [[1], [0], [0], [1]]):
            self.refused(night(*good[:2], (1, 1, rows)), 7, {"body": (1, 1)} | a)

    def test_the_data(self):
        night = links(3, [(2, 0)])
        # block 2 is the first by new number
        night.perm = array.array("I", [2, 0, 1])
        for pivot in (math.inf, -math.inf):
            night.values[3] = pivot
            where = f"the pivot of row 0 of block 0 by new number, 2 by old, is {pivot}. Look at the numbers of the block"
            self.refused(night.factorize, 13, {"block": 0, "old": 2, "place": 0, "pivot": pivot}, where)
        night.values[3] = math.nan
        with self.assertRaisesRegex(Error, "refused 13, caused by the data: .* is nan"):
            night.factorize()
        # P10 and P9
        night.values[3] = -1e-11
        poor = "block 0 by new number, 2 by old, is indefinite with the condition 1e-11. Look at the block that is named for a wrong sign"
        self.refused(night.factorize, 14, {"block": 0, "old": 2, "condition": 1e-11}, poor)
        night.values[3] = -1e-10
        night.factorize()

    def test_a_stale_factor(self):
        pattern = [(1, 0), (2, 0), (3, 1)]
        night = links(4, pattern)
        factor = night.factorize()
        again = "Factorize tonight's system again."
        other = links(4, pattern)
        other.perm = array.array("I", [3, 2, 1, 0])
        order = {"place": 5, "name": "order"}
        self.refused(lambda: factor.solve(other, [1] * 4), 12, order, "the factor is stale, order is not that of this system", again)
        rows = {"place": 8, "name": "l_rows"}
        more, fewer = links(4, pattern + [(3, 0)]), links(4, pattern[:2])
        missing, extra = {"column": 0, "wrong": "missing"}, {"column": 1, "wrong": "extra"}
        self.refused(lambda: factor.solve(more, [1] * 4), 12, rows | missing, "its column 0, by new number, lacks a row", again)
        self.refused(lambda: factor.solve(fewer, [1] * 4), 12, rows | extra, "its column 1, by new number, lists a row too many", again)
        self.assertEqual(factor.solve(night, [0] * 4).labels(), [0.0] * 4)

    def test_a_factor_of_other_dimensions(self):
        def night(*dims):
            made = Builder(0.0)
            for dim in dims:
                block = made.block(dim)
                made.store(block, block, [[float(i == j) for j in range(dim)] for i in range(dim)])
            return made.build()

        made, other = night(1, 2), night(2, 1)
        factor = made.factorize()
        # no offset and no count tells these two apart: the library takes the one for the other
        lent = beyqaloosh._lend("solve_inplace", dims=other.dims)
        beyqaloosh.call("solve_inplace", **other._tables(), **factor._lists, **lent)
        # the face does not
        words = "the factor is stale, dims is not that of this system. Factorize tonight's system again."
        self.refused(lambda: factor.solve(other, [1, 2, 3]), 12, {"place": 0, "name": "dims"}, words)
        self.refused(lambda: factor.solve(links(1, []), [1]), 12, {"place": 0, "name": "dims"}, words)
        self.assertEqual(factor.solve(made, [1, 2, 3]).labels(), [1.0, 2.0, 3.0])
        made.dims = [1, 2]
        with self.assertRaisesRegex(TypeError, "dims is no array.array of type 'I'"):
            factor.solve(made, [1, 2, 3])

    def test_a_right_side_of_another_length(self):
        night = System(**TWO_BLOCKS)
        factor = night.factorize()
        x = {"place": 13, "name": "x"}
        for right in ([8], [8, 8, 8]):
            self.refused(lambda: factor.solve(night, right), 12, x, "slice 13 of the call, x, has another length", "its exact length.")

    def test_the_lists_of_a_factor(self):
        night, right = night_of("storm.sheet")
        factor = "the factor"
        for name, change, number, carries in [
            ("l_starts", lambda t: t.__setitem__(0, 1), 3, {"place": 0, "of": factor}),
            ("l_rows", lambda t: t.__setitem__(0, 0), 5, {"place": 0, "of": factor}),
            ("l_rows", lambda t: t.__setitem__(1, t[0]), 6, {"place": 1, "of": factor}),
            ("parents", lambda t: t.__setitem__(2, 1), 5, {"place": 2, "of": "the tree"}),
            ("l_values", lambda t: t.pop(), 7, {"of": factor}),
            ("parents", lambda t: t.pop(), 12, {"place": 6, "name": "parents"}),
            ("parents", lambda t: t.__setitem__(0, 7), 12, {"place": 6, "name": "parents", "column": 0, "wrong": "parent"}),
            ("l_offsets", lambda t: t.__setitem__(1, 99), 12, {"place": 9, "name": "l_offsets"}),
            ("diag", lambda t: t.append(0), 12, {"place": 11, "name": "diag"}),
            ("d", lambda t: t.pop(), 12, {"place": 12, "name": "d"}),
        ]:
            made = night.factorize()
            change(made._lists[name])
            self.refused(lambda: made.solve(night, right), number, carries)

    def test_short_buffers(self):
        night, right = night_of("storm.sheet")
        tables, numbers = night._tables(), {"values": night.values, "tol": night.tolerance}
        factor = night.factorize()
        lend = lambda name, **more: beyqaloosh._lend(name, **night._shape()) | more
        of_l = {"l_rows": factor._lists["l_rows"], "l_offsets": factor.offsets, "l_values": factor.values}
        marks = {"dims": night.dims, "order": factor.plan.order, "d": factor.d, "tol": 1e-9}
        x = array.array("d", right)
        tree = EliminationTree(4, *P1)
        pattern = {"starts": tree._tables["starts"], "rows": tree._tables["rows"]}
        for name, handed, lent in [
            ("elimination_tree", pattern | {"n": 4}, beyqaloosh._lend("elimination_tree", blocks=4)),
            ("reach", tree._tables | {"j": 3, "mark": 0}, beyqaloosh._lend("reach", blocks=4)),
            ("plan", tables, lend("plan", l_rows=of_l["l_rows"])),
            ("factorize", tables | numbers, lend("factorize", **of_l)),
            ("factorize_with_cache", tables | numbers, lend("factorize_with_cache", **of_l, cache=factor.values[:])),
            ("solve_inplace", tables | factor._lists, lend("solve_inplace", x=x)),
            ("marks", marks, lend("marks")),
        ]:
            beyqaloosh.call(name, **handed, **lent)
            buffers = [argument for argument, kind in beyqaloosh.CALLS[name] if kind.isupper()]
            self.assertEqual(sorted(buffers), sorted(lent))
            for which, short in enumerate(buffers):
                if short == "x":
                    continue
                need = len(lent[short])
                words = f"buffer {which} of the call, {short}, is shorter than its need {need}. Lend the buffer that is named"
                call = lambda: beyqaloosh.call(name, **handed, **lent | {short: lent[short][:-1]})
                self.refused(call, 11, {"which": which, "name": short, "need": need}, words)

    def test_wrong_patterns_and_walks(self):
        starts, rows = P1
        pattern = {"of": "the pattern"}
        for tables, number, carries, words in [
            ((4097, [0] * 4098, []), 1, {}, "more than 4,096 blocks"),
            ((-1, starts, rows), 1, {}, "more than 4,096 blocks"),
            ((2**64 + 4, starts, rows), 1, {}, "more than 4,096 blocks"),
            ((4, [0, 0, 2, 1, 3], rows), 3, {"place": 3} | pattern, "entry 3 of the column starts of the pattern does not fit. Make"),
            ((4, starts, [0, 4, 0]), 5, {"place": 1} | pattern, "outside its range. In an upper pattern list rows below"),
            ((2, [0, 0, 2], [0, 0]), 6, {"place": 1} | pattern, "entry 1 of the row table of the pattern is not greater"),
        ]:
            self.refused(lambda: EliminationTree(*tables), number, carries, words)
        tree = EliminationTree(4, *P1)
        walker = tree.walker()
        for j in (4, -1, 2**64):
            words = f"block {j} is past the last. Ask for the walk of a block that there is."
            self.refused(lambda: walker.reach(j), 12, {"block": j}, words)
        self.assertEqual(walker.reach(3), [2, 1, 0])
        tree._tables["parents"][1] = 1
        words = "the parent of block 1, by new number, is neither none nor a greater block. A parent is a greater block"
        self.refused(lambda: walker.reach(3), 5, {"place": 1, "of": "the tree"}, words)

    def test_a_refusal_is_pickled(self):
        night = System(**TWO_BLOCKS)
        night.values[0] = math.inf
        for refused in (night.factorize, lambda: links(1, []).factorize().solve(night, [1]), System([17], [0, 0], [], [], [0], [0], 0).plan):
            with self.assertRaises(Error) as caught:
                refused()
            why, again = caught.exception, pickle.loads(pickle.dumps(caught.exception))
            self.assertIs(type(again), Error)
            self.assertEqual((str(again), vars(again)), (str(why), vars(why)))

    def test_words_that_are_none(self):
        tree = EliminationTree(4, *P1)
        lent = beyqaloosh._lend("reach", blocks=4)
        for mark in (-1, 2**32):
            with self.assertRaisesRegex(OverflowError, "mark is no number from 0 to 4294967295"):
                beyqaloosh.call("reach", **tree._tables, j=3, mark=mark, **lent)
        # the greatest is one: the next mark is found all the same
        self.assertEqual(beyqaloosh.call("reach", **tree._tables, j=3, mark=2**32 - 1, **lent)["told"][1], 1)
        with self.assertRaisesRegex(OverflowError, "l_blocks is no number"):
            beyqaloosh.call("plan_needs", blocks=1, stored=1, l_blocks=2**32)

    def test_needs_that_are_refused(self):
        dims = array.array("I", [1, 17])
        of_l = {"l_blocks": 0, "l_numbers": 0}
        self.refused(lambda: beyqaloosh.call("reach_needs", blocks=4097), 1, {})
        self.refused(lambda: beyqaloosh.call("plan_needs", blocks=4096, stored=65537, **of_l), 4, {})
        self.refused(lambda: beyqaloosh.call("factorize_needs", dims=dims, stored=65537, **of_l), 2, {"place": 1})
        self.refused(lambda: beyqaloosh.call("factorize_with_cache_needs", dims=dims, stored=1, numbers=1, **of_l), 2, {"place": 1})
        self.refused(lambda: beyqaloosh.call("marks_needs", dims=dims), 2, {"place": 1})
        self.assertEqual(beyqaloosh._needs("marks", dims=dims), [0])

    def test_one_block(self):
        for name, number, changed in [
            ("decompose", 2, {"n": 17}),
            ("decompose", 10, {"tol_rel": math.nan}),
            ("decompose", 12, {"d": array.array("d", [7])}),
            ("decompose", 13, {"mat_a": array.array("d", [math.nan] * 4)}),
            ("ldlt_solve_inplace", 12, {"x": array.array("d", [8])}),
        ]:
            call = lambda: beyqaloosh.call(name, **one_block() | changed)
            self.refused(call, number, {}, "a call on one block carries no place. Compare what it was handed with its contract.")

    def test_the_words_are_those_of_the_readme(self):
        table = README.split("| number | who caused it | what to do |")[1].split("\n\n")[0]
        rows = {int(number): cells for number, *cells in re.findall(r"^\| (\d+) \| (.*?) \| (.*) \|$", table, re.M)}
        self.assertEqual(list(rows), list(range(1, 17)))
        for number, (who, what) in rows.items():
            self.assertTrue(beyqaloosh._WHO[number].startswith(who), number)
            self.assertIn(beyqaloosh._WHAT_TO_DO[number], what)
        for number, words in ((5, "PATTERN"), (5, "TREE"), (12, "FACTOR")):
            self.assertIn(getattr(beyqaloosh, f"_OF_A_{words}"), rows[number][1])
        self.assertIn(beyqaloosh._OF_NO_BLOCK, rows[12][1])
        self.assertIn("8,192 values", beyqaloosh._WHAT_TO_DO[16])


class Library(unittest.TestCase):
    def test_no_library_is_told(self):
        code = "import beyqaloosh; beyqaloosh.Builder(0).build().plan()"
        env = os.environ | {"BEYQALOOSH_LIB": "no/such/folder", "PYTHONPATH": str(REPOSITORY / "python")}
        run = subprocess.run([sys.executable, "-c", code], env=env, capture_output=True, text=True)
        self.assertIn("there is no no/such/folder/libbeyqaloosh.so: make it by tools/build, or set BEYQALOOSH_LIB", run.stderr)


if __name__ == "__main__":
    unittest.main()
