"""The face of Beyqaloosh for Python: from a night's tables to a plan, its numbers and a solution with a mark for each scalar.

    night = beyqaloosh.Builder(tolerance=1e-12)
    stage, sensor = night.block(1), night.block(1)
    night.store(stage, stage, [4]).store(sensor, stage, [2]).store(sensor, sensor, [5])
    system = night.build()
    solution = system.factorize().solve(system, [8, 8])
    solution.labels()                    # [1.5, 1.0]

What is handed over, a list, an array.array, a memoryview or a numpy array, is copied, so no two ranges of a call overlap. It reaches
the proved library, which accepts it or refuses it by a number: an Error. Standard library alone; the library is target/lib of the
repository, or that of the folder BEYQALOOSH_LIB.
"""
import array
import contextlib
import ctypes
import enum
import itertools
import math
import operator
import os
import pathlib

__all__ = ["Builder", "EliminationTree", "Error", "Factor", "Mark", "Plan", "Solution", "System", "Walker"]

NONE = 0xFFFFFFFF

# ---- the library

# The calls with their arguments in order: a table in is 'u32', one out 'U32', floats 'f64' and 'F64', marks 'U8', a number 'size', 'word' or
# 'float', what is told an array such as 'u64[3]'. tests/exports.py holds this to the header.
_TABLES = "dims:u32 starts:u32 rows:u32"
_SCRATCH = "inverse:U32 sizes:U32 count:U32 heads:U32 into:U32 stamps:U32 table:U32 upper:U32"
_FACTOR = (
    f"{_TABLES} values:f64 perm:u32 late:u32 tol:float order:U32 parents:U32 l_starts:U32 l_rows:U32 l_offsets:U32 l_values:F64 diag:F64 d:F64"
    f" column:F64 {_SCRATCH} bodies:U32 unit_starts:U32 d_starts:U32 places:U32"
)
CALLS = {
    "elimination_tree": "n:size starts:u32 rows:u32 parents:U32 ancestors:U32 told:u64[3]",
    "reach": "starts:u32 rows:u32 parents:u32 j:size mark:word stamps:U32 found:U32 told:u64[3]",
    "plan": f"{_TABLES} perm:u32 late:u32 order:U32 parents:U32 l_starts:U32 l_rows:U32 {_SCRATCH} told:u64[3]",
    "factorize": f"{_FACTOR} told:u64[3] value:f64[1]",
    "factorize_with_cache": f"{_FACTOR} cache:F64 told:u64[3] value:f64[1]",
    "solve_inplace": f"{_TABLES} perm:u32 late:u32 order:u32 parents:u32 l_starts:u32 l_rows:u32 l_offsets:u32 l_values:f64 diag:f64"
    " d:f64 x:F64 y:F64 scalar_perm:U32 sizes:U32 scalar_starts:U32 told:u64[3]",
    "marks": "dims:u32 order:u32 d:f64 tol:float marks:U8 told:u64[3]",
    # what the buffers of each of these need
    "elimination_tree_needs": "blocks:size needs:u64[2] told:u64[3]",
    "reach_needs": "blocks:size needs:u64[2] told:u64[3]",
    "plan_needs": "blocks:size stored:size l_blocks:word needs:u64[12] told:u64[3]",
    "factorize_needs": "dims:u32 stored:size l_blocks:word l_numbers:word needs:u64[21] told:u64[3]",
    "factorize_with_cache_needs": "dims:u32 stored:size numbers:word l_blocks:word l_numbers:word needs:u64[22] told:u64[3]",
    "solve_inplace_needs": "dims:u32 needs:u64[5] told:u64[3]",
    "marks_needs": "dims:u32 needs:u64[1] told:u64[3]",
    # on one block; these tell nothing but the number
    "ldlt_decompose_inplace": "n:size mat_a_lower:F64 mat_d:F64 rel_tol:float",
    "decompose": "n:size mat_a:f64 mat_l:F64 d:F64 tol_rel:float",
    "ldlt_solve_inplace": "n:size mat_l:f64 mat_d:f64 x:F64",
    "ldlt_matsolve_inplace": "n:size nrhs:size mat_l:f64 mat_d:f64 mat_x:F64",
    "ldlt_right_matsolve_inplace": "m:size n:size ld:f64 d:f64 x:F64",
    "solve_inplace_vec": "n:size mat_l:f64 d:f64 y:F64",
    "right_solve_inplace": "m:size n:size mat_l:f64 d:f64 x:F64",
    "sub_mat_diag_mat_t_inplace": "m:size n:size k:size y:F64 mat_a:f64 d:f64 mat_b:f64",
}
CALLS = {call: [tuple(argument.split(":")) for argument in arguments.split()] for call, arguments in CALLS.items()}
_ITEMS = {"u32": ctypes.c_uint32, "f64": ctypes.c_double, "u8": ctypes.c_uint8, "u64": ctypes.c_uint64}
_CODES = {"u32": "I", "f64": "d", "u8": "B"}
_NUMBERS = {"size": ctypes.c_size_t, "word": ctypes.c_uint32, "float": ctypes.c_double}
_LAST = {"size": ctypes.c_size_t(-1).value, "word": NONE}
# an empty array may have no address, and the library takes none for a pointer
_NOWHERE = ctypes.c_uint64()
_library = None


def library():
    """The library, loaded once."""
    global _library
    if _library is None:
        beside = pathlib.Path(__file__).resolve().parent.parent / "target" / "lib"
        path = pathlib.Path(os.environ.get("BEYQALOOSH_LIB", beside)) / "libbeyqaloosh.so"
        if not path.is_file():
            raise OSError(f"there is no {path}: make it by tools/build, or set BEYQALOOSH_LIB to the folder that has it")
        loaded = ctypes.CDLL(str(path))
        for call, arguments in CALLS.items():
            function = getattr(loaded, "beyqaloosh_" + call)
            function.restype = ctypes.c_uint32
            function.argtypes = [kind for _, argument in arguments for kind in _in_c(argument)]
        _library = loaded
    return _library


def _in_c(kind):
    if kind in _NUMBERS:
        return [_NUMBERS[kind]]
    if kind.endswith("]"):
        return [ctypes.POINTER(_array(kind)._type_)]
    return [ctypes.c_void_p, ctypes.c_size_t]


def _array(kind):
    item, count = kind.rstrip("]").split("[")
    return _ITEMS[item] * int(count)


def call(name, **handed):
    """One call of the library by the names of its arguments, arrays and numbers, whose outputs it writes: what is told, by name, where it is
    accepted, else an Error. Until it returns a view of each array is held, so that no other thread can make it longer or shorter."""
    told, arguments = {}, []
    with contextlib.ExitStack() as held:
        for argument, kind in CALLS[name]:
            if kind.endswith("]"):
                told[argument] = _array(kind)()
                arguments.append(told[argument])
            elif kind in _NUMBERS:
                arguments.append(_number(handed, argument, kind))
            else:
                numbers = _slice(handed, argument, kind)
                held.enter_context(memoryview(numbers))
                at, length = numbers.buffer_info()
                arguments += [at or ctypes.addressof(_NOWHERE), length]
        number = getattr(library(), "beyqaloosh_" + name)(*arguments)
    told = {argument: list(numbers) for argument, numbers in told.items()}
    if number:
        raise _refusal(name, number, told, handed)
    return told


def _slice(handed, argument, kind):
    """An array of this kind; one that is written must be no other argument too, since the ranges of a call must not overlap."""
    numbers = handed[argument]
    if not isinstance(numbers, array.array) or numbers.typecode != _CODES[kind.lower()]:
        raise TypeError(f"{argument} is no array.array of type {_CODES[kind.lower()]!r}")
    if kind.isupper() and sum(other is numbers for other in handed.values()) > 1:
        raise ValueError(f"{argument} is handed over twice")
    return numbers


def _number(handed, argument, kind):
    """A size below 0 or past the greatest becomes the greatest, which is too large for each size of a call. A word, a mark, the count of A's
    values or what a plan has told of L, may be any 32 bits, and no other number can stand for one that is none."""
    number = handed[argument]
    if kind == "float" or 0 <= operator.index(number) <= _LAST[kind]:
        return number
    if kind == "word":
        raise OverflowError(f"{argument} is no number from 0 to {NONE}")
    return _LAST[kind]


def _zeros(kind, length):
    return array.array(_CODES[kind], bytes(length * ctypes.sizeof(_ITEMS[kind])))


def _words(numbers):
    """A table of the library's from any integers. One below 0 or past 32 bits becomes 4294967295, which no table of a system may hold, so
    that it is refused by the table's own number."""
    view = _view(numbers)
    if view is not None and view.format in ("I", "=I", "<I"):
        return array.array("I", view.tobytes())
    return array.array("I", [number if 0 <= number <= NONE else NONE for number in map(operator.index, numbers)])


def _floats(numbers):
    view = _view(numbers)
    if view is not None and view.format in ("d", "=d", "<d"):
        return array.array("d", view.tobytes())
    return array.array("d", list(numbers))


def _view(numbers):
    try:
        return memoryview(numbers)
    except TypeError:
        return None


# ---- refusals

_WHO = {
    **dict.fromkeys(range(1, 8), "the assembler of the tables"),
    **dict.fromkeys((8, 9), "the night planner"),
    10: "the operator",
    **dict.fromkeys((11, 12), "whoever lends buffers"),
    **dict.fromkeys((13, 14), "the data"),
    **dict.fromkeys((15, 16), "the sender of the sheet"),
}
# in the words of the README
_WHAT_TO_DO = {
    1: "send at most 4,096 blocks: sites without a stored block between them can be nights of their own",
    2: "give the block that is named a dimension from 1 to 16",
    3: "make the column starts again: one more than the blocks, from 0 to the row count, never falling",
    4: "store at most 65,536 blocks",
    5: "store a block from the diagonal down; one above it is transposed and stored as its mirror image",
    6: "sort the rows of each column, and store each block once",
    7: "send as many numbers as the blocks have, rows × columns each",
    8: "name each block exactly once in the permutation",
    9: "send a flag 0 or 1 for each block",
    10: "set a finite tolerance from 0 on, such as 1e-12",
    11: "lend the buffer that is named with the need that the refusal carries",
    12: "give the slice that is named its exact length",
    13: "look at the numbers of the block that is named, and of those linked to it, for NaN, infinities and sums that overflow",
    14: "look at the block that is named for a wrong sign: it is indefinite and nearly singular",
    15: "send it again whole",
    16: "stay within 128 blocks, 512 scalars, 1,024 stored blocks and 4,096 values, and find an order in which L has 8,192 values at most",
}
_OF_A_FACTOR = "factorize tonight's system again"
_OF_A_PATTERN = "in an upper pattern list rows below the number of blocks"
_OF_A_TREE = "a parent is a greater block, or 4,294,967,295 for none"
_OF_NO_BLOCK = "ask for the walk of a block that there is"
_COUNTED = ("diag", "d", "x")


class Error(Exception):
    """A refusal: document 01's number, what it carries by name, who caused it, where, and what to do.

    After 13 and 14 the numbers of the factor are NaN in full; after any other what the call was to write is as it was.
    """

    def __init__(self, number, carries, where, what_to_do=None):
        self.number, self.carries, self.where = number, carries, where
        self.who = _WHO[number]
        self.what_to_do = what_to_do or _WHAT_TO_DO[number]
        does = self.what_to_do[0].upper() + self.what_to_do[1:]
        super().__init__(f"refused {number}, caused by {self.who}: {where}. {does}.")

    def __reduce__(self):
        return type(self), (self.number, self.carries, self.where, self.what_to_do)


def _refusal(name, number, report, handed):
    if "told" not in report:
        return Error(number, {}, "a call on one block carries no place", "compare what it was handed with its contract")
    told = report["told"]
    if number == 11:
        which, need = told[:2]
        short = _lent(name)[which][0]
        where = f"buffer {which} of the call, {short}, is shorter than its need {need}"
        return Error(number, {"which": which, "name": short, "need": need}, where)
    if number == 12 and name == "reach":
        return Error(number, {"block": handed["j"]}, f"block {handed['j']} is past the last", _OF_NO_BLOCK)
    if number == 12:
        return _mismatch([argument for argument, kind in CALLS[name] if kind not in _NUMBERS], told)
    if number >= 13:
        carries, value = {"block": told[0], "old": handed["order"][told[0]]}, report["value"][0]
        block = f"block {told[0]} by new number, {carries['old']} by old, is"
        if number == 13:
            carries |= {"place": told[1], "pivot": value}
            return Error(number, carries, f"the pivot of row {told[1]} of {block} {value}")
        return Error(number, carries | {"condition": value}, f"{block} indefinite with the condition {value}")
    return _bad_table(name, number, told)


def _mismatch(names, told):
    place, column = told[0], told[1]
    carries = {"place": place, "name": names[place]}
    if names[place] in _COUNTED:
        return Error(12, carries, f"slice {place} of the call, {names[place]}, has another length than the system has there")
    # of a wrong column the table is the rows, or the parents where they are off; how many parents there are is told with zeros
    wrong = {(8, 0): "missing", (8, 1): "extra", (6, 2): "parent"}.get((place, told[2]))
    if wrong is None:
        return _stale(place, names[place])
    words = {"missing": "lacks a row", "extra": "lists a row too many", "parent": "has another parent"}[wrong]
    return _stale(place, names[place], f": its column {column}, by new number, {words}", column=column, wrong=wrong)


def _stale(place, name, words="", **more):
    where = f"the factor is stale, {name} is not that of this system{words}"
    return Error(12, {"place": place, "name": name, **more}, where, _OF_A_FACTOR)


def _bad_table(name, number, told):
    place, walks = told[0], name in ("elimination_tree", "reach")
    # behind the place of 3, 5 and 6 a 2 stands for the factor's tables and a 1 for a parent; 7 of a solve is of the factor
    of = ("the pattern" if walks else "A", "the tree", "the factor")[2 if (name, number) == ("solve_inplace", 7) else told[1]]
    where = {
        1: "there are more than 4,096 blocks",
        2: f"block {place} has a dimension 0 or above 16",
        3: f"entry {place} of the column starts of {of} does not fit",
        4: "more than 65,536 blocks are stored",
        5: f"entry {place} of the row table of {of} is outside its range",
        6: f"entry {place} of the row table of {of} is not greater than the one before it in its column",
        7: f"there are not as many values as the blocks of {of} have numbers",
        8: f"entry {place} of the permutation is missing, too large, twice the same or one too many",
        9: f"late flag {place} is missing, neither 0 nor 1 or one too many",
        10: "the tolerance is NaN, infinite or below zero",
    }[number]
    if of == "the tree":
        where = f"the parent of block {place}, by new number, is neither none nor a greater block"
    carries = {"place": place} if number in (2, 3, 5, 6, 8, 9) else {}
    if number in (3, 5, 6, 7):
        carries["of"] = of
    if walks and number == 5:
        what_to_do = _OF_A_TREE if of == "the tree" else _OF_A_PATTERN
    else:
        what_to_do = None if of in ("A", "the pattern") else _OF_A_FACTOR
    return Error(number, carries, where, what_to_do)


# ---- what the buffers need


def _needs(name, **shape):
    """What the buffers of a call need, in its order, as the library tells it. Of L's rows, offsets and values and of the cache nothing
    is known before the plan. Tables that 1, 2 or 4 refuse have no needs: the call refuses them before it looks at a buffer."""
    try:
        return call(f"{name}_needs", l_blocks=0, l_numbers=0, **shape)["needs"]
    except Error:
        return [0] * len(_lent(name))


def _lent(name):
    """The buffers that a call is lent, in its order, with what they hold."""
    return [(argument, kind.lower()) for argument, kind in CALLS[name] if kind.isupper()]


def _lend(name, **shape):
    """A buffer of zeros for each that the call is lent."""
    return {argument: _zeros(kind, need) for (argument, kind), need in zip(_lent(name), _needs(name, **shape), strict=True)}


# ---- a night


class System:
    """A symmetric block matrix, the order in which its blocks are eliminated, and the tolerance of a pivot, of ready tables: they are
    tested by the library. A Builder makes one block by block.

    dims: the dimension of each block; starts: where each column begins in rows, and the number of stored blocks last; rows: the row of
    each stored block, column after column; values: their bodies back to back, each column-major; perm: the old number of each new
    block; late: 1 for a block that is to be eliminated last, else 0."""

    def __init__(self, dims, starts, rows, values, perm, late, tolerance):
        self.dims, self.starts, self.rows, self.perm, self.late = map(_words, (dims, starts, rows, perm, late))
        self.values, self.tolerance = _floats(values), float(tolerance)
        self.unfit = None

    @property
    def scalars(self):
        """How many scalars there are: the sum of the dimensions."""
        return sum(self.dims)

    def scalars_of(self, block):
        """The scalars of a block in old order, in which right sides, solutions and marks are; an IndexError where there is no such block."""
        if not 0 <= block < len(self.dims):
            raise IndexError(f"there is no block {block}")
        first = sum(self.dims[:block])
        return range(first, first + self.dims[block])

    def _tables(self):
        return {"dims": self.dims, "starts": self.starts, "rows": self.rows, "perm": self.perm, "late": self.late}

    def _shape(self):
        return {"blocks": len(self.dims), "dims": self.dims, "stored": len(self.rows), "numbers": min(len(self.values), NONE)}

    def plan(self):
        """The plan, which reads no numbers and no tolerance."""
        lent = _lend("plan", **self._shape())
        return Plan(lent, self._until_met("plan", lent))

    def factorize(self, cache=True):
        """The factor. Refused by 13 or 14, as by any number, there is none. The call is lent a cache, of as many numbers as L has at most, so
        that a block of L times the unit factor of its column is not worked out again for every block product; without it the factor is the
        same."""
        name = "factorize_with_cache" if cache else "factorize"
        lent = _lend(name, **self._shape())
        numbers = {"values": self.values, "tol": self.tolerance}
        try:
            told = self._until_met(name, lent, **numbers)
        except Error as why:
            if why.number == 7 and self.unfit is not None:
                row, column = self.unfit
                where = f"the body of block ({row}, {column}) has not rows × columns numbers"
                raise Error(7, why.carries | {"body": self.unfit}, where) from None
            raise
        return Factor(self, lent, told)

    def _until_met(self, name, lent, **more):
        """The call again for those of L's lists and the cache, whose needs only the plan shows, that are too short."""
        while True:
            try:
                return call(name, **self._tables(), **more, **lent)["told"]
            except Error as why:
                short = why.carries.get("name")
                if why.number != 11 or short not in ("l_rows", "l_offsets", "l_values", "cache"):
                    raise
                need = why.carries["need"]
                lent[short] = _zeros("f64" if short in ("l_values", "cache") else "u32", need)
                # what follows from it
                if short == "l_offsets":
                    lent["l_rows"] = _zeros("u32", need - 1)
                if short == "l_values" and "cache" in lent:
                    *_, cache = call(f"{name}_needs", l_blocks=0, l_numbers=need, **self._shape())["needs"]
                    lent["cache"] = _zeros("f64", cache)


class Builder:
    """A system block by block. Blocks are numbered from 0 as they come; that is the old order, in which right sides and solutions are."""

    def __init__(self, tolerance):
        self.tolerance = tolerance
        self._dims, self._late, self._stored, self._order = [], [], [], None

    def block(self, dim, late=False):
        """A block of this dimension, moved behind the others where it is late: its number."""
        self._dims.append(dim)
        self._late.append(late)
        return len(self._dims) - 1

    def store(self, row, column, body):
        """Stores the block in this row and column, from the diagonal down: its numbers column by column, or its rows. Blocks may come in any
        order."""
        self._stored.append((operator.index(column), operator.index(row), *_body(body)))
        return self

    def order(self, order):
        """The old number of each new block. Where it is not given, blocks keep their numbers."""
        self._order = _words(order)
        return self

    def build(self):
        """The system. Nothing is refused here. A block in no column stands behind the last one, where the library finds it by 3; and the
        values end before the first body of another length or shape than its block has, so that the library finds them too few, by 7."""
        blocks = len(self._dims)
        stored = sorted(((column if column >= 0 else NONE, *rest) for column, *rest in self._stored), key=lambda s: s[:2])
        count = [0] * (blocks + 1)
        for column, *_ in stored:
            if column < blocks:
                count[column + 1] += 1
        values, unfit = array.array("d"), None
        for column, row, body, shape in stored:
            block = (self._dims[row], self._dims[column]) if 0 <= row < blocks and column < blocks else None
            if block is None or len(body) != block[0] * block[1] or shape not in (None, block):
                unfit = (row, column)
                break
            values.extend(body)
        perm = range(blocks) if self._order is None else self._order
        system = System(self._dims, itertools.accumulate(count), [row for _, row, *_ in stored], values, perm, self._late, self.tolerance)
        system.unfit = unfit
        return system


def _body(body):
    """The numbers of a body column by column, from these or from its rows, and the shape of the rows: None where there are none."""
    view = _view(body)
    if view is not None and view.ndim == 1:
        return _floats(body), None
    rows = list(body) if view is None else view.tolist()
    try:
        rows = [list(row) for row in rows]
    except TypeError:
        return _floats(rows), None
    if len(set(map(len, rows))) > 1:
        raise ValueError("the rows of a body differ in length")
    numbers = array.array("d", [number for column in zip(*rows) for number in column])
    return numbers, (len(rows), len(rows[0])) if rows else None


class Plan:
    """Which blocks L has, and how much work it is, before a number is read. Blocks are told by new number."""

    def __init__(self, lent, told):
        self.order, self.starts, self.rows = lent["order"], lent["l_starts"], lent["l_rows"]
        self.parents = _parents(lent["parents"])
        self.stored, self.numbers, self.products = told

    def column(self, column):
        """The rows of one column of L, ascending."""
        return self.rows[self.starts[column]:self.starts[column + 1]]


def _parents(table):
    return [None if parent == NONE else parent for parent in table]


class EliminationTree:
    """The elimination tree of an upper pattern of n blocks: the parent of each, None for a root. Column j of the pattern lists rows,
    ascending; those from j on count for nothing. starts: where each column begins in rows, and their number last."""

    def __init__(self, n, starts, rows):
        lent = _lend("elimination_tree", blocks=n)
        pattern = {"starts": _words(starts), "rows": _words(rows)}
        call("elimination_tree", n=n, **pattern, **lent)
        self.parents = _parents(lent["parents"])
        self._tables = pattern | {"parents": lent["parents"]}

    def walker(self):
        """A Walker over this tree."""
        return Walker(self)


class Walker:
    """Walks over a tree, in memory and with marks that are kept from walk to walk."""

    def __init__(self, tree):
        self._tables, self._mark = tree._tables, 0
        self._lent = _lend("reach", blocks=len(tree.parents))

    def reach(self, j):
        """The blocks that block j reaches, last found first: those in whose columns L stores row j."""
        self._mark, top, _ = call("reach", **self._tables, j=j, mark=self._mark, **self._lent)["told"]
        return self._lent["found"][top:].tolist()


class Factor:
    """L D Lᵀ of a system, by new numbers, bodies column-major. It solves for the system that it was made of; where its tables are not those
    of the system that is handed over, a solve is refused, by 12 or a lower number. A factor's lists have no dimensions, so the library cannot
    compare these: that is this face's own test, before the call, and a 12 too. Numbers are not compared: factorize again where they change."""

    def __init__(self, system, lent, told):
        self.plan = Plan(lent, told)
        self.offsets, self.values, self.diag, self.d = lent["l_offsets"], lent["l_values"], lent["diag"], lent["d"]
        names = ("order", "parents", "l_starts", "l_rows", "l_offsets", "l_values", "diag", "d")
        self._lists = {name: lent[name] for name in names}
        self._dims, self._tolerance = system.dims[:], system.tolerance

    @property
    def products(self):
        """The block products that were worked through."""
        return self.plan.products

    def solve(self, system, right):
        """The solution for a right side in old order, with its marks."""
        x = _floats(right)
        if _words(system.dims) != self._dims:
            raise _stale(0, "dims")
        call("solve_inplace", **system._tables(), **self._lists, **_lend("solve_inplace", dims=system.dims) | {"x": x})
        marks = _lend("marks", dims=self._dims)["marks"]
        told = call("marks", dims=self._dims, order=self._lists["order"], d=self.d, tol=self._tolerance, marks=marks)["told"]
        return Solution(x, [Mark(byte) for byte in marks], told[0])


class Mark(enum.Enum):
    """Whether the night's numbers say anything of a scalar."""

    SILENT = 0
    HEARD = 1

    def label(self, value):
        """The label of a scalar with this value: None where it is silent, and None where the value is NaN or infinite, which a right side
        brings in. A calm -0.0 is the label 0.0."""
        return value + 0.0 if self is Mark.HEARD and math.isfinite(value) else None


class Solution:
    """A number and a mark for each scalar, in old order."""

    def __init__(self, values, marks, silent):
        self.values, self.marks, self.silent = values, marks, silent

    def __len__(self):
        return len(self.values)

    def __iter__(self):
        return zip(self.values, self.marks)

    def label(self, scalar):
        """The label of a scalar, as Mark.label has it."""
        return self.marks[scalar].label(self.values[scalar])

    def labels(self):
        """The labels in old order."""
        return [mark.label(value) for value, mark in self]
