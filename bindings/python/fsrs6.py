"""The scalar core of FSRS-6: kernels, formulas, the training step, the two losses, a pull toward the old weights and starting
stabilities, each proved to be its definition.

These are functions over the shared library of `include/fsrs6.h`, one for each of its functions and under its name; a loss has one,
and its batch tells the mode (`end`). ctypes is all that they need. A call answers, or raises the `Refusal` by which it was refused
and has then written nothing.

>>> from fsrs6 import Seen, check_and_fill_parameters, first_state, next_interval, next_state_on
>>> w = check_and_fill_parameters([])  # the default weights
>>> card = Seen(first_state(w, 3), 19000)  # a new card, rated 3 on its first day
>>> for day, rating in [(19002, 3), (19013, 1), (19013, 3)]:
...     card = next_state_on(w, card, day, rating)
>>> card.day, next_interval(w, card.state.stability, 0.9) > 1  # seen when, and the days to its next review
(19013, True)

**Numbers.** Where C takes a single, a number is first rounded to the nearest one. Whole numbers that C's types cannot hold are an
OverflowError, for C would take them for others.

**Slices.** A list, or anything else that array.array takes, is copied. A buffer (array.array, memoryview, an array of numpy) must
have the right type: singles 'f', doubles 'd', lengths 'I'; another is a TypeError. It is read and written in place, but for one
that is read and cannot be lent to C as it stands (read-only, with gaps, not aligned): that is copied as a whole. Its own length is
what C is told. What a call writes must be a list, whose entries are then those that C left, or a buffer that can be lent; and it
must overlap nothing else that is lent, or else there is a ValueError. The interpreter's lock is kept during a call, so that no
other thread can change what C has checked.
"""
from __future__ import annotations

import ctypes
import operator
import os
import sys
from array import array
from ctypes import c_bool, c_double, c_float, c_size_t, c_uint8, c_uint32, c_uint64
from enum import IntEnum
from functools import lru_cache
from typing import TYPE_CHECKING, Any, List, NamedTuple, Optional, Sequence, Union

if TYPE_CHECKING:
    from typing_extensions import Buffer
else:
    Buffer = Any

Singles = Union[Sequence[float], Buffer]
Doubles = Union[Sequence[float], Buffer]
Wholes = Union[Sequence[int], Buffer]
Lent = Union[List[float], Buffer]  # what is written

__all__ = [
    "load", "Refusal", "REFUSALS", "WEIGHTS", "RECORD", "MAX_ROWS", "MAX_COLUMNS", "FILE_BYTES", "FILE_ROWS",
    "MAX_DAY", "MAX_RECALLS", "MAX_SIZE",
    "RECORD_STABILITY", "RECORD_DIFFICULTY", "RECORD_DAY", "RECORD_RATING", "RECORD_RETRIEVABILITY", "RECORD_PRE_STABILITY",
    "RECORD_PRE_DIFFICULTY", "RECORD_BRANCH", "RECORD_BRANCH_RAW", "RECORD_BRANCH_OTHER", "BRANCH_PADDING", "BRANCH_FIRST",
    "BRANCH_SAME_DAY", "BRANCH_SAME_DAY_ONE", "BRANCH_LAPSE", "BRANCH_LAPSE_FLOORED", "BRANCH_SUCCESS",
    "ROW_ACCEPTED", "ROW_STABILITY", "ROW_DIFFICULTY", "ROW_INTERVAL",
    "Reason", "Held", "Explanation", "Place", "Fault",
    "State", "Seen", "Claimed", "Step", "Stepped", "Branch", "Record", "StateGradient", "Prefixes", "Cards", "Gradient",
    "exp_f32", "exp_f64", "expm1_f32", "ln_f32", "ln_f64", "pow_f32", "pow_f64", "fma_f32", "fma_f64", "round_f32", "round_f64",
    "check_and_fill_parameters", "power_forgetting_curve", "next_interval", "init_difficulty", "mean_reversion", "next_difficulty",
    "stability_after_success", "stability_after_failure", "stability_short_term", "first_state", "next_state",
    "next_state_on", "check_row", "memory_state_from_sm2",
    "training_step", "training_step_backward", "explain_step", "record", "batch_loss", "batch_loss_and_grad", "card_loss", "card_loss_and_grad",
    "batch_loss_fault", "batch_loss_and_grad_fault", "card_loss_fault", "card_loss_and_grad_fault", "l2_penalty", "initial_stability",
    "batch_file", "batch_file_fault",
]

WEIGHTS = 21  # weights of a set, and slots of a gradient
RECORD = 10  # singles in the record of a step
MAX_ROWS = 2048  # of a loss call
MAX_COLUMNS = 512
FILE_BYTES = 65536  # the longest batch file
FILE_ROWS = 512
MAX_DAY = 100000  # the last day number
MAX_RECALLS = 4096  # the most rows of initial_stability
MAX_SIZE = 1 << 31  # the most that a batch size or a total of l2_penalty is

# What a step's record holds, in this order, and the branch that a step took: as include/fsrs6.h has them.
(
    RECORD_STABILITY, RECORD_DIFFICULTY, RECORD_DAY, RECORD_RATING, RECORD_RETRIEVABILITY, RECORD_PRE_STABILITY,
    RECORD_PRE_DIFFICULTY, RECORD_BRANCH, RECORD_BRANCH_RAW, RECORD_BRANCH_OTHER,
) = range(RECORD)
(
    BRANCH_PADDING, BRANCH_FIRST, BRANCH_SAME_DAY, BRANCH_SAME_DAY_ONE, BRANCH_LAPSE, BRANCH_LAPSE_FLOORED, BRANCH_SUCCESS,
) = range(7)

# What is to be said of a row: that it is accepted, or which field is the first wrong one.
ROW_ACCEPTED, ROW_STABILITY, ROW_DIFFICULTY, ROW_INTERVAL = range(4)

# The refusals by their numbers: their names, and what they say.
REFUSALS = {
    1: ("WeightCount", "not 21 weights"),
    2: ("WeightBox", "a weight is outside its range"),
    3: ("Sizes", "rows or columns are over the limit, or an input slice is too short"),
    4: ("Room", "too few records or step gradients for the longest column"),
    5: ("SlotCount", "not 21 gradient slots"),
    6: ("Rating", "a rating is not 0, 1, 2, 3 or 4"),
    7: ("Day", "a day is out of range"),
    8: ("Review", "a review weight, a label, a share or a count is out of range"),
    9: ("EmptyPrefix", "a prefix has the length 0"),
    10: ("Kernel", "an argument is outside the kernel's domain"),
    11: ("File", "the batch file is malformed"),
    12: ("FillingCount", "a weight set to fill has not 0, 17, 19 or 21 entries"),
    13: ("Scalar", "an argument is not finite or out of range"),
    14: ("Import", "a card from SM-2 gets no finite stability or difficulty"),
    15: ("Earlier", "the day is earlier than the one on which the card was last seen"),
}


class Refusal(ValueError):
    """Why a call was refused. A refused call has written nothing.

    >>> try:
    ...     next_interval([], 5, 0.9)
    ... except Refusal as refusal:
    ...     print(refusal.number, refusal.name, refusal, sep=": ")
    1: WeightCount: not 21 weights
    """

    number: int
    name: str

    def __init__(self, number: int) -> None:
        super().__init__(number)
        self.number = number
        self.name, self._text = REFUSALS[number]

    def __str__(self) -> str:
        return self._text


class State(NamedTuple):
    """What the memory of a card is. A new card's begins with `first_state`; (0, 0) is where a history of training begins."""

    stability: float = 0.0  # the days after which the probability of recall is 0.9
    difficulty: float = 0.0  # from 1, easy, to 10


class Seen(NamedTuple):
    """A card's state, and when it was last seen."""

    state: State = State()
    day: int = 0  # from 0 to MAX_DAY, on a calendar that counts whole days from any day


class Claimed(NamedTuple):
    """What an app says of a review: the state after it, and the next interval, each as the 32 bits of a single. Any may stand there.

    >>> Claimed.of_floats(State(stability=1, difficulty=2), 0.5) == Claimed(0x3F800000, 0x40000000, 0x3F000000)
    True
    """

    stability: int
    difficulty: int
    interval: int

    @classmethod
    def of_floats(cls, after: State, interval: float) -> Claimed:
        """The bits of three numbers, each rounded to the nearest single."""
        return cls(*(c_uint32.from_buffer(c_float(x)).value for x in (*after, interval)))


class Step(NamedTuple):
    """A step: a state, and the review that moves it, at the `row`-th row of its history.

    At row 0 with the stability 0 it is a first step, and the day goes unread; a rating of 0 is padding.
    """

    state: State = State()
    day: float = 0.0  # since the review before
    rating: float = 0.0  # 0, 1, 2, 3 or 4
    row: int = 0


class Stepped(NamedTuple):
    """What a step gives: the state after it, and how it came about: ten numbers, from RECORD_STABILITY on, which `record` reads."""

    state: State
    record: array[float]


class Branch(IntEnum):
    """The branch that a step took, by its number in a record."""

    PADDING = BRANCH_PADDING  # no review
    FIRST = BRANCH_FIRST
    SAME_DAY = BRANCH_SAME_DAY
    SAME_DAY_ONE = BRANCH_SAME_DAY_ONE  # the raw multiplier was below 1, and 1 was used
    LAPSE = BRANCH_LAPSE
    LAPSE_FLOORED = BRANCH_LAPSE_FLOORED  # the floor was below the raw stability, and was used
    SUCCESS = BRANCH_SUCCESS


class _Told(IntEnum):
    """A number of the header that has words."""

    def __new__(cls, number: int, words: str) -> _Told:
        member = int.__new__(cls, number)
        member._value_, member._words = number, words
        return member

    def __str__(self) -> str:
        return self._words


class Reason(_Told):
    """Which rule gave the stability after a training step: one of these holds of a step, and no other. The numbers up to 5 are those
    of the branch in a record; a success is told by its rating.

    >>> Reason(5), str(Reason.LAPSE_FLOOR)
    (<Reason.LAPSE_FLOOR: 5>, 'lapse, floor taken')
    """

    PADDING = 0, "padding"  # no review: the state was only clamped
    FIRST = 1, "first review"  # a weight
    SAME_DAY_RAW = 2, "same day, raw multiplier taken"  # it is 1 or more, or the rating is 1
    SAME_DAY_ONE = 3, "same day, multiplier 1 taken"  # the raw one was below 1
    LAPSE_RAW = 4, "lapse, raw value taken"  # the floor is not below it
    LAPSE_FLOOR = 5, "lapse, floor taken"  # it is below the raw stability
    SUCCESS = 6, "success"  # rated 3
    SUCCESS_HARD = 7, "success, hard"  # rated 2: with weight 15
    SUCCESS_EASY = 8, "success, easy"  # rated 4: with weight 16


class Held(_Told):
    """Whether a number of the state after a step was held at an end of its range: the number before the last clamp, or in padding the
    given one, lay outside. One that is exactly at an end was not held."""

    FREE = 0, "not held"
    LOW = 1, "held at its low end"  # 0.0001, of a stability, or 1
    HIGH = 2, "held at its high end"  # 36500, of a stability, or 10


class Explanation(NamedTuple):
    """Why a step gave what it gave."""

    reason: Reason
    stability_held: Held
    difficulty_held: Held


class Place(NamedTuple):
    """Where the first bad cell of a loss call stands."""

    column: int  # from 0
    row: int  # from 0; of a prefix's scored review its length, cut to the rows; of an empty prefix 0


class Fault(NamedTuple):
    """Why a loss call is refused, and where its first bad cell is, if the number is 6, 7, 8 or 9: no cell before it, in the order of
    the refusals, is bad. Of 8 it is the row's weight that is bad, or the label if the weight is good. The other refusals speak of no
    cell, and have no place.

    >>> print(Fault(6, Place(column=2, row=1)))
    column 2, row 1: a rating is not 0, 1, 2, 3 or 4
    """

    number: int  # of the refusal
    place: Optional[Place] = None

    @property
    def refusal(self) -> Refusal:
        """What the call raises."""
        return Refusal(self.number)

    def __str__(self) -> str:
        return ("column %d, row %d: " % self.place if self.place else "") + str(self.refusal)


class Record(NamedTuple):
    """The record of a step by its names, in the order of the columns: `record` reads one."""

    stability: float  # the state as given
    difficulty: float
    day: float  # 0 in padding and in a first step, where it goes unread
    rating: float
    retrievability: float  # when the review came; 0 in padding and in a first step
    pre_stability: float  # the state after the step, before its last clamp
    pre_difficulty: float
    branch: Branch
    branch_raw: float  # same day: the raw multiplier; lapse: the raw stability; else 0
    branch_other: float  # same day: the multiplier that was used; lapse: the floor; else 0

    @property
    def before(self) -> State:
        """The state as given."""
        return State(self.stability, self.difficulty)

    @property
    def after(self) -> State:
        """The state after the step: clamped to its range, as the step did last."""
        low = c_float(0.0001).value
        return State(min(max(self.pre_stability, low), 36500.0), min(max(self.pre_difficulty, 1.0), 10.0))


class StateGradient(NamedTuple):
    """The gradients of a loss by the two numbers of a state."""

    stability: float = 0.0
    difficulty: float = 0.0


class Prefixes(NamedTuple):
    """A batch of prefixes: each column is a history, and the review after it is scored.

    The tables `days` and `ratings` are by row and then by column: cell `row * columns + column`. Everything else has one entry for
    each column.

    A history begins at row 0. With `end` it stands behind padding: the first row whose rating is not 0 is its first review, of
    padding only the rating is read, and a history of padding alone is not scored.
    """

    rows: int = 0
    columns: int = 0
    days: Singles = ()  # table: since the review before
    ratings: Singles = ()  # table: 0 to 4; 0 is padding
    lengths: Wholes = ()  # of each history
    target_days: Singles = ()  # from a history to its scored review
    labels: Singles = ()  # whether the scored review was recalled, from 0 to 1
    weights: Singles = ()  # how much the scored review counts
    end: bool = False  # whether histories stand at the end of their columns, behind padding


class Cards(NamedTuple):
    """A batch of cards: every review of a column after its first is scored.

    All tables are by row and then by column: cell `row * columns + column`.

    A column begins at row 0, and padding behind that is scored too, unless its weight is 0. With `end` the first row whose rating
    is not 0 is its first review, of padding only the rating is read, and no padding is scored.

    >>> w = check_and_fill_parameters([])
    >>> one = Cards(rows=2, columns=1, days=[0, 4], ratings=[3, 1], lengths=[2], labels=[0, 0], weights=[0, 1])
    >>> none = float("nan")
    >>> behind_padding = Cards(
    ...     rows=4, columns=1, days=[none, none, 0, 4], ratings=[0, 0, 3, 1], lengths=[4], labels=[none, none, none, 0],
    ...     weights=[none, none, none, 1], end=True)
    >>> card_loss(w, behind_padding) == card_loss(w, one)
    True
    >>> card_loss(w, behind_padding._replace(end=False))
    Traceback (most recent call last):
    fsrs6.Refusal: a review weight, a label, a share or a count is out of range
    """

    rows: int = 0
    columns: int = 0
    days: Singles = ()  # table: since the review before
    ratings: Singles = ()  # table: 0 to 4; 0 is padding
    lengths: Wholes = ()  # of each column
    labels: Singles = ()  # table: whether a review was recalled, from 0 to 1
    weights: Singles = ()  # table: how much a review counts
    end: bool = False  # whether columns stand at the end of the tables, behind padding


# ---- the library

# Kernels: the type of the answer and of the arguments, and how many these are.
_KERNELS = {
    "exp_f32": (c_float, 1), "exp_f64": (c_double, 1), "expm1_f32": (c_float, 1), "ln_f32": (c_float, 1), "ln_f64": (c_double, 1),
    "pow_f32": (c_float, 2), "pow_f64": (c_double, 2), "fma_f32": (c_float, 3), "fma_f64": (c_double, 3), "round_f32": (c_float, 1),
    "round_f64": (c_double, 1),
}

# All others: what is given, each as NAME:TYPE, and behind > what is answered. f is a single, d a double, I a whole number of 32
# bits, Q one of 64, n one of the machine's size, ? a truth; [f] a slice of singles, which C takes as a pointer and a length, and &[d] one that
# is written. An answer may be as many singles as its number says, or a struct that is returned. Of the losses these are the functions that
# take the mode.
_TABLES = "end:? w:[f] days:[f] ratings:[f] rows:I columns:I lengths:[I] "
_STEP = "w:[f] stability:f difficulty:f day:f rating:f row:n "
_TARGETS, _REVIEWS, _LENGTHS = "target_days:[f] labels:[f] weights:[f] ", "labels:[f] weights:[f] ", "gw_len:n records_len:n "
_CALLS = {
    "check_and_fill_parameters": "parameters:[f] > 21",
    "power_forgetting_curve": "w:[f] t:f s:f > f",
    "next_interval": "w:[f] stability:f desired_retention:f > f",
    "init_difficulty": "w:[f] rating:I > f",
    "mean_reversion": "w:[f] init:f current:f > f",
    "next_difficulty": "w:[f] d:f rating:I > f",
    "stability_after_success": "w:[f] s:f r:f d:f rating:I > f",
    "stability_after_failure": "w:[f] s:f r:f d:f > f",
    "stability_short_term": "w:[f] s:f rating:I > f",
    "first_state": "w:[f] rating:I > f f",
    "next_state": "w:[f] stability:f difficulty:f delta_t:f rating:I > f f",
    "next_state_on": "w:[f] stability:f difficulty:f seen:I day:I rating:I > f f I",
    "check_row": "w:[f] stability:f difficulty:f day:f rating:I retention:f stability_after:I difficulty_after:I interval:I > I",
    "memory_state_from_sm2": "w:[f] ease_factor:f interval:f sm2_retention:f > f f",
    "training_step": _STEP + "> f f 10",
    "training_step_backward": _STEP + "g_s:d g_d:d g_r:d gw:&[d] > d d",
    "explain_step": _STEP + "> reason",
    "batch_loss_in": _TABLES + _TARGETS + "> d",
    "batch_loss_and_grad_in": _TABLES + _TARGETS + "gw:&[d] records:&[f] > d",
    "card_loss_in": _TABLES + _REVIEWS + "> d",
    "card_loss_and_grad_in": _TABLES + _REVIEWS + "gw:&[d] records:&[f] step_grads:&[d] > d",
    "batch_loss_fault": _TABLES + _TARGETS + "> fault",
    "batch_loss_and_grad_fault": _TABLES + _TARGETS + _LENGTHS + "> fault",
    "card_loss_fault": _TABLES + _REVIEWS + "> fault",
    "card_loss_and_grad_fault": _TABLES + _REVIEWS + _LENGTHS + "step_grads_len:n > fault",
    "l2_penalty": "w:[f] init_w:[f] batch_size:Q total_size:Q l2_weight:d params_stddev:[f] slots:&[f] > d",
    "initial_stability": "delta_t:[d] recall:[d] count:[d] default_stability:d > f",
    "batch_file": "file:[B] gw:&[d] > d",
    "batch_file_fault": "file:[B] > fault",
}
_TYPES = {"f": c_float, "d": c_double, "I": c_uint32, "Q": c_uint64, "B": c_uint8, "n": c_size_t, "?": c_bool}
# The formats under which a buffer may tell that it has entries of a type.
_FORMATS = {"f": "f", "d": "d", "I": "IL", "B": "Bbc"}
_NATIVE = "@=<" if sys.byteorder == "little" else "@=>"



def _struct(name: str, fields: str) -> type:
    """A struct of the header: its first number is the refusal."""
    return type(name, (ctypes.Structure,), {"_fields_": [(field, c_uint32) for field in fields.split()]})


_STRUCTS = {
    "reason": _struct("fsrs_reason", "refusal reason stability_held difficulty_held"),
    "fault": _struct("fsrs_fault", "refusal column row"),
}

_functions: dict = {}


def load(path: Union[str, os.PathLike[str], None] = None) -> None:
    """Takes the functions from the shared library `path`, a file or the folder of a libfsrs6.so; without it, from that which the
    environment's FSRS6_LIB names, or else from target/lib of the repository that this file stands in. A first call does so itself.

    >>> load("/no/such/folder")
    Traceback (most recent call last):
    FileNotFoundError: no library at /no/such/folder: ./lib --shared writes one, load() and FSRS6_LIB name another
    """
    root = os.path.join(os.path.dirname(os.path.realpath(__file__)), "..", "..")
    place = os.fspath(path or os.environ.get("FSRS6_LIB") or os.path.join(root, "target", "lib"))
    file = os.path.abspath(os.path.join(place, "libfsrs6.so") if os.path.isdir(place) else place)
    if not os.path.exists(file):
        raise FileNotFoundError(f"no library at {file}: ./lib --shared writes one, load() and FSRS6_LIB name another")
    library = ctypes.PyDLL(file)
    try:
        _functions.update({name: _declared(library, name) for name in [*_KERNELS, *_CALLS]})
    except AttributeError as error:
        raise OSError(f"{file} is another library: {error}") from None


def _declared(library: ctypes.PyDLL, name: str):
    """A function of the library, with its types."""
    function = getattr(library, "fsrs_" + name)
    if name in _KERNELS:
        function.restype, count = _KERNELS[name]
        function.argtypes = [function.restype] * count
        return function
    given, answers = _parts(name)
    types = []
    for _, kind in given:
        code = kind.strip("&[]")
        types += [ctypes.POINTER(_TYPES[code]), c_size_t] if "[" in kind else [_TYPES[code]]
    if answers[0] in _STRUCTS:
        function.restype, function.argtypes = _STRUCTS[answers[0]], types
        return function
    function.restype, function.argtypes = c_uint32, types + [ctypes.POINTER(_TYPES.get(code, c_float)) for code in answers]
    return function


@lru_cache(maxsize=None)
def _parts(name: str) -> tuple[list[tuple[str, str]], list[str]]:
    """What a function is given, each by name and type, and what it answers."""
    given, answers = _CALLS[name].split(">")
    return [tuple(word.split(":")) for word in given.split()], answers.split()


def _function(name: str):
    if not _functions:
        load()
    return _functions[name]


# ---- calls

def _kernel(name: str, *xs: float) -> float:
    function = _function(name)
    return function(*map(function.restype, xs))


def _checked(answer: float) -> float:
    """A kernel's refusal is a NaN, which it gives nowhere else."""
    if answer != answer:
        raise Refusal(10)
    return answer


def _call(name: str, *given) -> tuple:
    """The answers of a function, or its refusal. Nothing lent is held where that is raised."""
    number, answers = _called(name, given)
    if number:
        raise Refusal(number)
    return answers


def _called(name: str, given: tuple) -> tuple[int, tuple]:
    kinds, answers = _parts(name)
    words, slices = [], []
    for (what, kind), x in zip(kinds, given):
        if "[" in kind:
            slices.append(_Slice(what, kind, x))
            words += [slices[-1].cells, slices[-1].length]
        else:
            words.append(_number(what, kind, x))
    _apart(slices)
    if answers[0] in _STRUCTS:
        told = _function(name)(*words)
        number, *rest = (getattr(told, field) for field, _ in told._fields_)
        return number, tuple(rest)
    places = [_TYPES[code]() if code in _TYPES else (c_float * int(code))() for code in answers]
    number = _function(name)(*words, *(place if hasattr(place, "_length_") else ctypes.byref(place) for place in places))
    if number == 0:
        for lent in slices:
            lent.give_back()
    return number, tuple(array("f", place) if hasattr(place, "_length_") else place.value for place in places)


def _number(what: str, kind: str, x):
    """A number as C takes it. ctypes would cut a whole number to its size, and take anything for a truth, without a word."""
    number = _TYPES[kind]
    if kind in "fd":
        return number(x)
    whole, most = operator.index(x), 1 if kind == "?" else (1 << 8 * ctypes.sizeof(number)) - 1
    if not 0 <= whole <= most:
        raise OverflowError(f"{what}: not a whole number from 0 to {most}")
    return number(whole)


class _Slice:
    """A slice as C takes it: its cells, how many they are, and where they stand."""

    def __init__(self, what: str, kind: str, xs) -> None:
        self.what, self.is_written, code = what, "&" in kind, kind.strip("&[]")
        self.list = xs if self.is_written and isinstance(xs, list) else None
        view = self._view(xs, code)
        self.length = view.nbytes // view.itemsize
        self.cells = self._cells(view, _TYPES[code])
        # a list is written after the call: it is lent twice where it is the same object
        self.begin, size = (ctypes.addressof(self.cells), view.nbytes) if self.list is None else (id(xs), 1)
        self.end = self.begin + size

    def _view(self, xs, code: str) -> memoryview:
        try:
            view = memoryview(xs)
        except TypeError:
            if self.is_written and self.list is None:
                raise TypeError(f"{self.what}: neither a list nor a buffer, so that nothing can be written") from None
            view = memoryview(array(code, xs))
        if view.format.lstrip(_NATIVE) not in tuple(_FORMATS[code]) or view.itemsize != ctypes.sizeof(_TYPES[code]):
            raise TypeError(f"{self.what}: a buffer of '{view.format}' where one of '{code}' is wanted")
        return view

    def _cells(self, view: memoryview, number) -> ctypes.Array:
        if not self.length:
            return (number * 1)()  # the pointer of an empty buffer may be anything
        if view.c_contiguous and not view.readonly:
            cells = (number * self.length).from_buffer(view)
            if ctypes.addressof(cells) % ctypes.sizeof(number) == 0:
                return cells
        if self.is_written:
            raise TypeError(f"{self.what}: a buffer that is read-only, has gaps or is not aligned, so that nothing can be written")
        return (number * self.length).from_buffer_copy(view.tobytes())

    def give_back(self) -> None:
        if self.list is not None:
            self.list[:] = self.cells[: self.length]


def _apart(slices: list[_Slice]) -> None:
    """What is written must overlap nothing else."""
    for i, x in enumerate(slices):
        for y in slices[:i]:
            if (x.is_written or y.is_written) and x.begin < y.end and y.begin < x.end:
                raise ValueError(f"{y.what} and {x.what} overlap")


# ---- kernels

def exp_f32(x: float) -> float:
    """e to the power x, in single. Refused where x is not finite.

    >>> exp_f32(-0.0), exp_f32(89)
    (1.0, inf)
    >>> exp_f32(float("inf"))
    Traceback (most recent call last):
    fsrs6.Refusal: an argument is outside the kernel's domain
    """
    return _checked(_kernel("exp_f32", x))


def exp_f64(x: float) -> float:
    """e to the power x, in double. Refused where x is not finite.

    >>> exp_f64(-0.0), exp_f64(-710)
    (1.0, 0.0)
    >>> exp_f64(float("nan"))
    Traceback (most recent call last):
    fsrs6.Refusal: an argument is outside the kernel's domain
    """
    return _checked(_kernel("exp_f64", x))


def expm1_f32(x: float) -> float:
    """e to the power x, less 1, in single: near also where x is next to 0. Refused where x is not finite.

    >>> expm1_f32(2.0**-100) == 2.0**-100, expm1_f32(-89)
    (True, -1.0)
    >>> expm1_f32(float("nan"))
    Traceback (most recent call last):
    fsrs6.Refusal: an argument is outside the kernel's domain
    """
    return _checked(_kernel("expm1_f32", x))


def ln_f32(x: float) -> float:
    """The natural logarithm, in single. Refused where x is not positive and finite.

    >>> ln_f32(1)
    0.0
    >>> ln_f32(0)
    Traceback (most recent call last):
    fsrs6.Refusal: an argument is outside the kernel's domain
    """
    return _checked(_kernel("ln_f32", x))


def ln_f64(x: float) -> float:
    """The natural logarithm, in double. Refused where x is not positive and finite.

    >>> ln_f64(1)
    0.0
    >>> ln_f64(-1)
    Traceback (most recent call last):
    fsrs6.Refusal: an argument is outside the kernel's domain
    """
    return _checked(_kernel("ln_f64", x))


def pow_f32(x: float, y: float) -> float:
    """x to the power y, in single. Refused where x is not positive and finite, or y is not from -16 to 16.

    >>> pow_f32(1, 7.5), pow_f32(7.5, -0.0)
    (1.0, 1.0)
    >>> pow_f32(1, 17)
    Traceback (most recent call last):
    fsrs6.Refusal: an argument is outside the kernel's domain
    """
    return _checked(_kernel("pow_f32", x, y))


def pow_f64(x: float, y: float) -> float:
    """x to the power y, in double. Refused where x is not positive and finite, or y is not from -16 to 16.

    >>> pow_f64(1, -16)
    1.0
    >>> pow_f64(0, 1)
    Traceback (most recent call last):
    fsrs6.Refusal: an argument is outside the kernel's domain
    """
    return _checked(_kernel("pow_f64", x, y))


def fma_f32(x: float, y: float, z: float) -> float:
    """x * y + z with one rounding, in single. As IEEE 754 has it, so it can give a NaN.

    >>> fma_f32(1 + 2**-12, 1 + 2**-12, -1) == 2**-11 + 2**-24
    True
    """
    return _kernel("fma_f32", x, y, z)


def fma_f64(x: float, y: float, z: float) -> float:
    """x * y + z with one rounding, in double. As IEEE 754 has it, so it can give a NaN.

    >>> fma_f64(1 + 2**-27, 1 + 2**-27, -1) == 2**-26 + 2**-54
    True
    """
    return _kernel("fma_f64", x, y, z)


def round_f32(x: float) -> float:
    """The nearest whole number, in single; half-way cases go away from zero. A NaN stays one.

    >>> round_f32(2.5), round_f32(0.5 - 2**-25)  # the second is next below 0.5
    (3.0, 0.0)
    """
    return _kernel("round_f32", x)


def round_f64(x: float) -> float:
    """The nearest whole number, in double; half-way cases go away from zero. A NaN stays one.

    >>> round_f64(-2.5)
    -3.0
    """
    return _kernel("round_f64", x)


# ---- weight sets, and the study screen's formulas on them

def check_and_fill_parameters(parameters: Singles) -> array[float]:
    """A set of 0, 17, 19 or 21 weights made whole: none gives the defaults, a shorter one is of an older version.

    Refusals: FillingCount, WeightBox.

    >>> w = check_and_fill_parameters([])
    >>> check_and_fill_parameters(w) == w
    True
    >>> check_and_fill_parameters(w[:18])
    Traceback (most recent call last):
    fsrs6.Refusal: a weight set to fill has not 0, 17, 19 or 21 entries
    """
    return _call("check_and_fill_parameters", parameters)[0]


def power_forgetting_curve(w: Singles, t: float, s: float) -> float:
    """The probability of recall `t` days after a review that left the stability `s`.

    Refusals: WeightCount, WeightBox, Scalar.

    >>> w = check_and_fill_parameters([])
    >>> power_forgetting_curve(w, 0, 5), power_forgetting_curve(w, 9, 5) < 0.9
    (1.0, True)
    >>> power_forgetting_curve(w, float("nan"), 5)
    Traceback (most recent call last):
    fsrs6.Refusal: an argument is not finite or out of range
    """
    return _call("power_forgetting_curve", w, t, s)[0]


def next_interval(w: Singles, stability: float, desired_retention: float) -> float:
    """The days after which the desired retention is reached.

    Refusals: WeightCount, WeightBox, Scalar.

    >>> w = check_and_fill_parameters([])
    >>> next_interval(w, 5, 0.8) > next_interval(w, 5, 0.9)
    True
    >>> next_interval(w, float("inf"), 0.9)
    Traceback (most recent call last):
    fsrs6.Refusal: an argument is not finite or out of range
    """
    return _call("next_interval", w, stability, desired_retention)[0]


def init_difficulty(w: Singles, rating: int) -> float:
    """The difficulty after a first review, not clamped.

    Refusals: WeightCount, WeightBox, Scalar.

    >>> w = check_and_fill_parameters([])
    >>> init_difficulty(w, 1) == w[4]
    True
    >>> init_difficulty(w, 5)
    Traceback (most recent call last):
    fsrs6.Refusal: an argument is not finite or out of range
    """
    return _call("init_difficulty", w, rating)[0]


def mean_reversion(w: Singles, init: float, current: float) -> float:
    """A difficulty moved a little towards that of an easy first review.

    Refusals: WeightCount, WeightBox, Scalar.

    >>> w = check_and_fill_parameters([])
    >>> w[7] = 0  # the share of the first
    >>> mean_reversion(w, 3, 6)
    6.0
    >>> mean_reversion(w, float("nan"), 6)
    Traceback (most recent call last):
    fsrs6.Refusal: an argument is not finite or out of range
    """
    return _call("mean_reversion", w, init, current)[0]


def next_difficulty(w: Singles, d: float, rating: int) -> float:
    """The difficulty after a review of a card of difficulty `d`.

    Refusals: WeightCount, WeightBox, Scalar.

    >>> w = check_and_fill_parameters([])
    >>> next_difficulty(w, 5, 1) > next_difficulty(w, 5, 4)
    True
    >>> next_difficulty(w, 0.5, 3)
    Traceback (most recent call last):
    fsrs6.Refusal: an argument is not finite or out of range
    """
    return _call("next_difficulty", w, d, rating)[0]


def stability_after_success(w: Singles, s: float, r: float, d: float, rating: int) -> float:
    """The stability after a review that succeeded, at the retrievability `r`.

    Refusals: WeightCount, WeightBox, Scalar.

    >>> w = check_and_fill_parameters([])
    >>> stability_after_success(w, 5, 0.9, 6, 3) > 5
    True
    >>> stability_after_success(w, 5, 1.5, 6, 3)
    Traceback (most recent call last):
    fsrs6.Refusal: an argument is not finite or out of range
    """
    return _call("stability_after_success", w, s, r, d, rating)[0]


def stability_after_failure(w: Singles, s: float, r: float, d: float) -> float:
    """The stability after a lapse, at the retrievability `r`.

    Refusals: WeightCount, WeightBox, Scalar.

    >>> w = check_and_fill_parameters([])
    >>> stability_after_failure(w, 5, 0.9, 6) < 5
    True
    >>> stability_after_failure(w, 5, 0.9, 11)
    Traceback (most recent call last):
    fsrs6.Refusal: an argument is not finite or out of range
    """
    return _call("stability_after_failure", w, s, r, d)[0]


def stability_short_term(w: Singles, s: float, rating: int) -> float:
    """The stability after a second review on the same day.

    Refusals: WeightCount, WeightBox, Scalar.

    >>> w = check_and_fill_parameters([])
    >>> stability_short_term(w, 5, 3) >= 5
    True
    >>> stability_short_term(w, 5, 0)
    Traceback (most recent call last):
    fsrs6.Refusal: an argument is not finite or out of range
    """
    return _call("stability_short_term", w, s, rating)[0]


def first_state(w: Singles, rating: int) -> State:
    """The state of a new card after its first review: the stability is weight rating - 1, the difficulty the first difficulty
    clamped to 1..10.

    Refusals: WeightCount, WeightBox, Scalar.

    >>> w = check_and_fill_parameters([])
    >>> first_state(w, 3).stability == w[2], first_state(w, 1).difficulty > first_state(w, 4).difficulty
    (True, True)
    >>> first_state(w, 0)
    Traceback (most recent call last):
    fsrs6.Refusal: an argument is not finite or out of range
    """
    return State(*_call("first_state", w, rating))


def next_state(w: Singles, state: State, delta_t: float, rating: int) -> State:
    """The state after a later review, `delta_t` days after the one before. The given state is clamped to its range, so that
    (0, 0) is no new card. Any rating is taken, and clamped to 1-4.

    Refusals: WeightCount, WeightBox, Scalar.

    >>> w = check_and_fill_parameters([])
    >>> state = State(stability=5, difficulty=6)
    >>> next_state(w, state, 4, 1).stability < 5, next_state(w, state, 4, 9) == next_state(w, state, 4, 4)
    (True, True)
    >>> next_state(w, state, 200000, 3)
    Traceback (most recent call last):
    fsrs6.Refusal: an argument is not finite or out of range
    """
    stability, difficulty = state
    return State(*_call("next_state", w, stability, difficulty, delta_t, rating))


def next_state_on(w: Singles, seen: Seen, day: int, rating: int) -> Seen:
    """The state after a later review on `day`, and that day: `next_state` after the days since the one on which the card was last
    seen. A second review on that day is same-day study.

    Refusals: WeightCount, WeightBox, Scalar (also for a day above MAX_DAY), Earlier.

    >>> w = check_and_fill_parameters([])
    >>> card = Seen(State(stability=5, difficulty=6), 19000)
    >>> next_state_on(w, card, 19004, 3) == Seen(next_state(w, card.state, 4, 3), 19004)
    True
    >>> next_state_on(w, card, 18999, 3)
    Traceback (most recent call last):
    fsrs6.Refusal: the day is earlier than the one on which the card was last seen
    """
    (stability, difficulty), last = seen
    *state, on = _call("next_state_on", w, stability, difficulty, last, day, rating)
    return Seen(State(*state), on)


def check_row(w: Singles, before: State, day: float, rating: int, retention: float, claimed: Claimed) -> int:
    """What is to be said of a row that an app has worked out for itself: a state before a review, the days since the review before,
    the rating, and what the app claims of the state after and of the next interval at `retention`. ROW_ACCEPTED where the claimed
    bits are those of `next_state` and, from the stability after, of `next_interval`; else the first field that differs,
    ROW_STABILITY, ROW_DIFFICULTY or ROW_INTERVAL. -0.0 is not 0.0, and a claimed NaN is judged like every other number.

    Refusals: WeightCount, WeightBox, Scalar, before any verdict.

    >>> w = check_and_fill_parameters([])
    >>> before = State(stability=5, difficulty=6)
    >>> after = next_state(w, before, 4, 3)
    >>> claimed = Claimed.of_floats(after, next_interval(w, after.stability, 0.9))
    >>> check_row(w, before, 4, 3, 0.9, claimed) == ROW_ACCEPTED
    True
    >>> check_row(w, before, 4, 3, 0.9, claimed._replace(interval=claimed.interval ^ 1)) == ROW_INTERVAL
    True
    """
    return _call("check_row", w, *before, day, rating, retention, *claimed)[0]


def memory_state_from_sm2(w: Singles, ease_factor: float, interval: float, sm2_retention: float) -> State:
    """The state of a card from an SM-2 deck, by its ease factor, its interval in days, and the share of the deck's reviews that
    were recalled (0.9, not 90). The stability is not clamped.

    Refusals: WeightCount, WeightBox, Scalar, Import.

    >>> w = check_and_fill_parameters([])
    >>> card = memory_state_from_sm2(w, 2.5, 8, 0.9)
    >>> card.stability  # at 0.9 the interval is the stability
    8.0
    >>> memory_state_from_sm2(w, 1.3, 8, 0.9).difficulty > card.difficulty
    True
    >>> memory_state_from_sm2(w, 2.5, 8, 90)
    Traceback (most recent call last):
    fsrs6.Refusal: a card from SM-2 gets no finite stability or difficulty
    """
    return State(*_call("memory_state_from_sm2", w, ease_factor, interval, sm2_retention))


# ---- one training step, and its reverse

def training_step(w: Singles, step: Step) -> Stepped:
    """One training step.

    Refusals: WeightCount, WeightBox, Scalar for a state that is not finite, Rating, Day.

    >>> w = check_and_fill_parameters([])
    >>> first = training_step(w, Step(rating=1))
    >>> first.state == State(stability=w[0], difficulty=w[4]), first.record[7]
    (True, 1.0)
    >>> training_step(w, Step(rating=5))
    Traceback (most recent call last):
    fsrs6.Refusal: a rating is not 0, 1, 2, 3 or 4
    """
    (stability, difficulty), day, rating, row = step
    *state, record = _call("training_step", w, stability, difficulty, day, rating, row)
    return Stepped(State(*state), record)


def training_step_backward(w: Singles, step: Step, after: StateGradient, by_retrievability: float, gw: Lent) -> StateGradient:
    """The reverse of a step: from the gradients `after` by the state after it and `by_retrievability`, the gradients by the state
    before it. What it gives by the weights is added to the 21 slots of `gw`.

    Refusals: those of `training_step`, and SlotCount after those of the weights.

    >>> w = check_and_fill_parameters([])
    >>> gw = 21 * [0.0]
    >>> before = training_step_backward(w, Step(rating=1), StateGradient(stability=2), 0, gw)
    >>> gw[0]  # the stability after a first step is weight 0
    2.0
    >>> training_step_backward(w, Step(rating=1), StateGradient(), 0, 20 * [0.0])
    Traceback (most recent call last):
    fsrs6.Refusal: not 21 gradient slots
    """
    (stability, difficulty), day, rating, row = step
    by_stability, by_difficulty = after
    given = (stability, difficulty, day, rating, row, by_stability, by_difficulty, by_retrievability)
    return StateGradient(*_call("training_step_backward", w, *given, gw))


def explain_step(w: Singles, step: Step) -> Explanation:
    """The reason of the step that `training_step` makes of the same arguments, and which of its two numbers were held.

    Refusals: those of that step.

    >>> w = check_and_fill_parameters([])
    >>> step = Step(State(stability=5, difficulty=9.9), day=4, rating=1, row=1)
    >>> print(explain_step(w, step).reason)
    lapse, raw value taken
    >>> explain_step(w, step._replace(rating=2)).reason
    <Reason.SUCCESS_HARD: 7>
    >>> padding = explain_step(w, Step())  # held where the given state lies outside its range
    >>> print(padding.reason, padding.stability_held, sep="; ")
    padding; held at its low end
    >>> explain_step(w, step._replace(rating=5))
    Traceback (most recent call last):
    fsrs6.Refusal: a rating is not 0, 1, 2, 3 or 4
    """
    (stability, difficulty), day, rating, row = step
    reason, *held = _call("explain_step", w, stability, difficulty, day, rating, row)
    return Explanation(Reason(reason), *map(Held, held))


def record(records: Singles, row: int) -> Record:
    """The record of a row, read from the `records` that a loss with its gradient was lent; or of a step, row 0 of its ten numbers.

    The layout is column-major: ten columns of `len(records) // 10` cells, one behind another, in the order of RECORD_STABILITY to
    RECORD_BRANCH_OTHER. So number f of row i is `records[f * (len(records) // 10) + i]`.

    After an accepted call record i is that of the batch's last column that stepped on row i: a prefix steps on all its rows, a card
    on all but its last. A row on which none did is as it was lent: where its branch is -1, which no branch is, there is a ValueError.
    A row for which there is no room is an IndexError.

    >>> w = check_and_fill_parameters([])
    >>> card = Cards(rows=3, columns=1, days=[0, 0, 4], ratings=[3, 4, 1], lengths=[3], labels=[0, 1, 0], weights=[0, 1, 1])
    >>> records = array("f", 3 * RECORD * [-1])
    >>> loss = card_loss_and_grad(w, card, 21 * [0.0], records, 3 * [0.0])
    >>> path = [record(records, row) for row in range(2)]
    >>> [step.branch.name for step in path], path[0].after == path[1].before == first_state(w, 3)
    (['FIRST', 'SAME_DAY'], True)
    >>> record(records, 2)  # the last review is scored, and no step is made on it
    Traceback (most recent call last):
    ValueError: row 2 has no record: -1.0 is the number of no branch
    >>> record(training_step(w, Step(rating=1)).record, 0).branch
    <Branch.FIRST: 1>
    """
    room = len(records) // RECORD
    if not 0 <= row < room:
        raise IndexError(f"row {row} has no record: there is room for {room}")
    cells = [float(records[field * room + row]) for field in range(RECORD)]
    try:
        cells[RECORD_BRANCH] = Branch(cells[RECORD_BRANCH])
    except ValueError:
        raise ValueError(f"row {row} has no record: {cells[RECORD_BRANCH]} is the number of no branch") from None
    return Record(*cells)


# ---- the two losses, alone and with their gradients, and batch files

def batch_loss(w: Singles, prefixes: Prefixes) -> float:
    """The loss of a batch of prefixes.

    Refusals: WeightCount, WeightBox, Sizes, then column by column EmptyPrefix, Rating, Day, Review.

    >>> w = check_and_fill_parameters([])
    >>> one = Prefixes(rows=1, columns=1, days=[0], ratings=[3], lengths=[1], target_days=[4], labels=[1], weights=[1])
    >>> batch_loss(w, one) > 0, batch_loss(w, one._replace(weights=[0]))
    (True, 0.0)
    >>> batch_loss(w, one._replace(lengths=[0]))
    Traceback (most recent call last):
    fsrs6.Refusal: a prefix has the length 0
    """
    return _call("batch_loss_in", *_tables(w, prefixes, Prefixes), prefixes.target_days, prefixes.labels, prefixes.weights)[0]


def batch_loss_and_grad(w: Singles, prefixes: Prefixes, gw: Lent, records: Lent) -> float:
    """The loss of a batch of prefixes, and its gradient added to the 21 slots of `gw`. `Gradient` does the same and keeps the room
    that is lent here: `records`, ten singles for each row of the longest column, from which `record` reads the path of the states.

    Refusals: those of `batch_loss`, and after those of the weights SlotCount, after Sizes also Room.

    >>> w = check_and_fill_parameters([])
    >>> one = Prefixes(rows=1, columns=1, days=[0], ratings=[3], lengths=[1], target_days=[4], labels=[1], weights=[1])
    >>> gw, records = array("d", 21 * [0]), array("f", 10 * [0])
    >>> batch_loss_and_grad(w, one, gw, records) == batch_loss(w, one)
    True
    >>> gw[2] < 0  # a higher first stability lowers the loss of a review that was recalled
    True
    >>> batch_loss_and_grad(w, one, gw, [])
    Traceback (most recent call last):
    fsrs6.Refusal: too few records or step gradients for the longest column
    """
    scored = (prefixes.target_days, prefixes.labels, prefixes.weights)
    return _call("batch_loss_and_grad_in", *_tables(w, prefixes, Prefixes), *scored, gw, records)[0]


def card_loss(w: Singles, cards: Cards) -> float:
    """The loss of a batch of cards.

    Refusals: WeightCount, WeightBox, Sizes, then column by column Rating, Day, Review.

    >>> w = check_and_fill_parameters([])
    >>> one = Cards(rows=2, columns=1, days=[0, 4], ratings=[3, 3], lengths=[2], labels=[0, 1], weights=[0, 1])
    >>> card_loss(w, one) > 0, card_loss(w, one._replace(lengths=[1]))  # a first review is not scored
    (True, 0.0)
    >>> card_loss(w, one._replace(rows=3))
    Traceback (most recent call last):
    fsrs6.Refusal: rows or columns are over the limit, or an input slice is too short
    """
    return _call("card_loss_in", *_tables(w, cards, Cards), cards.labels, cards.weights)[0]


def card_loss_and_grad(w: Singles, cards: Cards, gw: Lent, records: Lent, step_grads: Lent) -> float:
    """The loss of a batch of cards, and its gradient added to the 21 slots of `gw`. `Gradient` does the same and keeps the room
    that is lent here: `records`, ten singles (`record` reads them), and `step_grads`, a double, for each row of the longest column.

    Refusals: those of `card_loss`, and after those of the weights SlotCount, after Sizes also Room.

    >>> w = check_and_fill_parameters([])
    >>> one = Cards(rows=2, columns=1, days=[0, 4], ratings=[3, 3], lengths=[2], labels=[0, 1], weights=[0, 1])
    >>> gw, records, step_grads = array("d", 21 * [0]), array("f", 20 * [0]), array("d", 2 * [0])
    >>> card_loss_and_grad(w, one, gw, records, step_grads) == card_loss(w, one), gw[2] < 0
    (True, True)
    >>> card_loss_and_grad(w, one, gw, records, [])
    Traceback (most recent call last):
    fsrs6.Refusal: too few records or step gradients for the longest column
    """
    return _call("card_loss_and_grad_in", *_tables(w, cards, Cards), cards.labels, cards.weights, gw, records, step_grads)[0]


def _tables(w: Singles, batch: Union[Prefixes, Cards], kind: type) -> tuple:
    """What both losses begin with, in the order of C, which could not tell prefixes of one row from cards of one."""
    if not isinstance(batch, kind):
        raise TypeError(f"{type(batch).__name__} where {kind.__name__} is wanted")
    return batch.end, w, batch.days, batch.ratings, batch.rows, batch.columns, batch.lengths


# ---- where a loss call is at fault

def _fault(name: str, *given) -> Optional[Fault]:
    number, place = _called(name, given)
    return Fault(number, Place(*place) if 6 <= number <= 9 else None) if number else None


def batch_loss_fault(w: Singles, prefixes: Prefixes) -> Optional[Fault]:
    """The fault of `batch_loss` on the same arguments; None where it is accepted.

    >>> w = check_and_fill_parameters([])
    >>> two = Prefixes(rows=1, columns=2, days=[0, 0], ratings=[3, 1], lengths=[1, 1], target_days=[4, 1e6], labels=[1, 1], weights=[1, 1])
    >>> batch_loss_fault(w, two)  # the scored review of the second
    Fault(number=7, place=Place(column=1, row=1))
    >>> print(batch_loss_fault(w, two))
    column 1, row 1: a day is out of range
    >>> batch_loss_fault(w, two._replace(weights=[1, 0])) is None  # of weight 0, and so unread
    True
    """
    return _fault("batch_loss_fault", *_tables(w, prefixes, Prefixes), prefixes.target_days, prefixes.labels, prefixes.weights)


def batch_loss_and_grad_fault(w: Singles, prefixes: Prefixes, gw_len: int, records_len: int) -> Optional[Fault]:
    """The fault of `batch_loss_and_grad` on the same arguments; None where it is accepted. Of what that call is lent only the lengths
    are given, so that nothing is written.

    >>> w = check_and_fill_parameters([])
    >>> batch_loss_and_grad_fault(w, Prefixes(), 21, 0) is None, batch_loss_and_grad_fault(w, Prefixes(), 20, 0)
    (True, Fault(number=5, place=None))
    """
    scored = (prefixes.target_days, prefixes.labels, prefixes.weights)
    return _fault("batch_loss_and_grad_fault", *_tables(w, prefixes, Prefixes), *scored, gw_len, records_len)


def card_loss_fault(w: Singles, cards: Cards) -> Optional[Fault]:
    """The fault of `card_loss` on the same arguments; None where it is accepted.

    >>> w = check_and_fill_parameters([])
    >>> one = Cards(rows=2, columns=1, days=[0, 4], ratings=[7, 3], lengths=[2], labels=[0, 1], weights=[0, -1])
    >>> card_loss_fault(w, one)  # the first of two
    Fault(number=6, place=Place(column=0, row=0))
    >>> card_loss_fault(w, one._replace(ratings=[3, 3]))
    Fault(number=8, place=Place(column=0, row=1))
    """
    return _fault("card_loss_fault", *_tables(w, cards, Cards), cards.labels, cards.weights)


def card_loss_and_grad_fault(
    w: Singles, cards: Cards, gw_len: int, records_len: int, step_grads_len: int
) -> Optional[Fault]:
    """The fault of `card_loss_and_grad` on the same arguments; None where it is accepted. Of what that call is lent only the lengths
    are given, so that nothing is written.

    >>> w = check_and_fill_parameters([])
    >>> one = Cards(rows=1, columns=1, days=[0], ratings=[3], lengths=[1], labels=[0], weights=[0])
    >>> card_loss_and_grad_fault(w, one, 21, 10, 1) is None, card_loss_and_grad_fault(w, one, 21, 10, 0)
    (True, Fault(number=4, place=None))
    """
    lengths = (gw_len, records_len, step_grads_len)
    return _fault("card_loss_and_grad_fault", *_tables(w, cards, Cards), cards.labels, cards.weights, *lengths)


def batch_file_fault(file: Wholes) -> Optional[Fault]:
    """The fault of the call that a batch file holds, with 21 slots: that of `batch_file`. It takes about 130 KB of the stack.

    >>> batch_file_fault(b"no batch")
    Fault(number=11, place=None)
    """
    return _fault("batch_file_fault", file)


def l2_penalty(
    w: Singles, init_w: Singles, batch_size: int, total_size: int, l2_weight: float, params_stddev: Singles, slots: Lent
) -> float:
    """How far the weights `w` have gone from `init_w`, each measured by its spread, times `l2_weight * batch_size / total_size`;
    the gradient of that stands in the 21 `slots`, singles, which are written, and not added to. All of it is finite: a penalty
    that is not gives zeros throughout, a slot alone that is not is 0, and a total of 0 gives zeros.

    Refusals: WeightCount for any of the three sets, WeightBox for either weight set, SlotCount, then Scalar for a spread that is
    not finite and above 0, or a size over MAX_SIZE.

    >>> old = check_and_fill_parameters([])
    >>> w, slots = old[:], 21 * [7.0]
    >>> w[4] += 0.5
    >>> l2_penalty(w, old, 10, 100, 2, 21 * [1], slots)  # 0.5 ** 2 * 2 * 10 / 100
    0.05
    >>> round(slots[4], 6), slots[5]
    (0.2, 0.0)
    """
    return _call("l2_penalty", w, init_w, batch_size, total_size, l2_weight, params_stddev, slots)[0]


def initial_stability(delta_t: Doubles, recall: Doubles, count: Doubles, default_stability: float) -> float:
    """A starting stability, from 0.0001 to 100, for one first rating: of `count[i]` cards whose next review came `delta_t[i]` days
    after their first one the share `recall[i]` was recalled. It can stand as the weight of that rating, `w[rating - 1]`. Few
    recalls leave the default as it is, and no rows give it as a single; counts need not be whole.

    Refusals: Sizes where the columns are not of one length or have over MAX_RECALLS rows, then Scalar for a default outside 0.0001
    (the nearest single) to 100, then row by row Day for a day that is not above 0 and at most 100000, and Review for a share
    outside 0 to 1, or a count that is not above 0 and at most 2^32.

    >>> w = check_and_fill_parameters([])
    >>> days, recalled, cards = [1, 3, 7], [39 / 40, 19 / 20, 9 / 10], [40, 20, 10]  # rated 3 at first
    >>> round(w[2], 2), round(initial_stability(days, recalled, cards, w[2]), 2)
    (2.31, 5.54)
    >>> initial_stability([], [], [], 2.5)
    2.5
    """
    return _call("initial_stability", delta_t, recall, count, default_stability)[0]


def batch_file(file: Wholes, gw: Lent) -> float:
    """A batch file, run as one call of its loss with the gradient, which is added to the 21 slots of `gw`. It takes about 160 KB of
    the stack.

    Refusals: File, then those of the loss, but never Room.

    >>> batch_file(b"no batch", 21 * [0.0])
    Traceback (most recent call last):
    fsrs6.Refusal: the batch file is malformed
    """
    return _call("batch_file", file, gw)[0]


class Gradient:
    """A gradient that sums up over calls, and the room that the calls work in, so that no size has to be known.

    >>> w = check_and_fill_parameters([])
    >>> one = Cards(rows=2, columns=1, days=[0, 4], ratings=[3, 3], lengths=[2], labels=[0, 1], weights=[0, 1])
    >>> gradient = Gradient()
    >>> loss = gradient.add_cards(w, one)
    >>> once = gradient.slots[2]
    >>> gradient.add_cards(w, one) == loss, gradient.slots[2] == 2 * once
    (True, True)
    """

    slots: array[float]  # the sum so far, by weight; zeros at first, and it may be set to anything

    def __init__(self) -> None:
        self.slots = array("d", WEIGHTS * [0])
        self._records, self._step_grads = array("f"), array("d")

    def add_prefixes(self, w: Singles, prefixes: Prefixes) -> float:
        """Adds the gradient of a batch of prefixes, and gives its loss. Refusals: those of `batch_loss`.

        >>> w = check_and_fill_parameters([])
        >>> Gradient().add_prefixes(w, Prefixes())  # no columns
        0.0
        >>> Gradient().add_prefixes(w[1:], Prefixes())
        Traceback (most recent call last):
        fsrs6.Refusal: not 21 weights
        """
        self._make_room(prefixes.rows)
        return batch_loss_and_grad(w, prefixes, self.slots, self._records)

    def add_cards(self, w: Singles, cards: Cards) -> float:
        """Adds the gradient of a batch of cards, and gives its loss. Refusals: those of `card_loss`.

        >>> w = check_and_fill_parameters([])
        >>> Gradient().add_cards(w, Cards())  # no columns
        0.0
        >>> Gradient().add_cards(w, Cards(columns=513))
        Traceback (most recent call last):
        fsrs6.Refusal: rows or columns are over the limit, or an input slice is too short
        """
        self._make_room(cards.rows)
        return card_loss_and_grad(w, cards, self.slots, self._records, self._step_grads)

    def _make_room(self, rows: int) -> None:
        """Room once made is kept for the calls after it. More rows than the limit are refused, whatever the room."""
        rows = min(rows, MAX_ROWS)
        if len(self._step_grads) < rows:
            self._records, self._step_grads = array("f", RECORD * rows * [0]), array("d", rows * [0])
