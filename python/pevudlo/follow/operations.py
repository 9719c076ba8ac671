"""What each elementwise function of numpy's makes of arrays of a traced function."""

from __future__ import annotations

from collections.abc import Callable, Sequence
from typing import Any, Optional, TypeVar

from pevudlo.follow.arrays import FUNCTIONS, UFUNCS, Array, Axes, as_array
from pevudlo.follow.expressions import BOOLEAN, WIDEST, WIDTHS, Kind
from pevudlo.follow.refusals import refuse

Made = TypeVar("Made", bound=Callable[..., Any])

OF_BOOLEANS = {"add": "bitwise_or", "multiply": "bitwise_and", "maximum": "bitwise_or", "minimum": "bitwise_and"}
"""What arithmetic of booleans is, as in numpy."""

RELATIONS = {
    "equal": "eq",
    "not_equal": "ne",
    "less": "lt",
    "less_equal": "le",
    "greater": "gt",
    "greater_equal": "ge",
}

NUMPY_BITS = {8, 16, 32, 64}
MOST_DOUBLED = 12
"""A shift by so many bits at most doubles, which takes less time than a product."""


def made(*names: str, table: dict[str, Callable[..., Any]] = FUNCTIONS) -> Callable[[Made], Made]:
    """Puts a function into a table under these names."""

    def put(function: Made) -> Made:
        table.update(dict.fromkeys(names, function))
        return function

    return put


def joined(arrays: Sequence[Array]) -> Axes:
    """The axes of an elementwise result, by numpy's rule: from the last axis on."""
    first = arrays[0].axes
    if None not in first:
        for array in arrays:
            if array.axes != first:
                break
        else:
            return first
    axes = list[Optional[int]]()
    for at in range(1, max(array.ndim for array in arrays) + 1):
        here = {array.axes[-at] for array in arrays if array.ndim >= at} - {None}
        if len(here) > 1:
            refuse(
                f"axes {sorted(map(str, here))} of the set would lie on each other: keepdims=True or a[:, None] helps"
            )
        axes.append(here.pop() if here else None)
    real = [axis for axis in axes if axis is not None]
    if len(set(real)) < len(real):
        refuse("one axis of the set would be two axes of the result: an outer product wants arrays of one more axis")
    return tuple(reversed(axes))


def is_fitted(values: Sequence[Any]) -> bool:
    """Whether two values are arrays of one trace and one kind, as most are."""
    if len(values) != 2:
        return False
    one, other = values
    if not (isinstance(one, Array) and isinstance(other, Array)) or one.trace is not other.trace:
        return False
    return one.node.kind == other.node.kind


def fitted(values: Sequence[Any]) -> list[Array]:
    """Arrays of one kind: of the greater width, and signed where one of them is."""
    if is_fitted(values):
        return list(values)
    like = next(value for value in values if isinstance(value, Array))
    arrays = [as_array(value, like) for value in values]
    kinds = {array.kind for array in arrays}
    if len(kinds) == 1:
        return arrays
    kind = common(kinds - {BOOLEAN} if len(kinds - {BOOLEAN}) else kinds)
    return [array._as(kind) for array in arrays]


def common(kinds: set[Kind]) -> Kind:
    """A kind that has room for the numbers of all of these, of numpy's widths where all of them are."""
    is_signed = any(kind.signed for kind in kinds)
    bits = max(kind.bits + (is_signed and not kind.signed) for kind in kinds)
    if {kind.bits for kind in kinds} <= NUMPY_BITS:
        bits = next(width for width in WIDTHS if bits <= width)
    if bits > WIDEST:
        refuse(f"unsigned numbers of {WIDEST} bits and signed ones have no common kind: `astype` one of them")
    return Kind(bits, is_signed)


def of(arrays: Sequence[Array], name: str, detail: tuple[object, ...], kind: Kind, quiet: bool = False) -> Array:
    """The result of an elementwise operation."""
    trace = arrays[0].trace
    node = trace.node(name, detail, tuple([array.node for array in arrays]), kind, quiet)
    return Array(trace, node, joined(arrays))


def elementwise(name: str, *values: Any, quiet: bool = False) -> Array:
    """An operation on numbers of one kind, which gives numbers of that kind."""
    arrays = fitted(values)
    kind = arrays[0].kind
    if kind.boolean:
        name = OF_BOOLEANS.get(name, name)
        if not name.startswith("bitwise") and name != "invert":
            refuse(f"numpy.{name} of booleans: `astype` makes numbers of them")
    if name in ("floor_divide", "remainder") and kind.signed:
        return signed_division(name, *arrays)
    if name == "negative" and not kind.signed:
        return of([arrays[0].like(0), arrays[0]], "subtract", (), kind, quiet)
    return of(arrays, name, (), kind, quiet)


def put_elementwise(name: str) -> None:
    """Puts an operation into the table of numpy's elementwise functions."""
    UFUNCS[name] = lambda *values: elementwise(name, *values)


def put_relation(name: str) -> None:
    """Puts a comparison into that table."""
    UFUNCS[name] = lambda *values: compared(name, *values)


def put_logical(name: str) -> None:
    """Puts an operation on booleans into that table."""
    UFUNCS[name] = lambda *values: logical(name, *values)


def signed_division(name: str, one: Array, other: Array) -> Array:
    """Quotients and remainders of signed numbers, rounded down as Python's, and 0 where the divisor is 0."""
    kind = one.kind
    magnitude, zero = Kind(kind.bits), one.like(0)
    is_low, is_other_low = compared("less", one, zero), compared("less", other, zero)
    sizes = [
        chosen(low, elementwise("negative", each, quiet=True), each)._as(magnitude)
        for low, each in ((is_low, one), (is_other_low, other))
    ]
    # The row that divides tells of divisors that are 0.
    is_rest = name == "remainder"
    rest = of(sizes, "remainder", (), magnitude, not is_rest)._as(kind)
    is_turned = elementwise("bitwise_xor", is_low, is_other_low)
    is_mixed = elementwise("bitwise_and", is_turned, compared("not_equal", rest, zero))
    if is_rest:
        rest = chosen(is_low, elementwise("negative", rest, quiet=True), rest)
        return elementwise("add", rest, chosen(is_mixed, other, zero), quiet=True)
    quotient = of(sizes, "floor_divide", (), magnitude)._as(kind)
    lowered = elementwise("negative", elementwise("add", quotient, is_mixed._as(kind), quiet=True), quiet=True)
    return chosen(is_turned, lowered, quotient)


def compared(name: str, *values: Any) -> Array:
    """Booleans of a comparison."""
    arrays = fitted(values)
    kind, relation = arrays[0].kind, RELATIONS[name]
    sign = "s" if kind.signed and relation not in ("eq", "ne") else "u"
    return of(arrays, "compare", (f"{sign}-{relation}", kind.bits), BOOLEAN)


@made("where")
def chosen(condition: Any, one: Any, other: Any) -> Array:
    """The one's numbers where the condition is true, else the other's."""
    like = next(value for value in (condition, one, other) if isinstance(value, Array))
    is_one = as_array(condition, like).astype(bool)
    if not isinstance(one, Array) and not isinstance(other, Array):
        one = as_array(one, like, weak=False)
    one, other = fitted((one, other))
    return of([is_one, one, other], "where", (), one.kind)


@made("not_zero")
def not_zero(array: Array) -> Array:
    """Booleans: which numbers aren't 0."""
    return compared("not_equal", array, array.like(0))


def logical(name: str, *values: Any) -> Array:
    """An operation on booleans."""
    like = next(value for value in values if isinstance(value, Array))
    arrays = [as_array(value, like).astype(bool) for value in values]
    names = {"logical_and": "bitwise_and", "logical_or": "bitwise_or", "logical_xor": "bitwise_xor"}
    return of(arrays, names.get(name, "invert"), (), BOOLEAN)


def shift_of(name: str, array: Any, count: Any) -> tuple[Array, int]:
    """The array that is shifted, and by how much."""
    if isinstance(count, Array) or not isinstance(array, Array):
        refuse("shifts are by a number that the function knows: `take` of a table of powers gives others")
    if array.kind.boolean:
        refuse(f"numpy.{name} of booleans: `astype` makes numbers of them")
    if count < 0:
        refuse(f"a shift by {count} bits: counts are 0 or more")
    return array, int(count)


@made("left_shift", table=UFUNCS)
def shifted_left(array: Any, count: Any) -> Array:
    """Shifted bits. What is lost isn't told."""
    shifted, bits = shift_of("left_shift", array, count)
    if bits >= shifted.bits:
        return shifted.like(0)
    if bits > MOST_DOUBLED:
        return elementwise("multiply", shifted, shifted.like(1 << bits), quiet=True)
    for _ in range(bits):
        shifted = elementwise("add", shifted, shifted, quiet=True)
    return shifted


@made("right_shift", table=UFUNCS)
def shifted_right(array: Any, count: Any) -> Array:
    """Shifted bits: the quotient, rounded down."""
    given, bits = shift_of("right_shift", array, count)
    kind = given.kind
    if bits == 0:
        return given
    if not kind.signed:
        return given.like(0) if bits >= kind.bits else elementwise("floor_divide", given, given.like(1 << bits))
    bits = min(bits, kind.bits - 1)
    above = turned(given)._as(Kind(kind.bits))
    shifted = elementwise("floor_divide", above, above.like(1 << bits)) if bits else above
    return elementwise("subtract", shifted, shifted.like(1 << kind.bits - 1 - bits), quiet=True)._as(kind)


def turned(array: Array) -> Array:
    """Signed numbers with their highest bit turned, which are in the order of unsigned ones."""
    return elementwise("bitwise_xor", array, array.like(1 << array.bits - 1))


@made("absolute", "fabs", table=UFUNCS)
def absolute(array: Array) -> Array:
    """The numbers without their signs."""
    if not array.kind.signed:
        return array
    return chosen(compared("less", array, array.like(0)), elementwise("negative", array), array)


@made("sign", table=UFUNCS)
def sign(array: Array) -> Array:
    """1, 0 or -1."""
    if not array.kind.signed:
        return not_zero(array)._as(array.kind)
    low, zero = array.like(-1), array.like(0)
    return chosen(compared("less", array, zero), low, not_zero(array)._as(array.kind))


@made("square", table=UFUNCS)
def square(array: Array) -> Array:
    """The numbers by themselves."""
    return elementwise("multiply", array, array)


@made("positive", "conjugate", table=UFUNCS)
def same(array: Array) -> Array:
    """The array itself."""
    return array


@made("clip")
def clipped(array: Array, least: Any = None, most: Any = None) -> Array:
    """The numbers between a least and a most one."""
    array = array if least is None else elementwise("maximum", array, least)
    return array if most is None else elementwise("minimum", array, most)


@made("zeros_like")
def zeros_like(array: Array, dtype: Any = None) -> Array:
    """Zeros in the shape of an array."""
    return array.like(0) if dtype is None else array.like(0).astype(dtype)


@made("ones_like")
def ones_like(array: Array, dtype: Any = None) -> Array:
    """Ones in the shape of an array."""
    return array.like(1) if dtype is None else array.like(1).astype(dtype)


@made("full_like")
def full_like(array: Array, fill_value: Any, dtype: Any = None) -> Array:
    """A number in the shape of an array."""
    start = array.like(0) if dtype is None else array.like(0).astype(dtype)
    return Array(array.trace, as_array(fill_value, start).node, array.axes)


for _name in ("add", "subtract", "multiply", "floor_divide", "remainder", "negative", "maximum", "minimum"):
    put_elementwise(_name)
for _name in ("bitwise_and", "bitwise_or", "bitwise_xor", "invert"):
    put_elementwise(_name)
for _name in RELATIONS:
    put_relation(_name)
for _name in ("logical_and", "logical_or", "logical_xor", "logical_not"):
    put_logical(_name)
