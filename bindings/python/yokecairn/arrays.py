"""Points, matrices and tours that are given as lists or numpy's arrays, as exact numbers. For `Problem.from_points` and its like
in problem.py."""

from decimal import ROUND_HALF_EVEN, Context, Decimal
from math import isqrt
from typing import Any, Iterable, List, Optional, Sequence

_EXACT = Context(prec=400, rounding=ROUND_HALF_EVEN)


def _type(value: object) -> str:
    return type(value).__name__


def _number(value: Any, where: str) -> Decimal:
    """A number, as it is written in the fewest digits: numpy's numbers print as Python's do."""
    if isinstance(value, (str, bytes)) or not hasattr(value, "__float__"):
        raise TypeError(f"{where} is no number, but of type {_type(value)}: {value!r:.60}")
    try:
        number = value if isinstance(value, Decimal) else Decimal(str(value))
    except ArithmeticError:
        raise TypeError(f"{where} can't be taken exactly: {value!r:.60}") from None
    if not number.is_finite():
        raise ValueError(f"{where} isn't finite: {value}")
    return number


def _rows(table: Any, what: str) -> List[Sequence[Any]]:
    """The rows of a table."""
    try:
        rows: List[Sequence[Any]] = [list(row) for row in table]
    except TypeError:
        raise TypeError(f"{what} are rows of numbers, and this is of type {_type(table)}") from None
    if not rows:
        raise ValueError(f"{what} have at least one row")
    return rows


def _scaled(number: Decimal, scale: int) -> Decimal:
    return _EXACT.multiply(number, Decimal(scale))


def check_scale(scale: int) -> None:
    """Raises TypeError or ValueError where a scale isn't a whole number from 1 on."""
    if isinstance(scale, bool) or not isinstance(scale, int):
        raise TypeError(f"a scale is a whole number, and this is of type {_type(scale)}")
    if scale < 1:
        raise ValueError(f"a scale is 1 or more, and this is {scale}")


def points(table: Any, axes: int, scale: int, decimals: Optional[int]) -> List[List[Decimal]]:
    """The coordinates of each point, multiplied, and rounded where decimals are named."""
    check_scale(scale)
    if hasattr(table, "keys"):
        raise TypeError("points are rows of numbers, for node 1, 2, ..; a dict by node is the field node_coords")
    found = []
    for node, row in enumerate(_rows(table, "points"), 1):
        if len(row) != axes:
            advice = '; edge_weight_type="EUC_3D" takes three' if (len(row), axes) == (3, 2) else ""
            raise ValueError(f"point {node} has {len(row)} coordinates, and {axes} are wanted{advice}")
        exact = [_scaled(_number(value, f"a coordinate of point {node}"), scale) for value in row]
        if decimals is not None:
            exact = [it.quantize(Decimal(1).scaleb(-decimals), context=_EXACT) for it in exact]
        found.append([_EXACT.plus(it.normalize(_EXACT)) for it in exact])
    return found


def rounded_down(rows: Sequence[Sequence[Decimal]], parts: int) -> List[List[int]]:
    """The distances of points in the plane, in so many parts of a unit, rounded down."""
    places = max(-min(int(value.as_tuple().exponent), 0) for row in rows for value in row)
    exact = [[int(_EXACT.scaleb(value, places)) for value in row] for row in rows]
    found = [[0] * len(rows) for _ in rows]
    for i, (x, y) in enumerate(exact):
        for j, (a, b) in enumerate(exact[:i]):
            found[i][j] = found[j][i] = isqrt(parts**2 * ((x - a) ** 2 + (y - b) ** 2)) // 10**places
    return found


def matrix(table: Any, scale: int, rounded: bool) -> List[List[int]]:
    """The weights of each row, multiplied, with 0 in the diagonal."""
    check_scale(scale)
    rows = _rows(table, "weights")
    return [_weights(row, number, len(rows), scale, rounded) for number, row in enumerate(rows)]


def _weights(row: Sequence[Any], number: int, count: int, scale: int, rounded: bool) -> List[int]:
    """The weights of a row."""
    if len(row) != count:
        raise ValueError(f"row {number + 1} has {len(row)} weights, and there are {count} rows")
    found: List[int] = []
    for place, value in enumerate(row):
        if place == number:
            found.append(0)
            continue
        where = f"the weight from {number + 1} to {place + 1}"
        weight = _scaled(_number(value, where), scale)
        whole = weight.to_integral_value(ROUND_HALF_EVEN)
        if whole != weight and not rounded:
            raise ValueError(f"{where} isn't whole: {value}. scale=.. multiplies all, and rounded=True rounds them")
        found.append(int(whole))
    return found


def note(what: str, scale: int, decimals: Optional[int]) -> Optional[str]:
    """What a COMMENT says of numbers that were changed."""
    if scale == 1 and decimals is None:
        return None
    rounded = None if decimals is None else f"rounded to {decimals} decimals"
    multiplied = None if scale == 1 else f"multiplied by {scale}"
    return f"{what} {', '.join(filter(None, (multiplied, rounded)))}"


def tours(given: Any) -> Iterable[Any]:
    """The tours of a list of tours."""
    try:
        found = list(given)
    except TypeError:
        raise TypeError(f"tours are lists of nodes, and this is of type {_type(given)}") from None
    if found and not hasattr(found[0], "__iter__"):
        raise TypeError("tours are a list of tours, and this is one tour: write [tour]")
    return found
