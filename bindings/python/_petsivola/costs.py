"""Costs from what a receiver measures. Floating point ends here: frames and the library have whole numbers only."""
from __future__ import annotations

import math
from typing import Any, Sequence, Union

from _petsivola.library import flat

# Any stands for numpy's arrays.
Numbers = Union[Sequence[float], Sequence[Sequence[float]], Any]


def costs_from_llr(p: int, llr: Numbers, costs_per_nat: float = 8.0) -> bytes:
    """A frame from the log-likelihood ratios of bits, ln P(0)/P(1) in nats: p for each column, the lowest bit first.

    The likeliest symbol of a column has the likelier value of each bit, and another symbol is as far from it as the
    ratios of the bits in which it differs add up to. An infinite ratio is a bit that is known, a NaN an error. From
    there on as in costs_from_log_likelihoods."""
    frame = bytearray()
    for number, ratios in enumerate(_columns(llr, p)):
        if any(map(math.isnan, ratios)):
            raise ValueError(f"column {number}: not a number")
        # Added from the lowest bit on; sum() does it in another way since Python 3.12.
        distances = [0.0]
        for ratio in ratios:
            zero, one = max(-ratio, 0.0), max(ratio, 0.0)
            distances = [low + zero for low in distances] + [low + one for low in distances]
        frame += _costs(distances, costs_per_nat)
    return bytes(frame)


def costs_from_log_likelihoods(p: int, logarithms: Numbers, costs_per_nat: float = 8.0) -> bytes:
    """A frame from the log-likelihoods of symbols in nats, ln P(received | symbol): q = 2^p for each column. What is
    the same for all symbols of a column does not matter, so vectors of log-likelihood ratios do as well, as long as
    the likelier symbol has the greater one.

    A cost is the distance from the column's greatest, times costs_per_nat, rounded to the nearest whole number, halves
    up, and at most 255. A symbol of minus infinity is impossible and costs 255. A column without a finite greatest,
    or with a NaN, is an error."""
    frame = bytearray()
    for number, column in enumerate(_columns(logarithms, 1 << p)):
        if any(map(math.isnan, column)):
            raise ValueError(f"column {number}: not a number")
        greatest = max(column)
        if math.isinf(greatest):
            raise ValueError(f"column {number}: the greatest likelihood is 0 or infinite")
        frame += _costs([greatest - logarithm for logarithm in column], costs_per_nat)
    return bytes(frame)


def costs_from_likelihoods(p: int, likelihoods: Numbers, costs_per_nat: float = 8.0) -> bytes:
    """A frame from the likelihoods of symbols, P(received | symbol), or any multiple of them in each column: q = 2^p
    for each column, none below 0. The costs are those of their logarithms."""
    values = list(flat(likelihoods))
    if any(value < 0 for value in values):
        raise ValueError("a likelihood below 0; costs_from_log_likelihoods takes logarithms")
    return costs_from_log_likelihoods(p, [math.log(value) if value else -math.inf for value in values], costs_per_nat)


def _columns(values: Numbers, length: int) -> list[list[float]]:
    numbers = [float(value) for value in flat(values)]
    if not length or len(numbers) % length:
        raise ValueError(f"{len(numbers)} numbers are no whole columns of {length}")
    return [numbers[start:start + length] for start in range(0, len(numbers), length)]


def _costs(distances: list[float], costs_per_nat: float) -> bytes:
    """Distances in nats, the least of them 0, as costs."""
    if not 0 < costs_per_nat < math.inf:
        raise ValueError(f"{costs_per_nat} costs per nat")
    scaled = [min(distance * costs_per_nat, 255.0) for distance in distances]
    # floor(x + 0.5) would round up the number just below a half.
    return bytes(int(cost) + (cost - int(cost) >= 0.5) for cost in scaled)
