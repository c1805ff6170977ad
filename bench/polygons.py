"""Polygons of about n vertices for measuring, each a list of places."""
from __future__ import annotations

Place = tuple[int, int]
Ring = list[Place]



def ring(n: int) -> Ring:
    half = n // 2
    hill = lambda i: (i - half // 2) ** 2
    return [(4 * i, hill(i)) for i in range(half)] + [(4 * i + 1, 2000000 - hill(i)) for i in reversed(range(half))]


def comb(n: int) -> Ring:
    teeth = (n - 2) // 4
    out = [(0, 0)]
    for k in range(teeth):
        out += [(2000 + k, 4 * k), (2000 + k, 4 * k + 1), (k + 1, 4 * k + 2), (k + 1, 4 * k + 3)]
    return out + [(0, 4 * teeth)]


def spiral(n: int) -> Ring:
    half = n // 2

    def corner(i: int, r: int) -> Place:
        return ((r, -r), (r, r), (-r, r), (-r, -r))[i % 4]

    return [corner(i, 8 * i + 8) for i in range(half)] + [corner(i, 8 * i + 24) for i in reversed(range(half))]


def zigzag(n: int) -> Ring:
    half = n // 2

    def at(i: int, right: int) -> Place:
        return ((0 if i % 2 == 0 else 1000000) + i + right, 100 * i)

    return [at(i, 0) for i in range(half)] + [at(i, 2000) for i in reversed(range(half))]
