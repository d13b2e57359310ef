#!/usr/bin/env python3
# An independent computation of what the program search_cases prints, straight from the rules, with
# Python's sets and whole numbers. It shares nothing with the program but the graphs' recipe.
#
#     python3 crates/search_cases/reference.py > crates/search_cases/stdout
#
# On graphs of at most SMALL cards it also asks every set of cards, and stops with an error if one of
# them is denser than the group by more than the factor 2(q + p)^2 / q^2.

SIZES = [1, 2, 3, 5, 8, 10, 17, 25, 40, 100, 150, 300]
SHAPES = ["empty", "full", "sparse", "dense", "lone", "planted", "blocks", "nested", "tail", "wedge"]
GRAPHS = [(n, shape) for n in SIZES for shape in SHAPES] + [(1024, "planted")]
TOLERANCES = [(1, 1), (1, 2), (2, 4), (1, 10), (1, 100), (37, 100), (100, 100)]
SMALL = 17
SHOWN = 12


# ---- the graphs

def rolls(seed):
    """The numbers of a linear congruential generator: the upper half of each state."""
    state = seed
    while True:
        state = (state * 1664525 + 1013904223) % 2**32
        yield state // 2**16


def linked(shape, n, u, v, roll):
    """Whether the pair u < v is linked, where the pair's roll is this."""
    if shape == "empty":
        return False
    if shape == "full":
        return True
    if shape == "sparse":
        return roll % n < 2
    if shape == "dense":
        return roll % 10 < 8
    if shape == "lone":
        return u % 4 == 0 and v % 4 == 0
    if shape == "planted":
        return (u % 5 == 0 and v % 5 == 0) or roll % n < 2
    if shape == "blocks":
        return (u * u // n == v * v // n and roll % 4 > 0) or roll % n < 1
    if shape == "nested":
        return (u % 12 == 0 and v % 12 == 0) or (u % 3 == 0 and v % 3 == 0 and roll % 5 == 0) or roll % n < 1
    if shape == "tail":
        return v < 6 or (v <= u + 2 and 5 * v < 2 * n)
    if shape == "wedge":
        return v <= u + u * u // (8 * n)
    raise ValueError(shape)


def graph(shape, n):
    """For each card the set of its partners. The pairs u < v are rolled for in ascending order of u, then v."""
    partners = [set() for _ in range(n)]
    dice = rolls(n)
    for u in range(n):
        for v in range(u + 1, n):
            if linked(shape, n, u, v, next(dice)):
                partners[u].add(v)
                partners[v].add(u)
    return partners


# ---- the rules

def height(n, p, q):
    """How often c becomes the greatest c' with c'(q + p) < cq, from n until 0 stands."""
    turns, c = 0, n
    while c > 0:
        c = max(x for x in range(c + 1) if x * (q + p) < c * q)
        turns += 1
    return turns


def links_inside(partners, cards):
    """How many links have both ends in the set."""
    return sum(1 for u in cards for v in partners[u] if u < v and v in cards)


def below(d, line, p, q):
    """Whether a count of partners is below the line."""
    e, s = line
    return d == 0 if e == 0 else d * s * q**2 < 2 * (q + p)**2 * e


def reaches(links, size, line, p, q):
    """Whether a set of so many links and cards reaches the line."""
    e, s = line
    return links >= 1 if e == 0 else links * s * q >= (q + p) * e * size


def peel(partners, line, k, p, q):
    """The sets S0 to S(k-1): each keeps the cards whose partners in the one before are not below the line."""
    sets = [set(range(len(partners)))]
    while len(sets) < k:
        last = sets[-1]
        sets.append({u for u in last if not below(len(partners[u] & last), line, p, q)})
    return sets


def best_of(partners, sets):
    """The first set of highest density, empty sets passed over."""
    best, best_links, last, last_links = None, 0, None, 0
    for cards in sets:
        if not cards:
            continue
        last_links = last_links if cards == last else links_inside(partners, cards)
        last = cards
        if best is None or last_links * len(best) > best_links * len(cards):
            best, best_links = cards, last_links
    return best, best_links


def search(partners, p, q):
    """The kept set, its links and the count of peels, from all cards."""
    n = len(partners)
    k = height(n, p, q)
    kept = set(range(n))
    links = links_inside(partners, kept)
    peels = 0
    while True:
        line = (links, len(kept))
        best, best_links = best_of(partners, peel(partners, line, k, p, q))
        peels += 1
        if not reaches(best_links, len(best), line, p, q):
            return kept, links, peels
        kept, links = best, best_links


# ---- a check of the rules by asking every set

def densest_counts(partners):
    """The links and cards of a densest set, found among all sets."""
    n = len(partners)
    rows = [sum(1 << v for v in partners[u]) for u in range(n)]
    inside = [0] * 2**n
    best = (0, 1)
    for cards in range(1, 2**n):
        low = (cards & -cards).bit_length() - 1
        rest = cards & (cards - 1)
        inside[cards] = inside[rest] + bin(rows[low] & rest).count("1")
        size = bin(cards).count("1")
        if inside[cards] * best[1] > best[0] * size:
            best = (inside[cards], size)
    return best


# ---- the report

def shown(cards):
    """The cards themselves, or where they are many a number made of them."""
    if len(cards) <= SHOWN:
        return "cards " + " ".join(str(card) for card in sorted(cards))
    total = 0
    for card in sorted(cards):
        total = (total * 31 + card) % 2**32
    return f"sum {total}"


def main():
    for n, shape in GRAPHS:
        partners = graph(shape, n)
        links = links_inside(partners, set(range(n)))
        densest = densest_counts(partners) if n <= SMALL else None
        for p, q in TOLERANCES:
            kept, kept_links, peels = search(partners, p, q)
            assert kept and kept_links == links_inside(partners, kept)
            if densest:
                assert densest[0] * len(kept) * q**2 <= 2 * (q + p)**2 * kept_links * densest[1]
            print(f"{n} {shape} {p}/{q}: {links} links, group of {len(kept)} with {kept_links} after {peels}: {shown(kept)}")


if __name__ == "__main__":
    main()
