"""Random expressions of constants with their values."""
import random

LEAST, GREATEST = -2**31, 2**31 - 1
CONSTANTS = [0, 1, 2, 7, 10, 255, 46340, 46341, 65536, GREATEST]


def made(count):
    """So many expressions as texts, each with its value, or None where an operation overflows."""
    rng = random.Random(89)
    return [expression(rng, 4)[:2] for _ in range(count)]


def expression(rng, depth):
    """A text, its value, and how tightly its operator binds."""
    if depth == 0 or rng.random() < 0.2:
        value = rng.choice([*CONSTANTS, rng.randrange(GREATEST + 1)])
        return str(value), value, 9
    op, rank = rng.choice([("+", 1), ("-", 1), ("*", 2)])
    left, a, left_rank = expression(rng, depth - 1)
    right, b, right_rank = expression(rng, depth - 1)
    if left_rank < rank or rng.random() < 0.1:
        left = f"({left})"
    if right_rank <= rank or rng.random() < 0.1:
        right = f"({right})"
    blank = rng.choice([" ", "", "\t", "\n"])
    return f"{left}{blank}{op}{blank}{right}", value_of(op, a, b), rank


def value_of(op, a, b):
    if a is None or b is None:
        return None
    value = {"+": a + b, "-": a - b, "*": a * b}[op]
    return value if LEAST <= value <= GREATEST else None
