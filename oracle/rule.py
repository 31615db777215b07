"""The draw's rule, both editions, on whole numbers of any size: written from docs/DRAW.md and documents 01 and 02, and from no code of ours.

A double is handled as its 64 bits. `nearest` is the only rounding, from an exact fraction.
"""
from math import isqrt

WORD = 1 << 64
TAU = 0x401921FB54442D18
THIRD = 199786072581291495  # A(1/3) in units of 2^-58, rounded up


def step(state):
    """The generator: the next state, and its output."""
    state = (state + 0x9E3779B97F4A7C15) % WORD
    z = state
    z = (z ^ z >> 30) * 0xBF58476D1CE4E5B9 % WORD
    z = (z ^ z >> 27) * 0x94D049BB133111EB % WORD
    return state, z ^ z >> 31


def nearest(top, bottom):
    """The bits of the double nearest to top/bottom, ties to even; for values of a normal double's size or 0."""
    sign, top = (1 << 63, -top) if top < 0 else (0, top)
    if top == 0:
        return sign
    power = top.bit_length() - bottom.bit_length()
    if top << max(0, -power) < bottom << max(0, power):
        power -= 1
    # 2^power is at most the value, and 2^(power + 1) above it: 53 bits of it, then what is left decides.
    shift = 52 - power
    whole, rest = divmod(top << max(0, shift), bottom << max(0, -shift))
    bottom <<= max(0, -shift)
    if 2 * rest > bottom or (2 * rest == bottom and whole & 1):
        whole += 1
    assert -1022 <= power < 1023
    return sign | (whole - (1 << 52)) + (power + 1023 << 52)


def fraction(bits):
    """A finite double's value, as a numerator and a power of two below it."""
    field, digits = bits >> 52 & 0x7FF, bits % (1 << 52)
    assert field != 0x7FF
    digits, exponent = (digits, -1074) if field == 0 else (digits + (1 << 52), field - 1075)
    top = -digits if bits >> 63 else digits
    return (top << exponent, 1) if exponent >= 0 else (top, 1 << -exponent)


BITS = {1: 53, 2: 52}  # of an output, by the edition


def uniform(word, edition):
    bits = BITS[edition]
    half = nearest(2 * (word >> 64 - bits) + 1, 2)
    top, bottom = fraction(half)
    return nearest(top, bottom << bits)


def angle(word, edition):
    """TAU times the uniform of an output, rounded once."""
    (a, b), (c, d) = fraction(TAU), fraction(uniform(word, edition))
    return nearest(a * c, b * d)


def high(x, y):
    return x * y >> 64


def cosine(word, edition):
    bits = angle(word, edition)
    field, digits = bits >> 52, bits % (1 << 52)
    t = (digits + (1 << 52) << field) >> 1014
    z = high(t, t)
    term = total = 1 << 51
    for k in range(20):
        term = high(64 * term, z) // ((2 * k + 1) * (2 * k + 2))
        total += -term if k % 2 == 0 else term
    total = max(-(1 << 51), min(1 << 51, total))
    return nearest(total, 1 << 51)


def logarithm(word, edition):
    bits = uniform(word, edition)
    field, digits = bits >> 52, bits % (1 << 52)
    q = (digits << 50) // (digits + (1 << 53))
    s = q << 14
    w = high(s, s)
    power, total = q << 9, 0
    for k in range(21):
        total += power // (2 * k + 1)
        power = high(power, w)
    y = ((1023 - field) * THIRD - total) >> 11
    return nearest(-y, 1 << 47)


def root(bits):
    """IEEE 754's square root of a double that is not negative, -0.0 being its own."""
    top, bottom = fraction(bits)
    if top == 0:
        return bits
    # The root of top/bottom to 70 bits and more, an odd last bit saying that something was cut off.
    shift = 300
    square = (top << 2 * shift) // bottom
    floor = isqrt(square)
    exact = floor * floor == square and (top << 2 * shift) % bottom == 0
    return nearest(2 * floor + (0 if exact else 1), 2 << shift)


def product(left, right):
    (a, b), (c, d) = fraction(left), fraction(right)
    sign = (left ^ right) >> 63 << 63
    return sign if a * c == 0 else nearest(a * c, b * d)


def gaussian(first, second, edition):
    """The Gaussian of two outputs, in the order in which they are drawn."""
    minus_two = 0xC000000000000000
    return product(root(product(minus_two, logarithm(first, edition))), cosine(second, edition))
