"""A block enciphered as the Data Encryption Standard (FIPS PUB 46-3) says it: a list of bits, tables of places, sixteen rounds."""
import functools

# Places are counted from 1, and the first bit of a block is its highest.
INITIAL = [first - 8 * i for first in (58, 60, 62, 64, 57, 59, 61, 63) for i in range(8)]
FINAL = [INITIAL.index(place) + 1 for place in range(1, 65)]
EXPANSION = [(4 * group + i - 1) % 32 + 1 for group in range(8) for i in range(6)]
PERMUTATION = [16, 7, 20, 21, 29, 12, 28, 17, 1, 15, 23, 26, 5, 18, 31, 10, 2, 8, 24, 14, 32, 27, 3, 9, 19, 13, 30, 6, 22, 11, 4, 25]
CHOICE_1 = [57, 49, 41, 33, 25, 17, 9, 1, 58, 50, 42, 34, 26, 18, 10, 2, 59, 51, 43, 35, 27, 19, 11, 3, 60, 52, 44, 36]
CHOICE_1 += [63, 55, 47, 39, 31, 23, 15, 7, 62, 54, 46, 38, 30, 22, 14, 6, 61, 53, 45, 37, 29, 21, 13, 5, 28, 20, 12, 4]
CHOICE_2 = [14, 17, 11, 24, 1, 5, 3, 28, 15, 6, 21, 10, 23, 19, 12, 4, 26, 8, 16, 7, 27, 20, 13, 2]
CHOICE_2 += [41, 52, 31, 37, 47, 55, 30, 40, 51, 45, 33, 48, 44, 49, 39, 56, 34, 53, 46, 42, 50, 36, 29, 32]
SHIFTS = [1, 1, 2, 2, 2, 2, 2, 2, 1, 2, 2, 2, 2, 2, 2, 1]
# The four rows of each box.
BOXES = [
    "e4d12fb83a6c5907 0f74e2d1a6cb9538 41e8d62bfc973a50 fc8249175b3ea06d",
    "f18e6b34972dc05a 3d47f28ec01a69b5 0e7ba4d158c6932f d8a13f42b67c05e9",
    "a09e63f51dc7b428 d709346a285ecbf1 d6498f30b12c5ae7 1ad069874fe3b52c",
    "7de3069a1285bc4f d8b56f03472c1ae9 a690cb7df13e5284 3f06a1d8945bc72e",
    "2c417ab6853fd0e9 eb2c47d150fa3986 421bad78f9c5630e b8c71e2d6f09a453",
    "c1af92680d34e75b af427c9561de0b38 9ef528c3704a1db6 432c95fabe17608d",
    "4b2ef08d3c975a61 d0b7491ae35c2f86 14bdc37eaf680592 6bd814a7950fe23c",
    "d2846fb1a93e50c7 1fd8a374c56b0e92 7b419ce206adf358 21e74a8dfc90356b",
]
ROWS = [[[int(digit, 16) for digit in row] for row in box.split()] for box in BOXES]


def bits_of(number, width):
    return [number >> i & 1 for i in reversed(range(width))]


def number_of(bits):
    return int("".join(map(str, bits)), 2)


def selected(table, bits):
    return [bits[place - 1] for place in table]


def added(one, other):
    return [a ^ b for a, b in zip(one, other)]


@functools.cache
def round_keys(key):
    """The sixteen round keys of a key of 64 bits, of which each eighth isn't used."""
    bits, keys = selected(CHOICE_1, bits_of(key, 64)), []
    left, right = bits[:28], bits[28:]
    for shift in SHIFTS:
        left, right = left[shift:] + left[:shift], right[shift:] + right[:shift]
        keys.append(selected(CHOICE_2, left + right))
    return keys


def substituted(rows, six):
    """The four bits of a box for six: the first and the last say the row, the others the column."""
    return bits_of(rows[number_of([six[0], six[5]])][number_of(six[1:5])], 4)


def cipher_function(right, key):
    bits = added(selected(EXPANSION, right), key)
    return selected(PERMUTATION, [bit for i, rows in enumerate(ROWS) for bit in substituted(rows, bits[6 * i : 6 * i + 6])])


def enciphered(key, block):
    """A block of 64 bits under a key of 64."""
    bits = selected(INITIAL, bits_of(block, 64))
    left, right = bits[:32], bits[32:]
    for round_key in round_keys(key):
        left, right = right, added(left, cipher_function(right, round_key))
    return number_of(selected(FINAL, right + left))
