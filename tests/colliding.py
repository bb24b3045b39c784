"""Different texts with one hash, from which a hash table would make one long list.

The hash tables of Rattle's libraries have no seed of their own. A text of 32 bytes is folded in two
steps, and each multiplies two factors of 8 bytes. The first factor of the second step is bytes 16
to 23 of the text, by xor with what the first step gave. So where these bytes are that result, this
factor is 0, the product is 0, and bytes 24 to 31 make no difference."""
import functools
import itertools

MASK = 2**64 - 1
SEED = 0x243f6a8885a308d3
MULTIPLIER = 0x9e3779b97f4a7c15
LENGTH = 32
# Hashes of texts that the library has printed.
HASHES = {
    '0123456789abcdef0123456789abcdef': 13803394898211047421,
    '0000000000042547nf8XT7Lr00000000': 1965769296548967568,
    '0000000000042547nf8XT7Lr00000002': 1965769296548967568,
}


def number(data, start):
    """8 bytes as a number, the lowest first."""
    return int.from_bytes(data[start:start + 8], 'little')


def folded(one, other):
    """The two halves of the product of two numbers, by xor."""
    product = one * other
    return product & MASK ^ product >> 64


def first_step(data):
    return folded(number(data, 0) ^ SEED + LENGTH, number(data, 8) ^ MULTIPLIER)


def hash_of(text):
    """The hash of a text of 32 bytes, behind which a byte 255 is hashed."""
    data = text.encode()
    assert len(data) == LENGTH
    state = folded(number(data, 16) ^ first_step(data), number(data, 24) ^ MULTIPLIER)
    return folded(state ^ 0xffffff, MULTIPLIER ^ 2)


@functools.lru_cache
def beginning():
    """24 letters and digits that have one hash, whatever 8 bytes follow them."""
    for n in itertools.count():
        data = b'%016d' % n
        result = first_step(data).to_bytes(8, 'little')
        if result.isalnum():
            return (data + result).decode()


def colliding(count):
    """So many different texts of letters and digits that have one hash."""
    return ['%s%08d' % (beginning(), n) for n in range(count)]


def wrong_hashes():
    """Texts whose hash isn't the known one, and made ones that have another hash than the first."""
    made = colliding(1000)
    wanted = {**HASHES, **dict.fromkeys(made, hash_of(made[0]))}
    return [text for text, known in wanted.items() if hash_of(text) != known]
