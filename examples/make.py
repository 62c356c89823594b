#!/usr/bin/env python3
"""Makes the example drive files anew, by the format in docs/drive-file.md. Run it in this folder.

It is an independent writer of the format, kept for the examples; nothing in the product depends on it.
"""
import struct

STROKE, ROLL, ENVELOPE = 1, 2, 3
SERIAL, KOGGE_STONE = 1, 2


def block(kind, number, count, payload):
    body = struct.pack("<HHHH", kind, number, count, 0) + payload.ljust(502, b"\0")
    words = struct.unpack("<255H", body)
    check = sum((i + 1) * w for i, w in enumerate(words)) % 65521
    return body + struct.pack("<H", check)


def parts(items, size):
    return [items[i : i + size] for i in range(0, len(items), size)]


def drive(section, k, network, workers, start, first, second, samples, turns):
    def word(x):
        return x & 0xFFFFFFFF

    header = struct.pack(
        "<BBBBIIIII", section, k, network, workers, len(samples), len(turns), word(start), word(first), word(second)
    )
    blocks = [block(1, 0, 0, header)]
    for part in parts(samples, 125):
        blocks.append(block(2, len(blocks), len(part), b"".join(struct.pack("<I", word(x)) for x in part)))
    for part in parts(turns, 500):
        blocks.append(block(3, len(blocks), len(part), bytes(part)))
    return b"".join(blocks)


def made_up(n, seed):
    """n words of a congruential generator."""
    words, x = [], seed
    for _ in range(n):
        x = (1664525 * x + 1013904223) % 2**32
        words.append(x)
    return words


TUNNEL = drive(STROKE, 2, SERIAL, 2, 0, -10, 10, [7, 6, -15, -9, 4], [0, 1, 1, 1, 0, 1, 1, 1, 1, 0, 0, 0])


def main():
    files = {
        "tunnel": TUNNEL,
        # an unsigned recursion that wraps modulo 2^32
        "roll": drive(ROLL, 3, KOGGE_STONE, 3, 1, 3, 0, [5, 4294967295, 0, 7, 2147483648, 1], [0, 1, 2, 0, 1, 2]),
        # a thrust that rises, decays and rises again
        "envelope": drive(ENVELOPE, 2, KOGGE_STONE, 4, 0, 2, 0, [10, 3, 9, -40, -40, 12, 0, 0, 0], []),
        # no samples and no turns: the header is the whole file
        "no-samples": drive(STROKE, 6, SERIAL, 8, 5, -1073741824, 1073741824, [], []),
        # three blocks of samples and two of turns
        "long": drive(
            STROKE, 4, KOGGE_STONE, 8, 0, -1000, 1000,
            [x % 401 - 200 for x in made_up(300, 0)], [x // 2**24 % 8 for x in made_up(700, 300)],
        ),
        # the tunnel case with a bit of its first sample flipped
        "damaged": TUNNEL[:520] + bytes([TUNNEL[520] ^ 1]) + TUNNEL[521:],
    }
    for name, content in files.items():
        with open(f"{name}.drive", "wb") as f:
            f.write(content)


if __name__ == "__main__":
    main()
