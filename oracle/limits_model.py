#!/usr/bin/env python3
"""Prints crates/limits/stdout: what the rules say of stream states made by hand.

A second writing of the rules, by the sentences of crates/*/specs and not by the code: one byte at a time, with
whole numbers that never wrap. It shares with crates/limits only the list of states and of writes tried on them.
"""

from copy import deepcopy
from dataclasses import dataclass

DEFAULTS = [
    0x2D358DCCAA6C78A5, 0x8BB84B93962EACC9, 0x4B33A62ED433D4A3, 0x4D5A2DA51DE1AA47,
    0xA0761D6478BD642F, 0xE7037ED1A0B428DB, 0x90ED1765281C388C,
]
WORD = 2**64
CHUNK = 112
LONGEST = WORD - 1  # bytes that a stream may have


# Words, the folded multiply and the secrets


def word(data, at, size=8):
    """The least significant byte comes first."""
    return sum(byte * 256**place for place, byte in enumerate(data[at : at + size]))


def multiplied(a, b, protected):
    low, high = a * b % WORD, a * b // WORD
    return (low ^ a, high ^ b) if protected else (low, high)


def mixed(a, b, protected):
    low, high = multiplied(a, b, protected)
    return low ^ high


def repaired(x):
    """Three windows of 16 bits, none of which stays all zero."""
    for window, bit in ((48, 63), (24, 31), (0, 0)):
        if (x >> window) % 2**16 == 0:
            x |= 1 << bit
    return x


def premixed(x, i):
    return repaired(x ^ mixed(x ^ DEFAULTS[2], DEFAULTS[i], False))


def secrets_of(number):
    seed = premixed(number, 0)
    secrets = []
    for i in range(7):
        secrets.append(premixed(secrets[-1] if secrets else seed, i))
    return seed, secrets


# The hash


@dataclass
class Stream:
    seed: int
    secrets: list
    avalanche: bool
    protected: bool
    lanes: list
    count: int
    waiting: int
    buffer: list  # 16 bytes that end the previous chunk, then room for a chunk

    def rest(self):
        return self.buffer[16 : 16 + self.waiting]


def two_words(stream, data, at, secret, x):
    return mixed(word(data, at) ^ secret, word(data, at + 8) ^ x, stream.protected)


def tail(stream, data, x):
    """16 bytes at a time while more than 16 are left."""
    for step, turn in enumerate((2, 2, 1, 1, 2, 1)):
        if len(data) <= 16 * (step + 1):
            break
        x = two_words(stream, data, 16 * step, stream.secrets[turn], x)
    return x


def last_step(stream, a, b, seed, left):
    low, high = multiplied(a ^ stream.secrets[1], b ^ seed, stream.protected)
    if not stream.avalanche:
        return low ^ high
    return mixed(low ^ 0xAAAAAAAAAAAAAAAA, high ^ stream.secrets[1] ^ left, stream.protected)


def message_hash(stream, data):
    """Of a message that is no longer than a chunk, so that none is mixed."""
    n, seed = len(data), stream.seed
    if n == 0:
        return last_step(stream, 0, 0, seed, n)
    if n <= 3:
        return last_step(stream, data[0] << 45 | data[-1], data[n // 2], seed, n)
    if n <= 16:
        size = 4 if n <= 7 else 8
        return last_step(stream, word(data, 0, size), word(data, n - size, size), seed ^ n, n)
    return last_step(stream, word(data, n - 16) ^ n, word(data, n - 8), tail(stream, data, seed), n)


# The stream


def opening(seed, secrets, avalanche, protected):
    return Stream(seed, secrets, avalanche, protected, [seed] * 7, 0, 0, [0] * 128)


def is_sound(stream):
    before_first = stream.count == 0
    return (
        stream.waiting <= CHUNK
        and not (before_first and any(lane != stream.seed for lane in stream.lanes))
        and not (before_first and any(stream.buffer[:16]))
        and (before_first or stream.waiting >= 1)
        and not any(stream.buffer[16 + stream.waiting :])
        and CHUNK * stream.count + stream.waiting <= LONGEST
    )


def push(stream, byte):
    """A full chunk is mixed only now that a byte follows it."""
    if stream.waiting == CHUNK:
        chunk = stream.rest()
        stream.lanes = [
            two_words(stream, chunk, 16 * j, stream.secrets[j], lane) for j, lane in enumerate(stream.lanes)
        ]
        stream.count += 1
        stream.waiting = 0
        stream.buffer = chunk[-16:] + [0] * CHUNK
    stream.buffer[16 + stream.waiting] = byte
    stream.waiting += 1


def write(stream, data):
    """The next state, the number that comes back, and the room beside number 2."""
    if not is_sound(stream):
        return stream, 1, 0
    room = LONGEST - (CHUNK * stream.count + stream.waiting)
    if room < len(data):
        return stream, 2, room
    following = deepcopy(stream)
    for byte in data:
        push(following, byte)
    return following, 0, 0


def finish(stream):
    """The number that comes back, the hash and the count."""
    if not is_sound(stream):
        return 1, 0, 0
    rest = stream.rest()
    if stream.count == 0:
        return 0, message_hash(stream, rest), 0
    joined = 0
    for lane in stream.lanes:
        joined ^= lane
    end = (stream.buffer[:16] + rest)[-16:]
    n = len(rest)
    return 0, last_step(stream, word(end, 0) ^ n, word(end, 8), tail(stream, rest, joined), n), stream.count


def reset(stream):
    return opening(stream.seed, stream.secrets, stream.avalanche, stream.protected)


# The states and what is tried on them: as crates/limits/src has them

MOST = 164703072086692425
FILL = 251
MAX = WORD - 1


def message_byte(i):
    return (i * 197 + i // 3 * 59 + 7) % 255 + 1


MESSAGE = [message_byte(112 + i) for i in range(256)]


def made(protected, count, waiting, fill=0):
    state = opening(*secrets_of(0x0123456789ABCDEF), not protected, protected)
    step = fill * 0x0001000100010001
    state.lanes = [state.seed ^ step * (j + 1) for j in range(7)]
    state.count, state.waiting = count, waiting
    state.buffer = [fill // (i + 1) for i in range(16)]
    state.buffer += [message_byte(i) if i < waiting else 0 for i in range(112)]
    return state


# name, (count, waiting, filling), sizes written; then a lane's turned bits or a byte's place and value
TRIED = [
    ("opening", (0, 0), [0, 16, 17, 112, 113, 224, 225]),
    ("k0-m112", (0, 112), [0, 1, 112, 113]),
    ("k0-m113", (0, 113), [0, 1]),
    ("k0-mmax", (0, MAX), [0, 1]),
    ("k1-m113", (1, 113, FILL), [1]),
    ("k1-mmax", (1, MAX, FILL), [1]),
    ("k0-m20", (0, 20), [1]),
    ("k0-m20-lane-first", (0, 20), [1], "lane", 0, 1),
    ("k0-m20-lane-last", (0, 20), [1], "lane", 6, 2**63),
    ("k0-m20-before-first", (0, 20), [1], "byte", 0, 1),
    ("k0-m20-before-last", (0, 20), [1], "byte", 15, 128),
    ("k0-m0-lane-last", (0, 0), [0], "lane", 6, 1),
    ("k0-m0-before-last", (0, 0), [0], "byte", 15, 1),
    ("k1-m0", (1, 0, FILL), [0, 1]),
    ("k1-m0-plain", (1, 0), [0]),
    ("k1-m1", (1, 1, FILL), [0, 111, 112]),
    ("k1-m1-plain", (1, 1), [1]),
    ("k1-m15", (1, 15, FILL), [1]),
    ("k1-m16", (1, 16, FILL), [1]),
    ("k1-m17", (1, 17, FILL), [1]),
    ("k1-m112", (1, 112, FILL), [0, 1, 113]),
    ("k0-m0-behind-first", (0, 0), [0], "byte", 16, 1),
    ("k0-m0-behind-last", (0, 0), [0], "byte", 127, 1),
    ("k0-m20-used-zero", (0, 20), [1], "byte", 35, 0),
    ("k0-m20-behind-first", (0, 20), [1], "byte", 36, 1),
    ("k0-m20-behind-last", (0, 20), [1], "byte", 127, 1),
    ("k1-m20-used-zero", (1, 20, FILL), [1], "byte", 35, 0),
    ("k1-m20-behind-first", (1, 20, FILL), [1], "byte", 36, 128),
    ("k1-m20-behind-last", (1, 20, FILL), [1], "byte", 127, 128),
    ("k0-m111-behind-last", (0, 111), [1], "byte", 127, 1),
    ("k1-m111-behind-last", (1, 111, FILL), [1], "byte", 127, 1),
    ("k0-m112-all-used", (0, 112), [0], "byte", 127, 1),
    ("k1-m112-all-used", (1, 112, FILL), [0], "byte", 127, 1),
    ("most-m14", (MOST, 14, FILL), [0, 1, 2]),
    ("most-m15", (MOST, 15, FILL), [0, 1, 2]),
    ("under-m112", (MOST - 1, 112, FILL), [0, 15, 16]),
    ("under-m1", (MOST - 1, 1, FILL), [111, 112, 126, 127]),
    ("most-m0", (MOST, 0, FILL), [0]),
    ("most-m16", (MOST, 16, FILL), [0, 1]),
    ("most-m112", (MOST, 112, FILL), [0]),
    ("over-m1", (MOST + 1, 1, FILL), [0, 1]),
    ("wrap-m1", (2**60, 1, FILL), [0, 1]),
    ("max-m1", (MAX, 1, FILL), [0, 1]),
]

# name and state before a reset
RENEWED = [
    ("renewed-opening", (0, 0)),
    ("renewed-k0-m112", (0, 112)),
    ("renewed-k1-m112", (1, 112, FILL)),
    ("renewed-most-m15", (MOST, 15, FILL)),
    ("renewed-k0-mmax", (0, MAX)),
    ("renewed-k0-lane", (0, 20), "lane", 0, 1),
    ("renewed-k1-m0", (1, 0, FILL)),
    ("renewed-k1-behind", (1, 20, FILL), "byte", 127, 1),
    ("renewed-max-m1", (MAX, 1, FILL)),
]


def changed(state, what=None, at=0, value=0):
    if what == "lane":
        state.lanes[at] ^= value
    if what == "byte":
        state.buffer[at] = value
    return state


def place(state):
    return f"waiting {state.waiting} count {state.count}"


def shown_finish(name, state):
    number, value, count = finish(state)
    print(f"{name} finish {number} {value:016x} {count}")


def shown_write(name, flags, state, size):
    name = f"{name}+{size}{flags}"
    following, number, room = write(state, MESSAGE[:size])
    print(f"{name} write {number} {room} {place(following)}")
    print(f"{name} state {place(following)} first {following.buffer[16]}")
    shown_finish(name, following)


def main():
    for protected in (False, True):
        flags = "-protected" if protected else ""
        for name, state, sizes, *change in TRIED:
            state = changed(made(protected, *state), *change)
            print(f"{name}{flags} state {place(state)} first {state.buffer[16]}")
            shown_finish(name + flags, state)
            for size in sizes:
                shown_write(name, flags, state, size)
        for name, state, *change in RENEWED:
            renewed = reset(changed(made(protected, *state), *change))
            print(f"{name}{flags} reset {place(renewed)} first {renewed.buffer[16]}")
            shown_write(name, flags, renewed, 113)


if __name__ == "__main__":
    main()
