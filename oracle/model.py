#!/usr/bin/env python3
"""A small model of the packed form and its calls, written from document 01 and from no code.

    import model
    model.encode("1234", values, tags, data)          -> Answer
    model.encode_deltas("1234", start, values, tags, data)
    model.decode("1234", tags, data, values)
    model.decode_deltas("1234", start, tags, data, values)
    model.data_len("1234", tags)
    model.skip_deltas("1234", tags, data)
    model.tightness("1234", tags, data)               -> Tight

The coder is "1234", "0124" or "1248". Buffers are lists of numbers or bytes-like; none is
changed: an Answer carries the buffers after the call (`values`, `tags`, `data`), the refusal
number (0: accepted), the count and the sum.

Run as a program it runs document 01's examples and some laws, and prints how many held.
"""

import sys
from collections import namedtuple

WIDTHS = {"1234": (1, 2, 3, 4), "0124": (0, 1, 2, 4), "1248": (1, 2, 4, 8)}
SIZE = {"1234": 4, "0124": 4, "1248": 8}
MOST_GROUPS = 16_777_216

Answer = namedtuple("Answer", "number count sum values tags data")
Tight = namedtuple("Tight", "number loose group position")


def modulus(coder):
    return 256 ** SIZE[coder]


def fields(tag):
    """The four fields of a tag: number i owns bits 2i and 2i + 1."""
    return [tag >> 2 * i & 3 for i in range(4)]


def widths(coder, tag):
    return [WIDTHS[coder][f] for f in fields(tag)]


def total(coder, tags):
    """The sum of four widths per tag, with no check."""
    lengths = _lengths(coder)
    return sum(lengths[t] for t in tags)


def _lengths(coder, cache={}):
    if coder not in cache:
        cache[coder] = [sum(widths(coder, t)) for t in range(256)]
    return cache[coder]


def shortest(coder, number):
    """The field of the smallest width that holds the number."""
    for f, w in enumerate(WIDTHS[coder]):
        if number < 256 ** w:
            return f
    raise ValueError("wider than the coder's numbers")


def stored(coder, tags, data):
    """The stored numbers, one after another; the data must be long enough."""
    out, at = [], 0
    for tag in tags:
        for w in widths(coder, tag):
            out.append(int.from_bytes(data[at:at + w], "little"))
            at += w
    return out


def steps(coder, start, values):
    m, out, before = modulus(coder), [], start
    for v in values:
        out.append((v - before) % m)
        before = v
    return out


def walk(coder, start, numbers):
    m, out, last = modulus(coder), [], start
    for d in numbers:
        last = (last + d) % m
        out.append(last)
    return out


def pack(coder, numbers):
    """Tags and data of whole groups of stored numbers."""
    tags, data = bytearray(), bytearray()
    for g in range(0, len(numbers), 4):
        tag = 0
        for i, n in enumerate(numbers[g:g + 4]):
            f = shortest(coder, n)
            tag += f << 2 * i
            data += n.to_bytes(WIDTHS[coder][f], "little")
        tags.append(tag)
    return bytes(tags), bytes(data)


# The rows of the refusal table, in their order, as each call knows them.

def encode_refusal(coder, values, tags, data):
    groups = len(values) // 4
    if len(values) % 4 != 0:
        return 1
    if groups > MOST_GROUPS:
        return 2
    if len(tags) < groups:
        return 3
    if len(data) < 4 * SIZE[coder] * groups:
        return 4
    return 0


def decode_refusal(coder, tags, data, values):
    groups = len(values) // 4
    if len(values) % 4 != 0:
        return 1
    if groups > MOST_GROUPS or len(tags) > MOST_GROUPS:
        return 2
    if len(tags) != groups:
        return 5
    if total(coder, tags) > len(data):
        return 6
    return 0    # 7 needs more than is there although 6 says enough is there: never


def skip_refusal(coder, tags, data):
    if len(tags) > MOST_GROUPS:
        return 2
    if total(coder, tags) > len(data):
        return 6
    return 0


def _refused(number, values, tags, data):
    return Answer(number, 0, 0, list(values), bytes(tags), bytes(data))


def _encode(coder, numbers, values, tags, data):
    number = encode_refusal(coder, values, tags, data)
    if number:
        return _refused(number, values, tags, data)
    new_tags, new_data = pack(coder, numbers())
    return Answer(0, len(new_data), 0, list(values),
                  new_tags + bytes(tags[len(new_tags):]),
                  new_data + bytes(data[len(new_data):]))


def encode(coder, values, tags, data):
    return _encode(coder, lambda: values, values, tags, data)


def encode_deltas(coder, start, values, tags, data):
    return _encode(coder, lambda: steps(coder, start, values), values, tags, data)


def _decode(coder, numbers, tags, data, values):
    number = decode_refusal(coder, tags, data, values)
    if number:
        return _refused(number, values, tags, data)
    return Answer(0, total(coder, tags), 0, numbers(stored(coder, tags, data)),
                  bytes(tags), bytes(data))


def decode(coder, tags, data, values):
    return _decode(coder, lambda n: n, tags, data, values)


def decode_deltas(coder, start, tags, data, values):
    return _decode(coder, lambda n: walk(coder, start, n), tags, data, values)


def data_len(coder, tags):
    if len(tags) > MOST_GROUPS:
        return _refused(2, [], tags, b"")
    return Answer(0, total(coder, tags), 0, [], bytes(tags), b"")


def skip_deltas(coder, tags, data):
    number = skip_refusal(coder, tags, data)
    if number:
        return _refused(number, [], tags, data)
    numbers = stored(coder, tags, data)
    return Answer(0, total(coder, tags), sum(numbers) % modulus(coder), [],
                  bytes(tags), bytes(data))


def tightness(coder, tags, data):
    number = skip_refusal(coder, tags, data)
    if number:
        return Tight(number, False, 0, 0)
    numbers = stored(coder, tags, data)
    for g, tag in enumerate(tags):
        for i, f in enumerate(fields(tag)):
            if f != shortest(coder, numbers[4 * g + i]):
                return Tight(0, True, g, i)
    return Tight(0, False, 0, 0)


# ------------------------------------------------------------------------------- self-test

def _selftest():
    done = [0]

    def same(what, got, want):
        done[0] += 1
        if got != want:
            print(f"model.py: {what}: got {got}, want {want}")
            sys.exit(1)

    H = bytes.fromhex
    held = 0xEE

    def room(n):
        return bytes([held] * n)

    def encodes(what, answer, tags, data):
        tags, data = H(tags), H(data)
        same(what, (answer.number, answer.count, answer.sum), (0, len(data), 0))
        same(what, answer.tags[:len(tags)], tags)
        same(what, answer.data[:len(data)], data)
        same(what, set(answer.tags[len(tags):]) | set(answer.data[len(data):]) | {held}, {held})

    # The starred examples.
    a = encode("1234", [0, 255, 256, 65536], room(2), room(20))
    encodes("*1234", a, "90", "00FF0001000001")
    a = encode("0124", [0, 255, 256, 65536], room(2), room(20))
    encodes("*0124", a, "E4", "FF000100000100")
    a = encode("1248", [0, 256, 65536, 4294967296], room(2), room(40))
    encodes("*1248", a, "E4", "000001000001000000000001000000")
    labels = [1799, 1802, 1803, 1804]
    a = encode_deltas("0124", 1798, labels, room(1), room(16))
    encodes("*0124 deltas", a, "55", "01030101")
    a = skip_deltas("0124", H("55"), H("01030101"))
    same("*skip", (a.number, a.count, a.sum), (0, 4, 6))
    a = decode_deltas("0124", 1798, H("55"), H("01030101"), [9] * 4)
    same("0124 deltas back", (a.number, a.count, a.values), (0, 4, labels))
    a = encode_deltas("0124", 5, [4, 4, 4, 4], room(1), room(16))
    encodes("*0124 wrapping", a, "03", "FFFFFFFF")
    a = skip_deltas("0124", H("03"), H("FFFFFFFF"))
    same("*skip", (a.number, a.count, a.sum), (0, 4, 4294967295))
    a = decode("0124", H("00"), b"", [7] * 4)
    same("*0124 tag 00", (a.number, a.count, a.values), (0, 0, [0, 0, 0, 0]))
    fives = H("05000000" * 4)
    a = decode("1234", H("FF"), fives, [7] * 4)
    same("*1234 tag FF", (a.number, a.count, a.values), (0, 16, [5, 5, 5, 5]))
    same("*loose", tightness("1234", H("FF"), fives), Tight(0, True, 0, 0))
    for tag, want in (("E4", (10, 7, 15)), ("FF", (16, 16, 32)), ("00", (4, 0, 4))):
        for coder, n in zip(("1234", "0124", "1248"), want):
            a = data_len(coder, H(tag))
            same(f"*length of {tag}", (a.number, a.count, a.sum), (0, n, 0))
    for n, want in ((6, (6, 0)), (7, (0, 7)), (8, (0, 7))):
        d = H("00FF000100000155")[:n]
        a = decode("1234", H("90"), d, [7] * 4)
        same(f"*tag 90, {n} bytes", (a.number, a.count), want)
        same("values", a.values, [7] * 4 if n == 6 else [0, 255, 256, 65536])
        same("skip agrees", skip_deltas("1234", H("90"), d)[:2], want)
        same("tightness", tightness("1234", H("90"), d), Tight(want[0], False, 0, 0))

    # The other examples.
    for coder, size in (("1234", 16), ("0124", 16), ("1248", 32)):
        for n, want in ((size - 1, 4), (size, 0)):
            a = encode(coder, [1, 2, 3, 4], room(1), room(n))
            same(f"{coder} room {n}", a.number, want)
            if want:
                same("kept", (a.count, a.sum, a.tags, a.data), (0, 0, room(1), room(n)))
        for n in (3, 5):
            same(f"{n} values", encode(coder, [0] * n, room(2), room(64)).number, 1)
            same(f"{n} values", decode(coder, H("0000"), room(64), [0] * n).number, 1)
        a = encode(coder, [], b"", b"")
        same("no values", (a.number, a.count), (0, 0))
        for t in ("0000", ""):
            a = decode(coder, H(t), room(64), [7] * 4)
            same(f"four values, {len(t) // 2} tags", (a.number, a.values), (5, [7] * 4))
        same("three values, no tag room", encode(coder, [1, 2, 3], b"", room(64)).number, 1)
        same("no tags", skip_deltas(coder, b"", b"abc")[:3], (0, 0, 0))
        same("no tags", tightness(coder, b"", b"abc"), Tight(0, False, 0, 0))

        # Thresholds, each from below and at it.
        ups = {"1234": (256, 65536, 16777216), "0124": (1, 256, 65536),
               "1248": (256, 65536, 4294967296)}[coder]
        for f, at in enumerate(ups):
            same(f"{coder} below {at}", shortest(coder, at - 1), f)
            same(f"{coder} at {at}", shortest(coder, at), f + 1)
        same("largest", shortest(coder, modulus(coder) - 1), 3)

    # The group limit and the largest answers.
    many = bytes([255]) * (MOST_GROUPS + 1)
    for coder, most in (("1234", 268435456), ("0124", 268435456), ("1248", 536870912)):
        same("limit", data_len(coder, many[:-1])[:2], (0, most))
        same("above", data_len(coder, many)[:2], (2, 0))
        same("above", skip_refusal(coder, many, b""), 2)
        same("above", decode_refusal(coder, many, b"", range(4)), 2)
        same("above", decode_refusal(coder, b"", b"", range(4 * MOST_GROUPS + 4)), 2)
        same("above, ragged", decode_refusal(coder, many, b"", range(3)), 1)
        same("above", encode_refusal(coder, range(4 * MOST_GROUPS + 4), b"", b""), 2)
        same("at it", encode_refusal(coder, range(4 * MOST_GROUPS), b"", b""), 3)
    print(f"model.py: {done[0]} checks, 0 failed")


if __name__ == "__main__":
    _selftest()
