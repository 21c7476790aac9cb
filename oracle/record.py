#!/usr/bin/env python3
"""Records answers of the published crate in a file that a program without Rust can replay.

    oracle/record.py [FILE]             ask the crate and write FILE (default: crates/recorded/data/answers.bin)
    oracle/record.py --check [FILE]     ask the crate again; FILE must be the same byte for byte
    oracle/record.py --replay [FILE]    replay FILE with the model (model.py); no Rust is needed
    oracle/record.py --list [FILE]      one line for each record
    oracle/record.py --spoil [FILE]     change bytes of copies of FILE, all of which must be refused

Exit status: 0 good; 1 not; 2 usage; 77 the oracle is not built.

The file. All numbers are low byte first and no field is aligned.

    512 bytes  text that says how the file was made: begins "chowderyard answers 1\\n", filled
               with spaces, ends with a newline
      4 bytes  count of records
      4 bytes  length of the whole file
    records    one after another
      4 bytes  check number over all bytes before it

A record is 32 bytes of head and three buffers:

    0  call: 0 encode, 1 encode_deltas, 2 decode, 3 decode_deltas, 4 data_len, 5 skip_deltas
    1  coder: 0 1234, 1 0124, 2 1248
    2  count of values (2 bytes), at most 160
    4  count of tags (2 bytes), at most 40
    6  count of data bytes (2 bytes), at most 1,320
    8  start (8 bytes; 0 where the call has none)
   16  the answer's count (8 bytes)
   24  the answer's sum (8 bytes; 0 where the call has none)
   32  values (4 bytes each for 1234 and 0124, 8 for 1248), then tags, then data

Encoding (0, 1): values are the input; tags and data are the output, whose count is the answer's
count. Lend as many tag bytes as there are tags and 16 bytes of data a group (1248: 32), filled
with something; what lies behind the written data must keep it. Decoding (2, 3): tags and data,
often with bytes behind, are the input, values the output. data_len (4): tags only. Skipping (5):
tags and data. All calls were accepted.

The check number starts at 0 and becomes (257 * it + byte + 1) % 4294967291 with each byte. The
modulus is a prime and divides neither 257 nor a difference of two bytes, so that any change of
one byte changes it; and it needs no more than 64-bit numbers.

What is recorded: each call of each coder with 0, 1, 2, 7, 8, 9, 15, 16, 17, 25 and 40 groups,
around the ends of the eight-tag stage; the decoders and skipping with as many bytes behind as
lead to another stage for the last groups, and one less (the slack is 12, 16, 28); fields wider
than needed; every tag byte of every coder; all boundary values.
"""

import hashlib
import os
import sys

sys.dont_write_bytecode = True
import compare  # noqa: E402
import model    # noqa: E402

HERE = os.path.dirname(os.path.abspath(__file__))
CALLS = ("encode", "encode_deltas", "decode", "decode_deltas", "data_len", "skip_deltas")
CODERS = ("1234", "0124", "1248")
SLACK = {"1234": 12, "0124": 16, "1248": 28}
SEED = 1
TEXT = 512
PRIME = 4294967291
GROUPS = (0, 1, 2, 7, 8, 9, 15, 16, 17, 25, 40)


class Draw:
    """splitmix64, so that the file does not depend on the Python that makes it."""

    def __init__(self, seed):
        self.state = seed

    def next(self):
        m = 2 ** 64
        self.state = (self.state + 0x9E3779B97F4A7C15) % m
        z = self.state
        z = (z ^ z >> 30) * 0xBF58476D1CE4E5B9 % m
        z = (z ^ z >> 27) * 0x94D049BB133111EB % m
        return z ^ z >> 31

    def below(self, n):
        return self.next() * n >> 64

    def pick(self, items):
        return items[self.below(len(items))]

    def bytes(self, n):
        return bytes(self.below(256) for _ in range(n))


def of_any_width(d, coder):
    f, w = d.below(4), model.WIDTHS[coder]
    least = 256 ** w[f - 1] if f else 0
    return least + (d.next() * (256 ** w[f] - least) >> 64)


def boundary(d, coder):
    return d.pick([b for b in compare.BOUNDARIES if b < model.modulus(coder)])


def column(d, coder, groups, style):
    """A start and values: 0 every width, 1 boundaries, 2 steps of every width, 3 small steps,
    4 steps that wrap, 5 steps of boundaries."""
    m = model.modulus(coder)
    start = (0, boundary(d, coder), d.below(m), m - 1)[d.below(4)]
    if style == 4:
        start = (m - 2, 1)[d.below(2)]
    last, values = start, []
    for _ in range(4 * groups):
        last = {0: lambda: of_any_width(d, coder),
                1: lambda: boundary(d, coder),
                2: lambda: last + of_any_width(d, coder),
                3: lambda: last + d.below(4),
                4: lambda: last + d.below(7) - 3,
                5: lambda: last + boundary(d, coder)}[style]() % m
        values.append(last)
    return start, values


def free_pair(d, coder, tags):
    """Data for these tags, with many zeros, so that fields are wider than needed."""
    zeros = d.below(4)
    return bytes(0 if d.below(4) < zeros else d.below(256)
                 for _ in range(model.total(coder, tags)))


def stage_ends(coder, tags):
    """Counts of bytes behind the data at which another stage takes the last groups, and one less:
    the slack behind the last eight tags, and a whole group's room at the last tag."""
    room = 4 * model.SIZE[coder]
    ends = {0, SLACK[coder] - 1, SLACK[coder]}
    if len(tags) >= 8:
        behind = model.total(coder, tags[len(tags) // 8 * 8:])
        ends |= {SLACK[coder] - behind - 1, SLACK[coder] - behind}
    if tags:
        ends |= {room - model.total(coder, tags[-1:]) - 1, room - model.total(coder, tags[-1:])}
    return sorted(e for e in ends if 0 <= e <= 40)


def requests():
    """call, coder, start, values, tags, data: what the buffers hold before the call."""
    d = Draw(SEED)
    turn = 0
    for coder in CODERS:
        room = 4 * model.SIZE[coder]
        m = model.modulus(coder)
        slack = SLACK[coder]

        def read(call, start, tags, data):
            values = [] if call == "skip_deltas" else [m - 1] * 4 * len(tags)
            return call, coder, start, values, tags, data

        for groups in GROUPS:
            for call in ("encode", "encode_deltas"):
                # A column by its values for the plain call, by its steps for the other.
                style = (0, 1)[turn % 2] if call == "encode" else (2, 3, 4, 5)[turn // 2 % 4]
                turn += 1
                start, values = column(d, coder, groups, style)
                if call == "encode":
                    start = 0
                yield call, coder, start, values, bytes([238] * groups), \
                    bytes([238] * room * groups)
                numbers = values if call == "encode" else model.steps(coder, start, values)
                tags, data = model.pack(coder, numbers)
                extras = stage_ends(coder, tags) + [slack + 1 + d.below(40 - slack)]
                if groups > 17:
                    extras = extras[turn % 3::3]
                back = call.replace("en", "de", 1)
                for k, extra in enumerate(extras):
                    more = data + d.bytes(extra)
                    # With few groups all of them; with many every other one.
                    if groups < 9 or k % 2 == turn % 2:
                        yield read(back, start, tags, more)
                    if call == "encode_deltas":
                        yield read("skip_deltas", 0, tags, more)
                yield "data_len", coder, 0, [], tags, b""
        for style in range(6):
            groups = 3 + d.below(6)
            start, values = column(d, coder, groups, style)
            for call in ("encode", "encode_deltas"):
                yield call, coder, start if call == "encode_deltas" else 0, values, \
                    bytes([238] * groups), bytes([238] * room * groups)
        # Every tag byte, in a drawn order, 32 a record.
        order = list(range(256))
        for i in range(255, 0, -1):
            j = d.below(i + 1)
            order[i], order[j] = order[j], order[i]
        for at in range(0, 256, 32):
            tags = bytes(order[at:at + 32])
            data = free_pair(d, coder, tags) + d.bytes((0, slack - 1, slack, 40)[at // 32 % 4])
            yield read("decode" if at % 64 else "decode_deltas",
                       0 if at % 64 else d.below(m), tags, data)
            yield read("skip_deltas", 0, tags, data)
            yield "data_len", coder, 0, [], tags, b""
        # Each of the four fields all through, just before and at the slack.
        for tag in (0x00, 0x55, 0xAA, 0xFF):
            tags = bytes([tag] * 9)
            for extra in (0, slack):
                yield read("decode", 0, tags, free_pair(d, coder, tags) + d.bytes(extra))


def answers():
    """The requests with the crate's answers, as records."""
    asked = list(requests())
    lines = [compare.line(*q) for q in asked]
    out = []
    for (call, coder, start, values, tags, data), reply in zip(asked, compare.ask("rust", lines)):
        words = reply.split(" ")
        if words[0] != "ok":
            sys.exit(f"record.py: {call} {coder} is not accepted: {reply}")
        count, total = int(words[1]), int(words[2])
        size = model.SIZE[coder]
        after = [b"" if w == "-" else bytes.fromhex(w) for w in words[3:]]
        if call.startswith("encode"):
            after[2] = after[2][:count]
        else:
            assert (after[1], after[2]) == (tags, data)
        assert len(after[0]) % size == 0
        out.append(bytes([CALLS.index(call), CODERS.index(coder)])
                   + (len(after[0]) // size).to_bytes(2, "little")
                   + len(after[1]).to_bytes(2, "little") + len(after[2]).to_bytes(2, "little")
                   + start.to_bytes(8, "little") + count.to_bytes(8, "little")
                   + total.to_bytes(8, "little") + b"".join(after))
    return out


def check_number(raw):
    h = 0
    for b in raw:
        h = (257 * h + b + 1) % PRIME
    return h


def made():
    records = answers()
    with open(os.path.join(HERE, "source.sha256"), "rb") as f:
        source = hashlib.sha256(f.read()).hexdigest()
    text = ("chowderyard answers 1\n"
            "Answers of the Rust crate streamvbyte64 0.2.0, scalar engine, recorded by\n"
            f"oracle/record.py (seed {SEED}), which also says how this file is laid out.\n"
            "The crate's source is the files that oracle/source.sha256 lists; that list's sha256 is\n"
            f"{source}\n"
            f"{len(records)} records; each call, coder and field width; 0 to 40 groups.\n"
            ).encode("ascii")
    assert len(text) < TEXT
    raw = text + b" " * (TEXT - 1 - len(text)) + b"\n"
    body = b"".join(records)
    raw += len(records).to_bytes(4, "little") + (TEXT + 12 + len(body)).to_bytes(4, "little") + body
    return raw + check_number(raw).to_bytes(4, "little")


class Damaged(Exception):
    pass


def parse(raw):
    """The records of a file, or Damaged."""
    def need(good, why):
        if not good:
            raise Damaged(why)
    need(len(raw) >= TEXT + 12, "too short")
    need(int.from_bytes(raw[-4:], "little") == check_number(raw[:-4]), "check number")
    need(raw.startswith(b"chowderyard answers 1\n"), "no such file")
    count = int.from_bytes(raw[TEXT:TEXT + 4], "little")
    need(int.from_bytes(raw[TEXT + 4:TEXT + 8], "little") == len(raw), "length")
    at, out = TEXT + 8, []
    for _ in range(count):
        need(at + 32 <= len(raw) - 4, "a record is cut")
        h = raw[at:at + 32]
        need(h[0] < 6 and h[1] < 3, "call or coder")
        coder = CODERS[h[1]]
        nv, nt, nd = (int.from_bytes(h[i:i + 2], "little") for i in (2, 4, 6))
        need(nv <= 160 and nt <= 40 and nd <= 1320, "counts")
        size = model.SIZE[coder]
        v, t = at + 32, at + 32 + size * nv
        end = t + nt + nd
        need(end <= len(raw) - 4, "a record is cut")
        out.append((CALLS[h[0]], coder, int.from_bytes(h[8:16], "little"),
                    [int.from_bytes(raw[i:i + size], "little") for i in range(v, t, size)],
                    raw[t:t + nt], raw[t + nt:end],
                    int.from_bytes(h[16:24], "little"), int.from_bytes(h[24:32], "little")))
        at = end
    need(at == len(raw) - 4, "bytes behind the last record")
    return out


def replay(record):
    """Whether the model gives the recorded answer."""
    call, coder, start, values, tags, data, count, total = record
    if call.startswith("encode"):
        room = bytes([238] * model.SIZE[coder] * len(values))
        lent = bytes([238] * len(tags))
        got = model.encode(coder, values, lent, room) if call == "encode" else \
            model.encode_deltas(coder, start, values, lent, room)
        want = model.Answer(0, count, total, values, tags, data + room[len(data):])
    elif call.startswith("decode"):
        lent = [7] * len(values)
        got = model.decode(coder, tags, data, lent) if call == "decode" else \
            model.decode_deltas(coder, start, tags, data, lent)
        want = model.Answer(0, count, total, values, tags, data)
    elif call == "data_len":
        got, want = model.data_len(coder, tags), model.Answer(0, count, total, [], tags, b"")
    else:
        got = model.skip_deltas(coder, tags, data)
        want = model.Answer(0, count, total, [], tags, data)
    return got == want and (count == len(data) if call.startswith("encode") else True)


def main():
    words = sys.argv[1:]
    how = words.pop(0) if words and words[0].startswith("--") else ""
    if how not in ("", "--check", "--replay", "--list", "--spoil") or len(words) > 1:
        print(__doc__.split("\n\n")[1], file=sys.stderr)
        sys.exit(2)
    path = words[0] if words else os.path.join(os.path.dirname(HERE), "crates", "recorded", "data", "answers.bin")
    if how == "":
        raw = made()
        with open(path, "wb") as f:
            f.write(raw)
        print(f"{len(parse(raw))} records, {len(raw)} bytes, check number {check_number(raw[:-4])}")
        return
    with open(path, "rb") as f:
        raw = f.read()
    if how == "--check":
        if made() != raw:
            print("record.py: the crate's answers are not the recorded ones")
            sys.exit(1)
        print("the crate's answers are the recorded ones, byte for byte")
        return
    try:
        records = parse(raw)
    except Damaged as why:
        print(f"answers damaged: {why}")
        sys.exit(1)
    if how == "--list":
        for call, coder, start, values, tags, data, count, total in records:
            print(f"{call} {coder} start {start} values {len(values)} tags {len(tags)} "
                  f"data {len(data)} count {count} sum {total}")
    elif how == "--replay":
        bad = [k for k, r in enumerate(records) if not replay(r)]
        print(f"replayed {len(records)} bad {len(bad)}")
        sys.exit(1 if bad else 0)
    else:
        # The counts, a record's head, the check number; a place in every few thousand elsewhere.
        places = [*range(TEXT, TEXT + 40), *range(len(raw) - 4, len(raw)),
                  *range(0, len(raw), 4999)]
        kept = 0
        for k, at in enumerate(places):
            spoilt = bytearray(raw)
            spoilt[at] = (spoilt[at] + 1 + 37 * k % 255) % 256
            try:
                parse(bytes(spoilt))
                kept += 1
            except Damaged:
                pass
        for spoilt in (raw[:-1], raw + b"\0", raw[:TEXT + 8] + raw[-4:], b""):
            try:
                parse(spoilt)
                kept += 1
            except Damaged:
                pass
        print(f"{len(places) + 4} changed copies, {kept} of them not refused")
        sys.exit(1 if kept else 0)


if __name__ == "__main__":
    main()
