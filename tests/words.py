#!/usr/bin/env python3
"""Writes crates/words/stdin and crates/words/stdout: sealed words of every kind by another implementation (hmac, hashlib and the package cryptography),
and what the program `words` must say of them: what is read, whether it seals to the same bytes again, and by which number each
flipped bit and each cut is refused. Run it at the root of the repository: tests/words.py"""
import hashlib, hmac
from cryptography.hazmat.primitives.ciphers import Cipher
from cryptography.hazmat.primitives.ciphers.algorithms import ChaCha20


def mac(key, text): return hmac.new(key, text, hashlib.sha256).digest()
def turn(key, nonce, text): return Cipher(ChaCha20(key, bytes(4) + nonce), mode=None).encryptor().update(text) if text else b""
def eight(n): return n.to_bytes(8, "big")
def talk(pair, s, t): return mac(pair, eight(min(s, t)) + eight(max(s, t)))


def seal(key, k, a, e, field, nonce, inside):
    body = bytes([k, a, e]) + field + turn(mac(key, bytes([k, a, e])), nonce, inside)
    return body + mac(key, b"\xff" + body)[:16]


def handshake(pair, k, a, e, drawn, first, second): return seal(pair, k, a, e, drawn, drawn[:12], eight(first) + eight(second))
def in_talk(pair, k, a, e, m, h, n, inside): return seal(talk(pair, m, h), k, a, e, eight(h) + eight(n), bytes(4) + eight(n), inside)


# What gate own reads of a word, with a key with one peer and one talk: a refusal's number, or a text.
def read(w, pair, own, peer, mine, theirs):
    if len(w) < 1 or w[0] not in (1, 2, 3, 4) or not {1: len(w) == 51, 2: len(w) == 51, 3: len(w) >= 35, 4: len(w) == 35}[w[0]]: return 1
    if w[2] != own or w[1] != peer: return 2
    head, sum = bytes(w[:3]), w[-16:]
    if w[0] < 3:
        if mac(pair, b"\xff" + w[:-16])[:16] != sum: return 3
        inside = turn(mac(pair, head), w[3:15], w[19:35])
        first, second = int.from_bytes(inside[:8], "big"), int.from_bytes(inside[8:], "big")
        if first == 0 or (w[0] == 2 and second == 0): return 4
        return "%s %d %d" % ("hello" if w[0] == 1 else "reply", first, second)
    tag, number = int.from_bytes(w[3:11], "big"), int.from_bytes(w[11:19], "big")
    if tag == 0: return 4
    if tag != mine: return 7
    key = talk(pair, mine, theirs)
    if mac(key, b"\xff" + w[:-16])[:16] != sum: return 3
    if w[0] == 4: return "empty %d" % number
    if len(w) - 35 > 1280: return "oversize %d" % number
    return "packet %d " % number + turn(mac(key, head), bytes(4) + w[11:19], w[19:-16]).hex()


# One line for each run of equal numbers.
def runs(out, label, what, numbers):
    start = 0
    for i in range(1, len(numbers) + 1):
        if i == len(numbers) or numbers[i] != numbers[start]:
            out.append("%s %s %d to %d: refused %d" % (label, what, start, i - 1, numbers[start]))
            start = i


pair = bytes((7 * i + 5) % 256 for i in range(32))
drawn = bytes((29 * i + 3) % 256 for i in range(16))
data = lambda n: bytes((13 * i + 1) % 256 for i in range(n))
big = 2 ** 64 - 1
whole = [  # label, word, own, peer, mine, theirs
    ("hello", handshake(pair, 1, 3, 1, drawn, 5, 7), 1, 3, 9, 5),
    ("hello-largest", handshake(pair, 1, 31, 0, bytes(16), big, big), 0, 31, 9, 5),
    ("reply", handshake(pair, 2, 1, 3, drawn[::-1], 9, 5), 3, 1, 5, 9),
    ("packet", in_talk(pair, 3, 3, 1, 5, 9, 1, data(60)), 1, 3, 9, 5),
    ("packet-back", in_talk(pair, 3, 1, 3, 9, 5, 2 ** 32 - 1, data(61)), 3, 1, 5, 9),
    ("packet-of-nothing", in_talk(pair, 3, 3, 1, 5, 9, 2, b""), 1, 3, 9, 5),
    ("packet-of-one", in_talk(pair, 3, 3, 1, 5, 9, 3, b"\0"), 1, 3, 9, 5),
    ("packet-longest", in_talk(pair, 3, 3, 1, big, 1, big, data(1280)), 1, 3, 1, big),
    ("empty", in_talk(pair, 4, 3, 1, 5, 9, 4, b""), 1, 3, 9, 5),
]
other = [  # not sealed again
    ("oversize", in_talk(pair, 3, 3, 1, 5, 9, 6, data(1281)), 1, 3, 9, 5),
    ("oversize-of-more-than-the-cipher-turns", in_talk(pair, 3, 3, 1, 5, 9, 6, data(70000)), 1, 3, 9, 5),
    ("number-of-0", in_talk(pair, 3, 3, 1, 5, 9, 0, data(20)), 1, 3, 9, 5),
    ("hello-of-tag-0", handshake(pair, 1, 3, 1, drawn, 0, 7), 1, 3, 9, 5),
    ("reply-of-tag-0", handshake(pair, 2, 3, 1, drawn, 0, 7), 1, 3, 9, 5),
    ("reply-to-tag-0", handshake(pair, 2, 3, 1, drawn, 7, 0), 1, 3, 9, 5),
    ("packet-for-tag-0", in_talk(pair, 3, 3, 1, 5, 0, 1, data(20)), 1, 3, 9, 5),
    ("empty-for-tag-0", in_talk(pair, 4, 3, 1, 5, 0, 1, b""), 1, 3, 9, 5),
    ("packet-of-another-talk", in_talk(pair, 3, 3, 1, 5, 8, 1, data(20)), 1, 3, 9, 5),
    ("packet-of-another-maker's-tag", in_talk(pair, 3, 3, 1, 6, 9, 1, data(20)), 1, 3, 9, 5),
    ("packet-for-another", in_talk(pair, 3, 3, 2, 5, 9, 1, data(20)), 1, 3, 9, 5),
    ("packet-by-another", in_talk(pair, 3, 4, 1, 5, 9, 1, data(20)), 1, 3, 9, 5),
    ("packet-of-mine", in_talk(pair, 3, 1, 3, 9, 5, 1, data(20)), 1, 3, 9, 5),
    ("hello-under-another-key", handshake(bytes(32), 1, 3, 1, drawn, 5, 7), 1, 3, 9, 5),
    ("empty-with-an-inside", in_talk(pair, 4, 3, 1, 5, 9, 4, b"\1"), 1, 3, 9, 5),
    ("nothing", b"", 1, 3, 9, 5),
]
stdin, stdout = [], []
for turned, table in (("whole", whole), ("other", other)):
    for label, w, own, peer, mine, theirs in table:
        stdin.append("%s %s %s %d %d %d %d %s" % (turned, label, pair.hex(), own, peer, mine, theirs, w.hex()))
        got = read(w, pair, own, peer, mine, theirs)
        stdout.append("%s refused %d" % (label, got) if isinstance(got, int) else "%s %s" % (label, got))
        if turned == "other": continue
        stdout.append("%s seals to the same bytes" % label)
        flipped = []
        for i in range(8 * len(w)):
            v = bytearray(w)
            v[i // 8] ^= 1 << (i % 8)
            flipped.append(read(bytes(v), pair, own, peer, mine, theirs))
        runs(stdout, label, "flips", flipped)
        runs(stdout, label, "cuts", [read(w[:n], pair, own, peer, mine, theirs) for n in range(len(w))])
open("crates/words/stdin", "w").write("\n".join(stdin) + "\n")
open("crates/words/stdout", "w").write("\n".join(stdout) + "\n")
