#!/usr/bin/env python3
"""Writes crates/vectors/stdout: what the program `vectors` must print, by another implementation (hashlib, hmac and the package cryptography).

The published values are held to it too: RFC 8439 2.3.2, 2.4.2, A.1, A.2; RFC 6234 8.5; RFC 4231 4.2 to 4.8.
Run it at the root of the repository: tests/vectors.py > crates/vectors/stdout"""
import hashlib, hmac
from cryptography.hazmat.primitives.ciphers import Cipher
from cryptography.hazmat.primitives.ciphers.algorithms import ChaCha20


def chacha(key, counter, nonce, text):
    return Cipher(ChaCha20(key, counter.to_bytes(4, "little") + nonce), mode=None).encryptor().update(text)


def sha(text): return hashlib.sha256(text).digest()
def mac(key, text): return hmac.new(key, text, hashlib.sha256).digest()


def say(name, value, published=""):
    assert value.hex().startswith(published.replace(" ", "").lower()), name
    print(name + ": " + value.hex())


zeros, ones = bytes(32), bytes(31) + b"\1"
count = bytes(range(32))
n232 = bytes.fromhex("000000090000004a00000000")
n242 = bytes.fromhex("000000000000004a00000000")
sunscreen = b"Ladies and Gentlemen of the class of '99: If I could offer you only one tip for the future, sunscreen would be it."
ietf = (b"Any submission to the IETF intended by the Contributor for publication as all or part of an IETF Internet-Draft or RFC and any statement made "
        b"within the context of an IETF activity is considered an \"IETF Contribution\". Such statements include oral statements in IETF sessions, as well as "
        b"written and electronic communications made at any time or place, which are addressed to")
jabber = b"'Twas brillig, and the slithy toves\nDid gyre and gimble in the wabe:\nAll mimsy were the borogoves,\nAnd the mome raths outgrabe."
jkey = bytes.fromhex("1c9240a5eb55d38af333888604f6b5f0473917c1402b80099dca5cbc207075c0")
two = bytes(11) + b"\2"

block = lambda key, counter, nonce: chacha(key, counter, nonce, bytes(64))
say("RFC 8439 2.3.2", block(count, 1, n232), "10 f1 e7 e4 d1 3b 59 15 50 0f dd 1f a3 20 71 c4")
say("RFC 8439 2.4.2", chacha(count, 1, n242, sunscreen), "6e 2e 35 9a 25 68 f9 80 41 ba 07 28 dd 0d 69 81")
say("RFC 8439 A.1 1", block(zeros, 0, bytes(12)), "76 b8 e0 ad a0 f1 3d 90 40 5d 6a e5 53 86 bd 28")
say("RFC 8439 A.1 2", block(zeros, 1, bytes(12)), "9f 07 e7 be 55 51 38 7a 98 ba 97 7c 73 2d 08 0d")
say("RFC 8439 A.1 3", block(ones, 1, bytes(12)), "3a eb 52 24 ec f8 49 92 9b 9d 82 8d b1 ce d4 dd")
say("RFC 8439 A.1 4", block(b"\0\xff" + bytes(30), 2, bytes(12)), "72 d5 4d fb f1 2e c4 4b 36 26 92 df 94 13 7f 32")
say("RFC 8439 A.1 5", block(zeros, 0, two), "c2 c6 4d 37 8c d5 36 37 4a e2 04 b9 ef 93 3f cd")
say("RFC 8439 A.2 1", chacha(zeros, 0, bytes(12), bytes(64)), "76 b8 e0 ad a0 f1 3d 90 40 5d 6a e5 53 86 bd 28")
say("RFC 8439 A.2 2", chacha(ones, 1, two, ietf), "a3 fb f0 7d f3 fa 2f de 4f 37 6c a2 3e 82 73 70")
say("RFC 8439 A.2 3", chacha(jkey, 42, two, jabber), "62 e6 34 7f 95 ed 87 a4 5f fa e7 42 6f 27 a1 df")

test10 = bytes.fromhex(
    "8326754e2277372f4fc12b20527afef04d8a056971b11ad57123a7c137760000d7bef6f3c1f7a9083aa39d810db310777dab8b1e7f02b84a26c773325f8b2374de7a4b5a58cb5c5cf35bcee6fb946e5bd694fa59"
    "3a8beb3f9d6592ecedaa66ca82a29d0c51bcf9336230e5d784e4c0a43f8d79a30a165cbabe452b774b9c7109a97d138f129228966f6c0adc106aad5a9fdd30825769b2c671af6759df28eb393d54d6")
say("RFC 6234 SHA-256 1", sha(b"abc"), "ba7816bf8f01cfea414140de5dae2223b00361a396177a9cb410ff61f20015ad")
say("RFC 6234 SHA-256 2", sha(b"abcdbcdecdefdefgefghfghighijhijkijkljklmklmnlmnomnopnopq"), "248d6a61d20638b8e5c026930c3e6039a33ce45964ff2167f6ecedd419db06c1")
say("RFC 6234 SHA-256 3", sha(b"a" * 1000000), "cdc76e5c9914fb9281a1c7e284d73e67f1809a48a497200e046d39ccc7112cd0")
say("RFC 6234 SHA-256 4", sha(b"01234567" * 80), "594847328451bdfa85056225462cc1d867d877fb388df0ce35f25ab5562bfbb5")
say("RFC 6234 SHA-256 6", sha(b"\x19"), "68aa2e2ee5dff96e3355e6c7ee373e3d6a4e17f75f9518d843709c0c9bc3e3d4")
say("RFC 6234 SHA-256 8", sha(bytes.fromhex("e3d72570dcdd787ce3887ab2cd684652")), "175ee69b02ba9b58e2b0a5fd13819cea573f3940a94f825128cf4209beabb4e8")
say("RFC 6234 SHA-256 10", sha(test10), "97dbca7df46d62c8a422c941dd7e835b8ad3361763f7e9b2d95f4f0da6e1ccbc")

long_key = b"\xaa" * 131
say("RFC 4231 1", mac(b"\x0b" * 20, b"Hi There"), "b0344c61d8db38535ca8afceaf0bf12b881dc200c9833da726e9376c2e32cff7")
say("RFC 4231 2", mac(b"Jefe", b"what do ya want for nothing?"), "5bdcc146bf60754e6a042426089575c75a003f089d2739839dec58b964ec3843")
say("RFC 4231 3", mac(b"\xaa" * 20, b"\xdd" * 50), "773ea91e36800e46854db8ebd09181a72959098b3ef8c122d9635514ced565fe")
say("RFC 4231 4", mac(bytes(range(1, 26)), b"\xcd" * 50), "82558a389a443c0ea4cc819899f2083a85f0faa3e578f8077a2e3ff46729665b")
say("RFC 4231 5", mac(b"\x0c" * 20, b"Test With Truncation")[:16], "a3b6167473100ee06e0c796c2955552b")
say("RFC 4231 6", mac(long_key, b"Test Using Larger Than Block-Size Key - Hash Key First"), "60e431591ee0b67f0d8a26aacbf5b77f8e0bc6213728c5140546040f0ee37f54")
say("RFC 4231 7", mac(long_key, b"This is a test using a larger than block-size key and a larger than block-size data. The key needs to be hashed before being used by the HMAC algorithm."),
    "9b09ffa71b942fcb27635fbcd5b0e944bfdc63644f0713938a7f51535c3a35e2")

text = bytes((7 * i + 3) % 256 for i in range(300))
key = bytes((11 * i + 5) % 256 for i in range(32))
nonce = bytes((13 * i + 1) % 256 for i in range(12))
for n in range(301):
    part = text[:n]
    print("%d: %s %s %s" % (n, sha(part).hex(), mac(key, part).hex(), sha(chacha(key, 7, nonce, part)).hex()))
print("long: " + sha(chacha(key, 7, nonce, bytes(65536))).hex())
print("refused: too long, counter over")
