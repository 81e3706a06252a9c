"""The product of 1.5 and 1.5 on three shares, through the shared object named on the command line. Prints 2.25."""
import ctypes, secrets, struct, sys

lib = ctypes.CDLL(sys.argv[1])
words = lambda n: (ctypes.c_uint64 * n)(*(secrets.randbits(64) for _ in range(n)))
Answer = type("Answer", (ctypes.Structure,), {"_fields_": [("number", ctypes.c_uint32)] + [(f, ctypes.c_size_t) for f in ("place", "words", "tape")]})
Joined = type("Joined", (ctypes.Structure,), {"_fields_": [("answer", Answer), ("word", ctypes.c_uint64)]})
lib.lubewon_product_shares.restype, lib.lubewon_split.restype, lib.lubewon_join.restype = Answer, Answer, Joined
size, x, y, result, work = ctypes.c_size_t, words(3), words(3), words(3), words(512)
for shares in (x, y):
    lib.lubewon_split(ctypes.c_uint64(0x3FF8000000000000), words(2), size(2), shares, size(3))
answer = lib.lubewon_product_shares(x, size(3), y, size(3), result, size(3), work, size(512), words(456), size(456))
assert answer.number == 0 and answer.tape == 456
print(struct.unpack("<d", struct.pack("<Q", lib.lubewon_join(result, size(3)).word))[0])
