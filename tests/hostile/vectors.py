"""Messages and streams to begin from."""
import wire

MESSAGES = """010102000000 01020002000101 01020002000100 010302000009000000000000000002 01040002000a00000000000000000200
010500010009000000000000000002 010601000009000000000000000002 01070001000c000000000000000002020001 010801000009000000000000000002
01090001001600000000000000000200000000000000000100026869 010a010000080000000000000000 020102400000 02024002000101
010b0001001600000000000000000200000000000000010107000162""".split()

# And one of each kind of a fixed length that none of these has.
MESSAGES += [wire.example(kind) for kind in wire.LENGTHS if not any(bytes.fromhex(text)[1] == kind for text in MESSAGES)]

# What is no message, or is one of other ids.
OTHERS = """010100000000 010140000000 020102000000 020180000000 01020002000102 010600010009000000000000000000 01010200000100
01070001000c000000000000000002020100 01070001000b0000000000000000020101 01070001000a00000000000000000200 02050041000940ffffffffffffffff
010900010014000000000000000002000000000000000000000f 01090001001400000000000000000200000000000000000f0000
0207000200 ff 01ff00010000 0101020000ff 030102000000 000102000000 010a01000007000000000000 010a0100000900000000000000000000
02074000000c4000000000000000020140 020740000008 01090001001400000000000000000200000000000000001000000000 0107000200140000000000000000010aff""".split()



def stream_to(own, other):
    """A stream of messages to a node: it is asked, invited, given a task, asked again, given work."""
    group = bytes([other]) + (2).to_bytes(8, "big")
    members = bytes(sorted([own, other]))
    spell = lambda kind, body, ids=(): wire.encode(kind, other, own, body, ids)
    return b"".join([
        spell(1, b""),
        spell(3, bytes([own]) + (1).to_bytes(8, "big")),
        spell(5, group),
        spell(1, b""),
        spell(7, group + bytes([2]) + members),
        spell(7, group + bytes([2]) + members),
        spell(9, group + bytes(8) + bytes([own % 16, 0, 2]) + b"hi"),
        spell(4, group + b"\1"),
        spell(3, group),
        spell(2, b"\1"),
        spell(10, bytes(8)),
        spell(6, bytes([own]) + (1).to_bytes(8, "big")),
        spell(5, bytes([other]) + (3).to_bytes(8, "big")),
    ])
