"""Messages that are cut at each place, and with each byte replaced, through `show` and `answer`."""
import wire
from vectors import MESSAGES, OTHERS, stream_to

REPLACED = (0x00, 0x40, 0x80, 0xFF)
PLACES = ((0, 3), (1, 3), (0, 128), (64, 128), (127, 128))


def lines(data, cut=None):
    pieces = [data] if cut is None else [data[:cut], data[cut:]]
    return b"".join((piece.hex() or "-").encode() + b"\n" for piece in pieces)


def both(tried, data, places, cut=None, note=""):
    status, text = wire.show(data)
    tried.expect(["show"], lines(data, cut), status, text, note)
    for own, nodes in places:
        status, text = wire.answer(own, nodes, data)
        tried.expect(["answer", str(own), str(nodes)], lines(data, cut), status, text, note)


def places_of(data, tried):
    """The nodes that are asked: the receiver, in a small cluster and in the greatest."""
    own = data[3] if len(data) > 3 and data[3] < 128 else 0
    if tried.is_long:
        return {(own, 128), (min(own, 2), 3), *PLACES}
    return {(own, 128)}


def altered(data):
    for at in range(len(data)):
        for byte in REPLACED:
            if data[at] != byte:
                yield data[:at] + bytes([byte]) + data[at + 1:]


def one_message(tried, data):
    places = places_of(data, tried)
    both(tried, data, {(data[3] if len(data) > 3 and data[3] < 128 else 0, 3 if max(data[2:4], default=0) < 3 else 128), *places})
    for cut in range(len(data)):
        both(tried, data[:cut], places, note="cut off")
    for other in altered(data):
        both(tried, other, places, note="a byte replaced")


def one_stream(tried, own, other, nodes, step):
    data = stream_to(own, other)
    both(tried, data, {(own, nodes)}, note="a stream")
    for cut in range(0, len(data) + 1, step):
        both(tried, data, {(own, nodes)}, cut, note="in two pieces")
        both(tried, data[:cut], {(own, nodes)}, note="cut off")
    for k, changed in enumerate(altered(data)):
        if k % (step * 4) == 0:
            both(tried, changed, {(own, nodes)}, note="a stream with a byte replaced")


def try_bytes(tried):
    for text in MESSAGES:
        one_message(tried, bytes.fromhex(text))
    for text in OTHERS:
        data = bytes.fromhex(text + "0" * (len(text) % 2))
        both(tried, data, places_of(data, tried), note="no message")
    # a node outside of the cluster
    for text in ("020140000000", "010103000000", "010501000009030000000000000002", "01070001000d00000000000000000203000103"):
        both(tried, bytes.fromhex(text), {(0, 3), (1, 3)}, note="a stranger")
    step = 1 if tried.is_long else 13
    one_stream(tried, 0, 1, 3, step)
    one_stream(tried, 64, 2, 128, step)
    one_stream(tried, 2, 64, 128, step)
    whole = stream_to(0, 1)
    mixed = stream_to(2, 1) + stream_to(2, 64) + stream_to(2, 3)
    both(tried, mixed, {(2, 128), (2, 3)}, note="both versions")
    both(tried, b"".join(bytes.fromhex(text) for text in MESSAGES), {(0, 3), (2, 128)}, note="all messages")
    # a line for each byte
    status, text = wire.show(whole)
    tried.expect(["show"], b"".join(b"%02x\n" % byte for byte in whole), status, text, "byte by byte")
    # the longest frame, whole and one byte short
    for size in (65535, 65534):
        both(tried, bytes.fromhex("01090001ffff") + bytes(size), {(1, 3)}, note="the longest frame")
