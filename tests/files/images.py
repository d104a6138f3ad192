"""Files of nodes and stores, made byte by byte from docs/FORMATS.md: a table of their sectors, each in hex from its first byte on, and what stands behind the last one."""
SECTOR = 512
BLOCK = 4096
SEAL = "a5"

# An empty store: the counter is 0, and the area cell has the value 1.
EMPTY = {1: SEAL, 4: "0000000000000001", 5: SEAL}


def label_of(node, nodes, slots, mark="00000000"):
    """The label of a packed file."""
    return f"64756d6765726f6b 02 {node:02x} {nodes:02x} 00 {mark} {slots:04x}" + "00" * 14


def image(sectors, table, behind=""):
    """A file of so many sectors, of zeros but for those of the table that it has, and what stands behind its last one."""
    data = bytearray(SECTOR * sectors)
    for at, text in table.items():
        if at < sectors:
            there = bytes.fromhex(text)
            data[SECTOR * at:SECTOR * at + len(there)] = there
    return bytes(data) + bytes.fromhex(behind)


def spread(held):
    """A packed file's bytes with a block of 4,096 bytes for each sector, and a label that says so."""
    whole = len(held) // SECTOR
    blocks = b"".join(held[SECTOR * at:SECTOR * (at + 1)] + bytes(BLOCK - SECTOR) for at in range(whole))
    label = held[SECTOR * whole:]
    return blocks + label[:11] + b"\1" + label[12:]
