"""The Merkle root of bytes from its definition, over hashlib: the scripts' own reference."""
import hashlib

BLOCK = 8192
FAN_OUT = 256


def block_digest(level, offset, data):
    """The digest of a block at a level and a byte offset within that level."""
    if level == 0 and not data:
        return hashlib.sha256(bytes(12)).digest()
    head = (offset | level).to_bytes(8, "little") + len(data).to_bytes(4, "little")
    return hashlib.sha256(head + data + bytes(BLOCK - len(data))).digest()


def root(data):
    """The root: levels are taken until one digest is left."""
    digests = [
        block_digest(0, at, data[at : at + BLOCK]) for at in range(0, max(1, len(data)), BLOCK)
    ]
    level = 0
    while len(digests) > 1:
        level += 1
        groups = [digests[at : at + FAN_OUT] for at in range(0, len(digests), FAN_OUT)]
        digests = [
            block_digest(level, BLOCK * k, b"".join(group).ljust(BLOCK, b"\0"))
            for k, group in enumerate(groups)
        ]
    return digests[0]
