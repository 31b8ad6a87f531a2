"""The blobs of a volume whose journal is empty, read from its file by the format, and which of their
windows don't verify: for scripts that judge what a run has printed of a damaged volume."""
import struct

from merkle import BLOCK, FAN_OUT, block_digest, root
from volume import NO_NODE

ZEROS = bytes(32)


def extents_of(row, first, count):
    fields = struct.unpack_from(f"<{count}Q", row, first)
    return [(field & (1 << 48) - 1, field >> 48) for field in fields]


class Stored:
    """The bytes of a file, and for each root, in digits, its size, version and blocks."""

    def __init__(self, image):
        self.image = image
        self.blocks, self.nodes, self.journal, bitmap = struct.unpack_from("<4Q", image, 24)
        self.nodes_at = (1 + bitmap) * BLOCK
        self.data_at = 1 + bitmap + self.nodes // 128 + self.journal
        self.blobs = {}
        for index in range(self.nodes):
            row = self.node(index)
            if row[0] == 1:
                size = struct.unpack_from("<Q", row, 40)[0]
                self.blobs[row[8:40].hex()] = (size, row[2], self.places(row))

    def node(self, index):
        at = self.nodes_at + 64 * index
        return self.image[at : at + 64]

    def places(self, row):
        """The data blocks of the blob with this inode, in the order of its extents."""
        extents = extents_of(row, 56, 1)
        following = struct.unpack_from("<I", row, 4)[0]
        while following != NO_NODE:
            row = self.node(following)
            following, count = struct.unpack_from("<I", row, 4)[0], row[12]
            extents += extents_of(row, 16, count)
        return [start + k for start, length in extents for k in range(length)]

    def block(self, places, index):
        at = (self.data_at + places[index]) * BLOCK
        return self.image[at : at + BLOCK]

    def content(self, name):
        size, version, places = self.blobs[name]
        count = -(-size // BLOCK)
        first = len(places) - count if version == 1 else 0
        return b"".join(self.block(places, first + k) for k in range(count))[:size]

    def is_whole(self, name):
        return root(self.content(name)).hex() == name

    def levels(self, name):
        """The blocks of each level above the data, the lowest first."""
        size, version, places = self.blobs[name]
        below, levels, at = -(-size // BLOCK), [], 0
        joined = b"".join(self.block(places, k) for k in range(below, len(places)))
        while below > 1:
            count = -(-below // FAN_OUT)
            if version == 1:
                levels.append([self.block(places, at + k) for k in range(count)])
                at += count
            else:
                digests = joined[at : at + 32 * below]
                rows = [digests[k : k + BLOCK] for k in range(0, len(digests), BLOCK)]
                levels.append([row.ljust(BLOCK, b"\0") for row in rows])
                at += 32 * below
            below = count
        return levels

    def mismatch(self, name, window):
        """The words of the first failure of a window from the top down; None where it verifies."""
        size = self.blobs[name][0]
        data, levels = self.content(name), self.levels(name)
        counts = [-(-size // BLOCK), *map(len, levels)]
        wanted = bytes.fromhex(name)
        for level in range(len(levels), 0, -1):
            index = 8 * window // FAN_OUT**level
            block = levels[level - 1][index]
            if failed := unlike(level, BLOCK * index, wanted, block_digest(level, BLOCK * index, block)):
                return failed
            used = min(FAN_OUT, counts[level - 1] - FAN_OUT * index)
            for place in range(used, FAN_OUT):
                at = BLOCK * index + 32 * place
                if failed := unlike(level, at, ZEROS, block[32 * place : 32 * place + 32]):
                    return failed
            place = 8 * window // FAN_OUT ** (level - 1) % FAN_OUT
            wanted = block[32 * place : 32 * place + 32]
        for index in range(8 * window, min(8 * window + 8, max(1, counts[0]))):
            if levels:
                place = index % FAN_OUT
                wanted = block[32 * place : 32 * place + 32]
            found = block_digest(0, BLOCK * index, data[BLOCK * index : BLOCK * (index + 1)])
            if failed := unlike(0, BLOCK * index, wanted, found):
                return failed
        return None


def unlike(level, offset, wanted, found):
    return None if wanted == found else f"mismatch {level} {offset} {wanted.hex()} {found.hex()}"
