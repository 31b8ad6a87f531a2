"""Volumes written from their format: the scripts' own reference."""
import struct
import zlib

from merkle import block_digest, root

BLOCK = 8192
NO_NODE = 0xFFFFFFFF
ENTRY_MAGIC = 0x626C6F626E747279


def padded(data):
    return data + bytes(BLOCK - len(data))


def regions(blocks, nodes):
    """The blocks of the bitmap and of the node map."""
    return -(-blocks // 65536), nodes // 128


def superblock(blocks, nodes, journal, version, blobs=0, used_blocks=1, used_nodes=0):
    bitmap, node_map = regions(blocks, nodes)
    counts = [blocks, nodes, journal, bitmap, node_map, blobs, used_blocks, used_nodes]
    return padded(b"blobvol\0profile1" + struct.pack("<2I8Q", version, 0, *counts))


def info_block(start=0, number=1):
    """The info block of a journal that begins at this slot with this number."""
    row = struct.pack("<4Q", 0x626C6F626A726E6C, start, 0, number)
    return padded(row + struct.pack("<I", zlib.crc32(row)))


def inode(data, count, extent, version=1):
    """The inode of a blob whose blocks, so many, stand in at most one extent."""
    return struct.pack(
        "<HHI32sQIHHQ", 1, version, NO_NODE, root(data), len(data), count, 1 if count else 0, 0, extent
    )


def blob_blocks(data, version=1):
    """The blocks of a blob with at most 256 data blocks, in the order of its extents."""
    pieces = [data[at : at + BLOCK] for at in range(0, len(data), BLOCK)]
    data_blocks = [padded(piece) for piece in pieces]
    if len(pieces) <= 1:
        return data_blocks
    digests = b"".join(block_digest(0, BLOCK * k, piece) for k, piece in enumerate(pieces))
    return [padded(digests), *data_blocks] if version == 1 else [*data_blocks, padded(digests)]


def metadata(blocks, nodes, journal, version, blobs):
    """Superblock, bitmap and node map of a volume with these blobs, each a pair of bytes and version;
    and the blocks of all of them, which stand one after another from data block 1 on."""
    laid = [blob_blocks(data, kind) for data, kind in blobs]
    used = 1 + sum(map(len, laid))
    bitmap_blocks, node_blocks = regions(blocks, nodes)
    bits = bytearray(bitmap_blocks * BLOCK)
    for bit in range(used):
        bits[bit // 8] |= 1 << (bit % 8)
    node_map = bytearray(node_blocks * BLOCK)
    start = 1
    for node, ((data, kind), parts) in enumerate(zip(blobs, laid)):
        extent = start | len(parts) << 48 if parts else 0
        node_map[64 * node : 64 * node + 64] = inode(data, len(parts), extent, kind)
        start += len(parts)
    head = superblock(blocks, nodes, journal, version, len(blobs), used, len(blobs))
    return head + bytes(bits) + bytes(node_map), b"".join(part for parts in laid for part in parts)


def volume(blocks, nodes, journal, version, blobs=(), info=None, slots=b""):
    """All blocks of a volume; the slots are those that the ring begins with."""
    meta, stored = metadata(blocks, nodes, journal, version, blobs)
    ring = slots + bytes(BLOCK * (journal - 1) - len(slots))
    data = bytes(BLOCK) + stored
    return meta + (info or info_block()) + ring + data + bytes(BLOCK * blocks - len(data))


def empty_volume(blocks, nodes, journal, version):
    """All blocks of a volume without a blob, the data blocks zero."""
    return volume(blocks, nodes, journal, version)


def entry(number, payloads):
    """The blocks of an entry of the journal; payloads are pairs of a metadata block and its bytes."""
    prefix = struct.pack("<QQ", ENTRY_MAGIC, number)
    magic = struct.pack("<Q", ENTRY_MAGIC)
    escaped = [block[:8] == magic for _, block in payloads]
    header = bytearray(padded(prefix + struct.pack("<QQQ", 1, 0, len(payloads))))
    for index, ((target, _), flag) in enumerate(zip(payloads, escaped)):
        struct.pack_into("<Q", header, 40 + 8 * index, target)
        struct.pack_into("<I", header, 5472 + 4 * index, flag)
    stored = [bytes(8) + block[8:] if flag else block for (_, block), flag in zip(payloads, escaped)]
    body = bytes(header) + b"".join(stored)
    commit = prefix + struct.pack("<QQI", 2, 0, zlib.crc32(body))
    return body + padded(commit)


def pending_volume(blocks, nodes, journal, version, data):
    """A volume without a blob whose journal holds the entry that adds one; its bytes are written."""
    empty, _ = metadata(blocks, nodes, journal, version, [])
    meta, stored = metadata(blocks, nodes, journal, version, [(data, version)])
    count = len(meta) // BLOCK
    names = [t for t in range(count) if meta[t * BLOCK : (t + 1) * BLOCK] != empty[t * BLOCK : (t + 1) * BLOCK]]
    slots = entry(1, [(t, meta[t * BLOCK : (t + 1) * BLOCK]) for t in names])
    image = bytearray(volume(blocks, nodes, journal, version, slots=slots))
    at = (count + journal + 1) * BLOCK
    image[at : at + len(stored)] = stored
    return bytes(image)
