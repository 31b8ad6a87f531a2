"""`list`, `check` and `recover` on a real file, with blobs that this script lays out by the tables of
the format: milliseconds, best of five, at three sizes that show the growth, and the most memory of
`check` beside three times the metadata and 4 MiB, which it has to stay below; and `check` beside `root`
of as many bytes, interleaved, as a ratio. Wanted: `list` of 32,768 blobs below 150 ms, and `check` at
least 0.85 of the rate of `root`."""
import pathlib
import sys
import tempfile

from measure import TOP, blobfs, most_memory, table, timed

sys.path.insert(0, str(TOP / "scripts"))
from volume import blob_blocks, info_block, inode, regions, superblock  # noqa: E402

BLOCK = 8192


def write_image(path, nodes, journal, blobs):
    """An image of version 1 with these blobs, each in one extent, and an empty journal. Returns the
    bytes of its metadata."""
    laid = [blob_blocks(data) for data in blobs]
    used = 1 + sum(map(len, laid))
    blocks = used + 64
    bitmap_blocks, node_blocks = regions(blocks, nodes)
    head = superblock(blocks, nodes, journal, 1, len(blobs), used, len(blobs))
    bits = bytearray(bitmap_blocks * BLOCK)
    for bit in range(used):
        bits[bit // 8] |= 1 << (bit % 8)
    node_map = bytearray(node_blocks * BLOCK)
    start = 1
    for node, (data, parts) in enumerate(zip(blobs, laid)):
        extent = start | len(parts) << 48
        node_map[64 * node : 64 * node + 64] = inode(data, len(parts), extent)
        start += len(parts)
    with open(path, "wb") as file:
        for part in [head, bits, node_map, info_block()]:
            file.write(part)
        file.write(bytes((journal - 1) * BLOCK + BLOCK))
        for parts in laid:
            file.writelines(parts)
        file.write(bytes(64 * BLOCK))
    return (1 + bitmap_blocks + node_blocks) * BLOCK


def best_of(program, words, stdin, rounds=5):
    return min(timed([program, *words], stdin)[0] for _ in range(rounds))


def main():
    program = pathlib.Path(sys.argv[1]) if len(sys.argv) > 1 else blobfs()
    with tempfile.TemporaryDirectory() as name:
        folder = pathlib.Path(name)
        image = folder / "image"
        rows = []
        for count in [327, 3276, 32768]:
            blobs = [k.to_bytes(8, "little") * 250 for k in range(count)]
            size = write_image(image, -(-count // 128) * 128, 300, blobs)
            words = ["list", "check", "recover"]
            times = [best_of(program, [f"file:{image}", word], "/dev/null") for word in words]
            memory = most_memory([program, f"file:{image}", "check"], "/dev/null")
            bound = 3 * size / (1 << 20) + 4
            rows.append([str(count), *[f"{1000 * t:.1f}" for t in times], memory, f"{bound:.1f}"])
        head = ["blobs of 2,000 bytes", "list ms", "check ms", "recover ms", "check MiB", "bound MiB"]
        table(head, rows)

        blobs = [(k.to_bytes(8, "little") * 8192)[:65536] for k in range(1000)]
        write_image(image, 1024, 300, blobs)
        whole = folder / "bytes"
        whole.write_bytes(b"".join(blobs))
        check, rooted = [], []
        for _ in range(5):
            check.append(timed([program, f"file:{image}", "check"], "/dev/null")[0])
            rooted.append(timed([program, "root"], whole)[0])
        ratio = min(rooted) / min(check)
        print(f"check of 1,000 blobs of 64 KiB {1000 * min(check):.0f} ms, "
              f"root of as many bytes {1000 * min(rooted):.0f} ms, check's rate to it {ratio:.2f}")


main()
