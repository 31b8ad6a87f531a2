"""The state of a mounted volume and its events, written anew from their rules, for scripts that judge
what a run has printed. No call of a device fails here, so no volume is ever stopped."""
import functools
import re

LAST_NUMBER = 2**62


class Wrong(Exception):
    """What was printed isn't what the rules give."""


@functools.lru_cache(maxsize=None)
def need(version, size):
    """The blocks of a blob: its data and its tree, which version 2 stores without padding."""
    data = -(-size // 8192)
    digests, blocks, level = 0, 0, data
    while level > 1:
        digests += level
        level = -(-level // 256)
        blocks += level
    return data + (blocks if version == 1 else -(-digests // 256))


def nodes_for(extents):
    return 1 if extents <= 1 else 1 + -(-(extents - 1) // 6)


def worst_nodes(version, size):
    """The nodes of a blob each of whose blocks is an extent by itself."""
    return nodes_for(need(version, size))


def windows(size):
    return max(1, -(-size // 65536))


class Volume:
    """A volume from its mount on. `blobs` has size and version of each root, in digits."""

    def __init__(self, version, blocks, nodes, blobs, next_number=1):
        self.version, self.blocks, self.nodes = version, blocks, nodes
        self.meta = 1 + -(-blocks // 65536) + nodes // 128
        self.map = dict(blobs)
        self.opening = set(blobs)  # those of the mount that were not purged since
        self.next = next_number
        self.log = []  # (root, None) for a purge, (root, (size, version)) for a publication
        self.undurable = 0  # blocks of the purges that no sync has made durable
        self.slots = {}
        self.leaving = set()
        self.queue = []
        self.adds = {}  # root to size, session and whether it is admitted
        self.known = {}  # the windows that the reader of a slot knows; None after an open that failed
        self.kept = {}  # those of the last 64 closed roots, the one kept last at the end

    def present(self):
        gone = self.leaving.union(self.queue)
        return {root: size for root, (size, _) in self.map.items() if root not in gone}

    def is_present(self, root):
        return root in self.map and root not in self.leaving and root not in self.queue

    def room(self):
        held = sum(need(version, size) for size, version in self.map.values())
        under_way = sum(need(self.version, size) for size, _, _ in self.adds.values())
        return self.blocks - 1 - held - under_way - self.undurable

    def holders(self, root):
        return sum(1 for held in self.slots.values() if held == root)

    def is_last(self):
        return self.next == LAST_NUMBER

    def flush(self):
        for root in self.queue:
            size, version = self.map.pop(root)
            self.opening.discard(root)
            self.log.append((root, None))
            self.undurable += need(version, size)
        self.queue = []

    def step(self, session, words, reply):
        """Makes an event; raises Wrong where the rules give another reply."""
        wanted = getattr(self, words[0])(session, reply, *words[1:])
        if reply != wanted:
            raise Wrong(f"reply {reply!r} where the rules give {wanted!r}")

    def begin(self, session, _, root, size):
        size = int(size)
        wanted, room = need(self.version, size), self.room()
        if self.is_present(root):
            return "exists"
        if root in self.leaving or root in self.queue:
            return f"leaving {self.holders(root)}"
        if root in self.adds:
            return "in-flight"
        if wanted > room:
            return f"no-space {wanted} {room}"
        self.adds[root] = (size, session, False)
        return "granted"

    def own_add(self, session, root, is_admitted):
        if root not in self.adds or self.adds[root][1:] != (session, is_admitted):
            raise Wrong(f"no add of {root} by session {session} stands there")
        return self.adds[root][0]

    def admit(self, session, reply, root):
        """Where on the device its blocks lie isn't printed, so their nodes have bounds alone."""
        size = self.own_add(session, root, False)
        admitted = [size for size, _, is_admitted in self.adds.values() if is_admitted]
        least_free = self.nodes - sum(worst_nodes(v, n) for n, v in self.map.values())
        least_free -= sum(worst_nodes(self.version, n) for n in admitted)
        most_free = self.nodes - len(self.map) - len(admitted)
        worst = worst_nodes(self.version, size)
        if reply == "admitted":
            if most_free < 1:
                return f"no-nodes 1 {most_free}"
            self.adds[root] = (size, session, True)
            return reply
        del self.adds[root]
        found = re.fullmatch(r"no-nodes (\d+) (\d+)", reply)
        if found:
            wanted, free = int(found[1]), int(found[2])
            if free < wanted <= worst and least_free <= free <= most_free:
                return reply
        return f"admitted, or no-nodes of at most {worst} with {least_free} to {most_free} free"

    def put(self, _session, _reply, _index):
        return "written"

    def settle(self, session, _, root):
        size = self.own_add(session, root, True)
        del self.adds[root]
        if self.is_last():
            return "number-end"
        self.flush()
        self.map[root] = (size, self.version)
        self.log.append((root, (size, self.version)))
        self.next += 1
        return "published"

    def open(self, session, _, slot, root):
        if not self.is_present(root):
            return "not-found"
        if (session, slot) in self.slots:
            return "slot-taken"
        self.slots[session, slot] = root
        self.known[session, slot] = self.kept.pop(root, set())
        return f"opened {self.map[root][0]}"

    def fetch(self, session, _, slot, _window):
        return "fetched" if (session, slot) in self.slots else "bad-slot"

    def read(self, session, _, slot, _off, _len):
        return "reading" if (session, slot) in self.slots else "bad-slot"

    def scan(self, session, _, slot):
        return "reading" if (session, slot) in self.slots else "bad-slot"

    def close(self, session, _, slot):
        if (session, slot) not in self.slots:
            return "bad-slot"
        root = self.slots.pop((session, slot))
        known = self.known.pop((session, slot))
        if self.is_present(root) and known is not None:
            self.kept.pop(root, None)
            self.kept[root] = known
            if len(self.kept) > 64:
                del self.kept[next(iter(self.kept))]
        if root in self.leaving and not self.holders(root):
            self.leaving.remove(root)
            self.queue.append(root)
        return "closed"

    def unlink(self, _session, _reply, root):
        if not self.is_present(root):
            return "not-found"
        self.kept.pop(root, None)
        if self.holders(root):
            self.leaving.add(root)
        else:
            self.queue.append(root)
        return "unlinked"

    def sync(self, _session, _reply):
        if self.queue:
            if self.is_last():
                return "number-end"
            self.next += 1
        self.flush()
        self.undurable = 0
        return "synced"

    def list(self, _session, _reply):
        return str(len(self.present()))

    def unmount(self, session, reply):
        if self.adds:
            raise Wrong("an unmount with an add under way")
        self.slots = {}
        self.queue += sorted(self.leaving)
        self.leaving = set()
        ended = self.sync(session, reply)
        return "unmounted" if ended == "synced" else ended
