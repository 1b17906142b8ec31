"""The thirty sets as plain lists, tables and trees: what each command replies, how many objects its commit writes, how many it may
write beside these, and how many objects a search for its key reads."""
import bisect

NAMES = [kind + str(i) for kind in "lht" for i in range(10)]

# A tree of n keys has n - 1 inner nodes: with so many keys no search passes more than 8, and a commit makes no steps.
MOST_SHORT = 9

# How many objects an add to a tree may write by its steps, beside its own.
MOST_BESIDE = 12


class List:
    """A list or a bucket: its keys, rising."""

    def __init__(self):
        self.keys = []

    def way(self, key):
        return 1 + min(bisect.bisect_left(self.keys, key) + 1, len(self.keys))

    next_way = way

    def whole(self):
        return 1 + len(self.keys)

    def add(self, key):
        bisect.insort(self.keys, key)

    def remove(self, key):
        del self.keys[bisect.bisect_left(self.keys, key)]


class Table:
    """Sixteen buckets."""

    def __init__(self):
        self.buckets = [List() for _ in range(16)]

    def way(self, key):
        return self.buckets[key % 16].way(key)

    def next_way(self, key):
        return sum(bucket.way(key) for bucket in self.buckets)

    def whole(self):
        return sum(bucket.whole() for bucket in self.buckets)

    def add(self, key):
        self.buckets[key % 16].add(key)

    def remove(self, key):
        self.buckets[key % 16].remove(key)


class Tree:
    """A leaf-oriented search tree, in which no add is followed by steps. An inner node is a list of its dividing key and its
    children, a leaf is a key."""

    def __init__(self):
        self.root = [0, None, None]
        self.count = 0

    def path(self, key):
        """From the root to the leaf where the search for the key ends: each node with the place of the child taken."""
        node, place = self.root, 1
        while True:
            yield node, place
            node = node[place]
            if not isinstance(node, list):
                return
            place = 1 if key < node[0] else 2

    def way(self, key):
        return sum(1 for _ in self.path(key)) + (self.count > 0)

    def next_way(self, key):
        right, reads = None, 0
        for node, place in self.path(key):
            reads += 1
            if place == 1 and node is not self.root:
                right = node[2]
        leaf = node[place]
        if leaf is None:
            return reads
        if leaf >= key or right is None:
            return reads + 1
        while isinstance(right, list):
            reads, right = reads + 1, right[1]
        return reads + 2

    def whole(self):
        return 2 * self.count or 1

    def add(self, key):
        self.count += 1
        for node, place in self.path(key):
            pass
        leaf = node[place]
        if leaf is None:
            node[place] = key
        else:
            node[place] = [max(key, leaf), min(key, leaf), max(key, leaf)]

    def remove(self, key):
        self.count -= 1
        above = None
        for node, place in self.path(key):
            grand, above = above, (node, place)
        if grand is None:
            node[place] = None
        else:
            grand[0][grand[1]] = node[3 - place]


SHAPES = {"l": List, "h": Table, "t": Tree}


def cost(name, keys):
    """The nodes that a set of so many keys takes."""
    return max(2 * keys - 1, 0) if name[0] == "t" else keys


def del_locks(name, keys):
    """Of a del from a set of so many keys: the objects locked, and how many of them become vacant."""
    return (3, 2) if name[0] == "t" and keys > 1 else (2, 1)


def add_locks(name, keys):
    """Of an add to a set of so many keys: the objects locked that were in use, and the new ones."""
    return (2, 2) if name[0] == "t" and keys > 0 else (1, 1)


class Catalogue:
    """Thirty maps from keys to values, in so many nodes."""

    def __init__(self, capacity, count_reads=False):
        self.capacity = capacity
        self.used = 0
        self.values = {name: {} for name in NAMES}
        self.keys = {name: [] for name in NAMES}
        self.shapes = {name: SHAPES[name[0]]() for name in NAMES} if count_reads else None
        self.reads = 0
        # The trees that have or had more than MOST_SHORT keys.
        self.grown = set()

    def beside(self, command):
        """How many objects a commit of the command may write by steps, beside those that `run` says. Only an add of a new key to a
        tree, or a put of one, makes steps; any other commit is of a key that is there. They are those of its snapshot, where the
        tree may have had more keys than just before it."""
        return MOST_BESIDE if command.first in self.grown and command.key not in self.values[command.first] else 0

    def run(self, command, last):
        """Runs a command at the last time or before it: the reply, and how many objects its commit writes; a read writes none."""
        if self.shapes:
            self.reads += self.count_reads(command)
        reply, taken, given = self.plan(command)
        if reply != "yes" or taken == given == None:
            return reply, 0
        used, writes = self.room(taken, given, command.key)
        if used > self.capacity:
            return "full", 0
        if last:
            return "worn", 0
        self.used = used
        value = command.value
        if taken is not None:
            value = self.take(taken, command.key)
        if given is not None:
            self.give(given, command.key, value)
        return "yes", writes

    def plan(self, command):
        """The reply where there is room, and the sets that lose and get the key in a commit, None for no such set."""
        verb, name, key = command.verb, command.first, command.key
        values = self.values[name]
        if verb == "size":
            return str(len(values)), None, None
        there = key in values
        if verb == "has":
            return "yes" if there else "no", None, None
        if verb == "get":
            return str(values.get(key, "none")), None, None
        if verb == "next":
            at = bisect.bisect_left(self.keys[name], key)
            return str(self.keys[name][at]) if at < len(self.keys[name]) else "none", None, None
        if verb == "pair":
            return " ".join("yes" if key in self.values[s] else "no" for s in (name, command.second)), None, None
        if verb == "move":
            moves = there and key not in self.values[command.second]
            return ("yes", name, command.second) if moves else ("no", None, None)
        if verb == "del":
            return ("yes", name, None) if there else ("no", None, None)
        changes = not there or (verb == "put" and values[key] != command.value)
        return ("yes", None, name) if changes else ("no", None, None)

    def room(self, taken, given, key):
        """The nodes in use after a change, and the objects that it writes. A put of a key that is there writes its node alone."""
        used, writes, vacant = self.used, 0, 0
        if given is not None and key in self.values[given]:
            return used, 1
        if taken is not None:
            keys = len(self.values[taken])
            used += cost(taken, keys - 1) - cost(taken, keys)
            writes, vacant = del_locks(taken, keys)
        if given is not None:
            keys = len(self.values[given])
            used += cost(given, keys + 1) - cost(given, keys)
            links, new = add_locks(given, keys)
            writes += links + max(new - vacant, 0)
        return used, writes

    def take(self, name, key):
        del self.keys[name][bisect.bisect_left(self.keys[name], key)]
        if self.shapes:
            self.shapes[name].remove(key)
        return self.values[name].pop(key)

    def give(self, name, key, value):
        if key not in self.values[name]:
            bisect.insort(self.keys[name], key)
            if self.shapes:
                self.shapes[name].add(key)
        self.values[name][key] = value
        if name[0] == "t" and len(self.values[name]) > MOST_SHORT:
            self.grown.add(name)

    def parts(self, names):
        """The sets of these names as they are, where no reads are counted."""
        return self.used, {name: (dict(self.values[name]), list(self.keys[name])) for name in names}

    def restore(self, parts):
        self.used, sets = parts
        for name, (values, keys) in sets.items():
            self.values[name], self.keys[name] = values, keys

    def count_reads(self, command):
        """For each set of the command the objects from the head or root to where the search ends; for `size` all of the set."""
        shape = self.shapes[command.first]
        if command.verb == "size":
            return shape.whole()
        if command.verb == "next":
            return shape.next_way(command.key)
        second = self.shapes[command.second].way(command.key) if command.second else 0
        return shape.way(command.key) + second

    def lines(self):
        """The printed lines of the sets that aren't empty."""
        for name in NAMES:
            if self.keys[name]:
                pairs = ((key, self.values[name][key]) for key in self.keys[name])
                yield name + "".join(f" {key}={value}" if value else f" {key}" for key, value in pairs)

    def sizes(self):
        """The lines of a summary for the sets that aren't empty."""
        return [f"{name} {len(self.keys[name])}" for name in NAMES if self.keys[name]]
