"""Ordered binary trees of many shapes, forests of them, their tables, and sheets of them that the drawer does not make. Nothing here knows how it draws."""


class Tree:
    """Nodes 1 to n, parents before children; left and right by node, 0 for none. Of a forest, too: 1 is the head's root, and each other node without
    a parent starts another tree."""

    def __init__(self, n):
        self.n = n
        self.left = [0] * (n + 1)
        self.right = [0] * (n + 1)
        self.depth = [0] * (n + 1)

    def roots(self):
        named = {*self.left, *self.right}
        return [v for v in range(1, self.n + 1) if v not in named]


def split(n, choose):
    """A tree of n nodes: of the m nodes below a node at depth d, choose(m, d) are in its left subtree."""
    tree = Tree(n)
    made = 0
    todo = [(0, 0, n, 0)] if n else []      # parent, side, nodes, depth
    while todo:
        parent, side, m, d = todo.pop()
        made += 1
        node = made
        tree.depth[node] = d
        if parent:
            (tree.left, tree.right)[side][parent] = node
        a = choose(m - 1, d)
        if m - 1 - a:
            todo.append((node, 1, m - 1 - a, d + 1))
        if a:
            todo.append((node, 0, a, d + 1))
    return tree


def uniform(n, rng):
    """Each tree of n nodes equally likely (Remy)."""
    kids = {0: None}                        # a node's two children; None for a leaf
    parent = {0: None}
    root = 0
    for k in range(n):
        at = rng.randrange(2 * k + 1)
        inner, leaf = 2 * k + 1, 2 * k + 2
        above = parent[at]
        if above is None:
            root = inner
        else:
            kids[above][kids[above].index(at)] = inner
        kids[inner] = [at, leaf] if rng.random() < 0.5 else [leaf, at]
        kids[leaf] = None
        parent[inner], parent[at], parent[leaf] = above, inner, inner
    order, todo = [], [root]
    while todo:
        v = todo.pop()
        if kids[v] is not None:
            order.append(v)
            todo += [kids[v][1], kids[v][0]]
    number = {v: i + 1 for i, v in enumerate(order)}
    tree = Tree(n)
    for v in order:
        a, b = (number.get(c, 0) for c in kids[v])
        tree.left[number[v]], tree.right[number[v]] = a, b
        for c in (a, b):
            tree.depth[c] = tree.depth[number[v]] + 1
    return tree


def hanging(n, rng):
    """Knee, switch, knee of the other hand with a hung subtree, which is built in the same way as seen in a mirror."""
    def even(m):                            # ties wherever they can be
        a = (m - rng.randint(0, 1)) // 2
        return (even(a), even(m - 1 - a)) if m else 0

    def mirror(t):
        return t and (mirror(t[1]), mirror(t[0]))

    def build(m):
        if m < 11:
            return even(m)
        k = rng.randint(3, (m - 5) // 2)
        hung, rest = mirror(build(k)), even(m - 4 - k)
        switch = ((0, 0), rng.choice(((hung, rest), (rest, hung))))
        return rng.choice(((0, switch), (switch, 0)))

    tree, made, todo = Tree(n), 0, [(build(n), 0, 0)]
    while todo:
        t, parent, side = todo.pop()
        if t:
            made += 1
            if parent:
                (tree.left, tree.right)[side][parent] = made
                tree.depth[made] = tree.depth[parent] + 1
            todo += [(t[1], made, 1), (t[0], made, 0)]
    return tree


def forest(*parts):
    """Several trees as one forest; the root of the first is the head's root."""
    whole, before = Tree(sum(part.n for part in parts)), 0
    for part in parts:
        for v in range(1, part.n + 1):
            whole.left[before + v], whole.right[before + v] = (c and before + c for c in (part.left[v], part.right[v]))
            whole.depth[before + v] = part.depth[v]
        before += part.n
    return whole


def scattered(n, count, rng):
    """A forest of n nodes in so many trees of every shape, or in n if that is less; its trees are of any sizes."""
    ends = sorted(rng.sample(range(1, n), min(count, n) - 1)) + [n]
    return forest(*(rng.choice(shapes(rng))[1](end - begin) for begin, end in zip([0] + ends, ends)))


def from_links(links):
    """The tree or forest of the given (left, right) of 1, 2, .., parents before children."""
    tree = Tree(len(links))
    for v, (a, b) in enumerate(links, 1):
        tree.left[v], tree.right[v] = a, b
        for c in (a, b):
            tree.depth[c] = tree.depth[v] + 1 if c else 0
    return tree


def every_links(n, first=1):
    """The links of every tree of n nodes, which are numbered from first on, parent before left subtree before right subtree."""
    if n == 0:
        return [[]]
    return [[(first + 1 if a else 0, first + 1 + a if a + 1 < n else 0)] + x + y
            for a in range(n) for x in every_links(a, first + 1) for y in every_links(n - 1 - a, first + 1 + a)]


def every_forest_links(n, first=1):
    """The links of every forest of n nodes, numbered from first on, tree by tree."""
    if n == 0:
        return [[]]
    return [x + y for a in range(1, n + 1) for x in every_links(a, first) for y in every_forest_links(n - a, first + a)]


def shapes(rng):
    """Name and maker, from a number of nodes, of each shape."""
    def hung(low, high):
        # a spine with subtrees of low to high nodes hung on either side
        def choose(m, d):
            k = min(rng.randint(low, high), m // 2)
            return k if rng.random() < 0.5 else m - k
        return choose

    def switching(size):
        # left, left, right, right, ..: a switch at every second node, a child pending at each knee
        def choose(m, d):
            k = min(size, m // 2)
            return k if d % 4 < 2 else m - k
        return choose

    def tied(m, d):
        # equal subtrees wherever the number of nodes allows it
        return m // 2 if m % 2 == 0 or rng.random() < 0.5 else m - m // 2

    def nested(m, d):
        # a third or a half hung, so that subtrees hang within subtrees on both hands
        k = m // rng.choice((2, 2, 3))
        return k if rng.random() < 0.5 else m - k

    return [
        ('left path', lambda n: split(n, lambda m, d: m)),
        ('right path', lambda n: split(n, lambda m, d: 0)),
        ('zigzag', lambda n: split(n, lambda m, d: m if d % 2 else 0)),
        ('random path', lambda n: split(n, lambda m, d: rng.choice((0, m)))),
        ('balanced', lambda n: split(n, lambda m, d: m // 2)),
        ('ties', lambda n: split(n, tied)),
        ('random split', lambda n: split(n, lambda m, d: rng.randint(0, m))),
        ('uniform', lambda n: uniform(n, rng)),
        ('hung leaves', lambda n: split(n, hung(0, 1))),
        ('hung trees', lambda n: split(n, hung(1, 12))),
        ('switches', lambda n: split(n, switching(1))),
        ('wide switches', lambda n: split(n, switching(rng.randint(2, 40)))),
        ('nested', lambda n: split(n, nested)),
        ('hanging', lambda n: hanging(n, rng)),
    ]


def table(tree, rng, extra=0, shuffled=True, free=0):
    """The bytes of the table of a tree or a forest, and the record of each node. Extra records, on neither chain, hold rubbish; so many others are free."""
    records = tree.n + 1 + extra + free
    names = list(range(1, records))
    if shuffled:
        rng.shuffle(names)
    record = [0] + names[:tree.n]
    words = [[rng.randrange(65536) for _ in range(4)] for _ in range(records)]
    chain = record[1:]
    if shuffled:
        rng.shuffle(chain)
    words[0] = [chain[0] if chain else 0, record[1] if chain else 0, 0, 0]
    after = dict(zip(chain, chain[1:] + [0]))
    for v in range(1, tree.n + 1):
        k = record[v]
        words[k] = [after[k], record[tree.left[v]], record[tree.right[v]], words[k][3]]
    free_ones = names[tree.n + extra:]
    words[0][2] = free_ones[0] if free else 0
    for k, following in zip(free_ones, free_ones[1:] + [0]):
        words[k] = [following, 0, 0, 0]
    return bytes_of(words), record


def plain(links, root=1, tag=100, head=None):
    """A table of the given (left, right), chained in order from 1."""
    n = len(links)
    words = [head or [1 if n else 0, root, 0, 0]]
    for k, (a, b) in enumerate(links, 1):
        words.append([k + 1 if k < n else 0, a, b, tag + k])
    return words


def bytes_of(words):
    """Records of words as bytes, low byte first."""
    return b''.join(w.to_bytes(2, 'little') for record in words for w in record)


def stored(points, record, records):
    """The points of a tree's nodes as placements of its records."""
    places = [0] * (2 * records)
    for v in range(1, len(points)):
        places[2 * record[v]], places[2 * record[v] + 1] = points[v]
    return places


def layers(tree):
    """A good drawing that fits any tree: the column is the place in order from left to right, the row the depth; several trees side by side."""
    points = [(0, 0)] * (tree.n + 1)
    column, todo = 0, []
    for v in tree.roots():
        while v or todo:
            while v:
                todo.append(v)
                v = tree.left[v]
            v = todo.pop()
            points[v] = (column, tree.depth[v])
            column += 1
            v = tree.right[v]
    return points


def level_runs(tree, rng, wrong=0.0):
    """A drawing with many level lines: the columns of layers, and each child level with its parent or in the row below, as it falls out.
    It is good but where a level line goes back over the one to its parent: wrong is how likely that is where it can be."""
    points, likely = layers(tree), rng.choice((0.3, 0.6, 0.9, 1.0))
    row, came = [0] * (tree.n + 1), [None] * (tree.n + 1)                   # came: the side of a level line to the node
    for v in range(1, tree.n + 1):
        for side, c in enumerate((tree.left[v], tree.right[v])):
            back = came[v] is not None and came[v] != side
            if c and rng.random() < (wrong if back else likely):
                row[c], came[c] = row[v], side
            elif c:
                row[c] = row[v] + 1
    return [(column, r) for (column, _), r in zip(points, row)]


def tangled(tree, rng):
    """Any of a few columns, and each child level with its parent or a row or two below, and another root with the top row, no two nodes at one point:
    lines that cross and touch."""
    columns, parent = rng.randint(3, 3 + tree.n // 2), [0] * (tree.n + 1)
    for v in range(1, tree.n + 1):
        parent[tree.left[v]] = parent[tree.right[v]] = v
    points = [(0, 0)]
    for v in range(1, tree.n + 1):
        column, row = rng.randrange(columns), points[parent[v]][1] + rng.choice((0, 1, 1, 2)) if v > 1 else 0
        while (column, row) in points[1:]:
            column, row = rng.randrange(columns), row + rng.randint(0, 1)
        points.append((column, row))
    return points
