#!/usr/bin/env python3
"""Counts, for each slip, the cases of crates/trials that tell it. A slip that no case tells ends the run with an error.

A slip is a change of a line or two of the reference program, made in memory; the file itself stays as it is.
Only cases of the call that the slip is of are counted; a slip of the table, its free chain too, has to be told by every call, and one of the
placements by every call that is lent some; for one of several trees ("forest") only cases of accepted tables that hold several. make_trials.py seeks
cases that tell each slip of a drawing, a check (of level lines with sheets of such lines, of crossings and touches with sheets of those), a stroke, a
hang, a cut, a half of a hang (hold, and hang held) or a comparison of two lines, and stores what the unchanged program says of them.
"""
import os
import sys
import types

here = os.path.dirname(os.path.abspath(__file__))
crate = os.path.join(os.path.dirname(here), 'crates', 'trials')
UPTO = int(open(os.path.join(here, 'upto')).read())     # requests 1 to UPTO of document 02 are in force

# The calls of the reference program whose answers a kind of slip changes.
CALLS = {'draw': ['draw'], 'check': ['check'], 'level': ['check'], 'crossing': ['check'], 'compare': ['compare'], 'wide': ['draw_wide'], 'stroke': ['stroke'],
         'hang': ['hang'], 'cut': ['cut'], 'hold': ['hold'], 'held': ['hang_held'],
             'table': ['draw', 'check', 'draw_wide', 'stroke', 'hang', 'cut', 'hold', 'hang_held'],
         'placements': ['draw', 'check', 'draw_wide', 'stroke'],
         'forest draw': ['draw'], 'forest wide': ['draw_wide'], 'forest check': ['check'], 'forest stroke': ['stroke'], 'forest hang': ['hang'],
             'forest cut': ['cut'],
         'forest hold': ['hold'], 'forest held': ['hang_held']}

TIE = 'size[L[v]] >= size[R[v]]'
TIE_BY = 'size[L[v]] > size[R[v]] or size[L[v]] == size[R[v]] and '
MIRROR = 'draw_tree(child, R, L, size) '
DRAW = 'at, width, height = plan_of(t.roots, t.left, t.right)'
DRAWN = 'return (0, len(t.chain), width, height, placed(placements, at))'
WIDE = 'at, width, height = plan_of(t.roots, t.right, t.left)'
TURNED = 'wide = {b: (r, c) for b, (c, r) in at.items()}'
WIDELY = 'return (0, len(t.chain), height, width, placed(placements, wide))'
CROSS = '(p[0] - o[0]) * (q[1] - o[1]) - (p[1] - o[1]) * (q[0] - o[0])'
TIMES = 'return u[0] * v[1] - u[1] * v[0]'
COMPARE = 'kind = compare('
ON = 'if lo <= column <= hi and b not in line and'
REACH = 'if len(preorder(roots, left, right)) != len(chain):'
ABOVE = 'if at[c][1] < at[b][1]:'
EQUAL = 'if upto < 4 and at[c][1] == at[b][1]'
LEVEL = 'level = upto >= 4 and b == 0 and d == 0 and a < 0 and c > 0'
ORDER = 'if not (a * d - b * c < 0 or level)'
TOUCH = 'if kind == TOUCHING:'
CROSSED, TOUCHED = 'if crossing:\n            return 23', 'if touching or box_on_a_line(spans, at):\n            return 25'
SAME, SAME_LATE = 'if len(set(at.values())) != len(t.chain):\n        return 21', 'late = 21 if len(set(at.values())) != len(t.chain) else 0'
ABOVE_LATE = 'if at[c][1] < at[b][1]:\n            late = 22\n        if False:'
UNORDERED = 'return 24\n    return 0'
ON_ONE = 'if upto < 7:\n                break'
SEARCH, SEEN = 'in near_pairs(spans):', 'crossing = touching = False'
SOUGHT = 'if kind == CROSSING:'
OFF_LEVEL = ON + ' at[line[0]][1] != at[line[1]][1] and'            # no node is held against a level line
KINDS = 'SEPARATE, SHARED_END, CROSSING, TOUCHING = 0, 1, 2, 3'
LINE_BY_LINE = 'u, v = minus(Q, P), minus(S, R)'
MINUS = 'return (p[0] - q[0], p[1] - q[1])'
BOUNDS = 'if not (0 <= s <= q and 0 <= t <= q):'
INSIDE = 'if 0 < s < q and 0 < t < q:'
ON_GRID = 's * u[0] % q == 0 and s * u[1] % q == 0'
ENDS = 'if s in (0, q) and t in (0, q):'
TOUCH_AT = 'return TOUCHING\n\n    # Parallel'                        # an end of the one inside the other, not parallel
DIRECTION = 'd = u if u != (0, 0) else v'
POINTS_TWO = 'return SHARED_END if P == R else SEPARATE'
BESIDE = 'if times(d, minus(R, P)) != 0:'
ALONG = 'return (X[0] - P[0]) * d[0] + (X[1] - P[1]) * d[1]'
GAP = 'if first > last:'
IN_LINE = 'if first == last and first in (p, q) and first in (r, s):'
OVERLAP = 'return TOUCHING\n\n\ndef cross'                            # parallel, or a point inside a line
A_POINT = '(u == (0, 0)) != (v == (0, 0))'
LINES = '[(b, c) for b in t.chain for c in (t.left[b], t.right[b]) if c != 0]'
LIFTED, DRAWN_TO = 'strokes.append((LIFT, parent))', 'strokes.append((DRAW, child))'
FIRST = 'in millimetres as exact fractions)"""\n'
READ = FIRST + '    t = '
POINTS = 'at = points(t, placements)\n    strokes = []'
PAST = 'if number >= len(strokes):'
NTH = 'kind, b = strokes[number]'
PEN = '(Fraction(at[b][0] * pitch, 4), Fraction(at[b][1] * pitch, 4))'
SIDE = 'if side > 1:                            # "with'
OFF = 'if parent not in t.chain:'
TAKEN = 'if (t.left[parent] if side == 0 else t.right[parent]) != 0:'
TAKEN_ANY = TAKEN.replace('[parent]', '.get(parent, 0)')             # also of a parent off the chain
EMPTY = 'if t.chain:                         # "only'
NONE_FREE = 'if not t.free:'
READ_HANG = 'return (t.refusal, 0, data)'
LEAF = 'f = t.free[0]'
UNFREED = 'new = with_word(data, 0, RIGHT, word(data, f, NEXT))'
FOLLOWED = 'new = with_word(new, f, NEXT, word(data, parent, NEXT))'
FOLLOWS = 'new = with_word(new, parent, NEXT, f)'
TAGGED = 'new = with_word(new, f, TAG, tag)'
ROOTED = 'new = with_word(new, 0, LEFT, f)'
LINKED = 'new = with_word(new, parent, LEFT if side == 0 else RIGHT, f)'
READ_HOLD = 'return (t.refusal, 0)\n    refusal = _place'
PLACE_HOLD = 'if refusal != 0:\n        return (refusal, 0)\n'
NAMED = 'return (0, t.free[0])'
FIRST_HALF = 'refusal, named = hold(data, parent, side, upto)'
SECOND_HALF = 'if named != record:'
ANOTHER = 'return (11, bytes(data))'
HELD = '_, _, new = hang(data, parent, side, tag, upto)\n    return (0, new)'
NO_NODE = 'if node not in t.chain:                                     # 0 too'
READ_CUT = 'return (t.refusal, data)\n    ' + NO_NODE
CHILD = 'if t.left[node] != 0 or t.right[node] != 0:'
BEFORE = 'before = t.chain[i - 1] if i > 0 else 0'
UNCHAINED = 'new = with_word(data, before, NEXT, word(data, node, NEXT))'
CUT_LEFT, CUT_RIGHT, CUT_ROOT = 'new = with_word(new, b, LEFT, 0)', 'new = with_word(new, b, RIGHT, 0)', 'new = with_word(new, 0, LEFT, 0)'
FREED = 'new = with_word(new, node, NEXT, word(data, 0, RIGHT))'
ZEROED = 'for k in (LEFT, RIGHT, TAG):'
FIRST_FREE = 'new = with_word(new, 0, RIGHT, node)'
HEAD_RIGHT = 'if upto < 5 and word(data, 0, RIGHT) != 0:'
HEAD_TAG = 'if word(data, 0, TAG) != 0:\n        return refuse(2)'
THREE = 'if r >= records or r in on_chain:\n            return refuse(3)'
FREE_CHAIN = 'if upto >= 5:\n        met'
MET = 'if r >= records or r in met or r in on_chain:\n                return refuse(8)'
WORDS = 'if word(data, r, LEFT) != 0 or word(data, r, RIGHT) != 0 or word(data, r, TAG) != 0:\n                return refuse(8)'
LATER = 'late.append(8)\n                break'                              # 8 is found, and told later
LATE = [MET, MET.replace('return refuse(8)', LATER), WORDS, WORDS.replace('return refuse(8)', LATER), FREE_CHAIN, 'late = []\n    ' + FREE_CHAIN]
FOUR = 'if child != 0 and child not in on_chain:'
AFTER_FOUR = 'root = word(data, 0, LEFT)\n'
NO_TREE, A_TREE = 'return Table(records=records, free=free)', 'return Table(0, records, chain, free, root, roots, left, right, tag)'

TREES, TREE = 'for root in roots:', 'd = draw_tree(root, left, right, size)'
AT = 'at[b] = (c, height + r)'
WIDTH, HEIGHT, SIZES = 'width = max(width, d.width)', 'height = height + d.height', 'return at, width, height'
OTHERS = 'roots = [root] + [b for b in chain if b != root and named[b] == 0]'
OF_FIRST = 'preorder(t.roots[:1], t.left, t.right)'                    # the nodes of the head's root's tree
BY_TREE = 'FILE[0] = {b: r for r in t.roots for b in preorder([r], t.left, t.right)}'
SINGLE = '[r for r in t.roots if t.left[r] == t.right[r] == 0]'
SINGLE_ON = 'any(box_on_a_line([span], {b: at[b] for b in (r, *span[4])}) for span in extents(lines, at) for r in %s)' % SINGLE
SPANS = 'spans = extents(lines, at)'
ON_IT = 'on_line((column, row), at[line[0]], at[line[1]]):'
ROW_BY_ROW, TO_BOTTOM = 'range(bisect.bisect_left(rows, top), len(boxes))', 'if row > bottom:'
IN_COLUMNS, IN_ROWS = 'min(p[0], q[0]) <= b[0] <= max(p[0], q[0]) and', 'min(p[1], q[1]) <= b[1] <= max(p[1], q[1]))'
ROWS = 'rows = [(min(ys), max(ys)) for ys in ([at[b][1] for b in preorder([r], t.left, t.right)] for r in t.roots)]'
NO_ROOT, ROOT_NAMED, TWICE = 'if root not in on_chain:', 'if named[root] != 0:', 'if named[b] > 1:'
STILL = 'if upto < 8 and b != root and named[b] != 1:'
NAMES = 'for child in (left[b], right[b]):\n            if child != 0:\n                named'
REACH_ANY = 'if len(set(preorder(roots, left, right))) != len(chain):'
UNNAMED = 'root = next((b for b in chain if not any(b in (left[c], right[c]) for c in chain)), 0)\n    ' + NO_ROOT
HEAD_ROOT, OWN_ROOT = 'if upto >= 8 and node == t.root and len(t.chain) > 1:', 'if node == t.root:\n'


def cycle(length):
    """A cycle of so many nodes that is reached from no root is passed over."""
    steps = 'b in [x for path in paths(b, left, right, %d) for x in path[-1:]]' % length
    return REACH, 'if len(preorder(roots, left, right)) + sum(%s for b in chain) != len(chain):' % steps


def held_against(cause):
    """A node on a line is seen, but by its own lines, only where that cause holds of the node b, the line and the table, FILE[0]."""
    return CROSSED, 'FILE[0] = t\n        ' + CROSSED, ON_IT, ON_IT.replace(':', ' and %s:' % cause)


# Slips of how several trees are drawn, wide or not.
STACKING = [
    ('trees in the order of their records', OTHERS, OTHERS.replace('in chain', 'in sorted(chain)')),
    ('trees in the order of the chain from its end', OTHERS, OTHERS.replace('in chain', 'in chain[::-1]')),
    ('trees in the order in which the chain first comes to a node of them', OTHERS,
     OTHERS + '\n    roots[1:] = sorted(roots[1:], key=lambda r: min(map(chain.index, preorder([r], left, right))))'),
    ("the head's root's tree where its root is in the chain", OTHERS, 'roots = [b for b in chain if named[b] == 0]'),
    ("the head's root's tree is the last", OTHERS, 'roots = [b for b in chain if b != root and named[b] == 0] + [root]'),
    ("the tree of the chain's first root first, and the head's root's second", OTHERS, OTHERS + '; roots[:2] = sorted(roots[:2], key=chain.index)'),
    ('the largest tree first', TREES, 'for root in sorted(roots, key=lambda r: -size[r]):'),
    ('another tree begins at column 1', AT, 'at[b] = (c + (root != roots[0]), height + r)'),
    ('another tree begins at the greatest column so far', AT, 'at[b] = (c + max(width - 1, 0), height + r)'),
    ('trees side by side', AT, 'at[b] = (width + c, r)', WIDTH, 'width = width + d.width', HEIGHT, 'height = max(height, d.height)'),
    ('all trees from the top', AT, 'at[b] = (c, r)'),
    ('the second tree begins in the last row of the first', AT, 'at[b] = (c, height - (height > 0) + r)'),
    ('each tree begins in the last row of the one before', HEIGHT, 'height = height + d.height - (root != roots[-1])'),
    ('a row is left free under the first tree', AT, 'at[b] = (c, height + (height > 0) + r)'),
    ('a row is left free between trees', HEIGHT, 'height = height + d.height + (root != roots[-1])'),
    ('a tree begins under as many rows as there are nodes before', HEIGHT, 'height = height + len(d.boxes)'),
    ('all other trees begin right under the first', AT, 'at[b] = (c, r + (0 if root == roots[0] else FILE[0]))',
     HEIGHT, 'FILE[0] = d.height if root == roots[0] else FILE[0]; height = max(height, FILE[0] + d.height if root != roots[0] else d.height)'),
    ('the height of the last tree is forgotten', SIZES, 'return at, width, height - (d.height if len(roots) > 1 else 0)'),
    ('the height of the first tree alone', HEIGHT, 'FILE[0] = d.height if root == roots[0] else FILE[0]; height = height + d.height',
     SIZES, 'return at, width, FILE[0] if roots else 0'),
    ('the greatest height', SIZES, 'return at, width, max((draw_tree(r, left, right, size).height for r in roots), default=0)'),
    ('the width of the first tree alone', WIDTH, 'width = width or d.width'),
    ('the width of the last tree alone', WIDTH, 'width = d.width'),
    ('the widths are added', WIDTH, 'width = width + d.width'),
    ('the first tree alone is drawn', TREES, 'for root in roots[:1]:'),
    ('two trees alone are drawn', TREES, 'for root in roots[:2]:'),
    ('other single nodes are not drawn', TREES, 'for root in [r for r in roots if r == roots[0] or size[r] > 1]:'),
    ('a single node takes no row', HEIGHT, 'height = height + d.height - (size[root] == 1)'),
    ('other trees are drawn as seen in a mirror', TREE, 'd = draw_tree(root, *((left, right) if root == roots[0] else (right, left)), size)'),
    ('other trees are flipped', AT, 'at[b] = (c if root == roots[0] else d.width - 1 - c, height + r)'),
]
# Slips of the places below several trees at which a hang, or either half of it, is refused.
PLACING_TREES = [
    ('nothing is hung below another tree', OFF, 'if parent not in %s:' % OF_FIRST),
    ('nothing is hung below another root', OFF, 'if parent not in t.chain or parent in t.roots[1:]:'),
    ('another root is hung where there are several', EMPTY, EMPTY.replace('t.chain', 'len(t.roots) == 1')),
]
# Slips of what is written by a hang below one of several trees.
WRITING_TREES = [
    ('chained at the end of its tree', FOLLOWED,
     'p = max(*[preorder([r], t.left, t.right) for r in t.roots if parent in preorder([r], t.left, t.right)] or [[0]], key=t.chain.index) if parent else 0; '
     'new = with_word(new, f, NEXT, word(data, p, NEXT))', FOLLOWS, 'new = with_word(new, p, NEXT, f)'),
    ("the head's root is written over by what is hung below another root", LINKED,
     LINKED + '\n        if parent in t.roots[1:]:\n            new = with_word(new, 0, LEFT, f)'),
]

# Slips of what is written by a hang, whole or by halves.
WRITING = [
    ('the record stays free', UNFREED, 'new = data'),
    ('the free records behind it are lost', UNFREED, 'new = with_word(data, 0, RIGHT, 0)'),
    ('the last free record is taken', LEAF, 'f = t.free[-1]'),
    ('the free record of the least number is taken', LEAF, 'f = min(t.free)'),
    ('a record on neither chain is taken', LEAF, 'f = min(set(range(1, t.records)) - set(t.chain))'),
    ('chained at the end', FOLLOWED, 'new = with_word(new, f, NEXT, 0)', FOLLOWS, 'new = with_word(new, t.chain[-1] if t.chain else 0, NEXT, f)'),
    ('chained at the front', FOLLOWED, 'new = with_word(new, f, NEXT, word(data, 0, NEXT))', FOLLOWS, 'new = with_word(new, 0, NEXT, f)'),
    ('chained before its parent', FOLLOWED, 'new = with_word(new, f, NEXT, parent)',
     FOLLOWS, 'new = with_word(new, ([0] + t.chain)[t.chain.index(parent)] if parent else 0, NEXT, f)'),
    ('chained behind the left child, if there is one', FOLLOWED, 'p = t.left.get(parent, 0) or parent; new = with_word(new, f, NEXT, word(data, p, NEXT))',
     FOLLOWS, 'new = with_word(new, p, NEXT, f)'),
    ('not chained', FOLLOWS, 'pass'),
    ('the chain behind the parent is lost', FOLLOWED, 'new = with_word(new, f, NEXT, 0)'),
    ('the chain goes on along the free records', FOLLOWED, 'pass'),
    ('the tag is not written', TAGGED, 'pass'),
    ('the tag cut to 8 bits', TAGGED, TAGGED.replace('tag)', 'tag % 256)')),
    ('always on the left', LINKED, LINKED.replace('LEFT if side == 0 else RIGHT', 'LEFT')),
    ('left and right traded', LINKED, LINKED.replace('side == 0', 'side == 1')),
    ('no link to it', LINKED, 'pass'),
    ('no link to the root', ROOTED, 'pass'),
    ("the root on the right side is written to the head's right", ROOTED, ROOTED.replace('LEFT', 'LEFT if side == 0 else RIGHT')),
]
# Slips of the places at which a hang, or either half of it, is refused.
PLACING = [
    ('a side above 1 is taken', SIDE, SIDE.replace('side > 1', 'False')),
    ('a side above 1 is taken for the root', SIDE, SIDE.replace('side > 1', 'side > 1 and parent != 0')),
    ('the side cut to a bit', SIDE, 'side %= 2\n    ' + SIDE, LINKED, LINKED.replace('side', 'side % 2')),
    ('a second root', EMPTY, EMPTY.replace('t.chain', 'False')),
    ('a side that is taken is written over', TAKEN, 'if False:'),
    ('the other side is asked for', TAKEN, TAKEN.replace('side == 0', 'side == 1')),
    ('one child is enough', TAKEN, 'if t.left[parent] != 0 or t.right[parent] != 0:'),
    ('a parent that is free', OFF, 'if parent not in t.chain + t.free:', TAKEN, TAKEN_ANY),
    ('a parent on neither chain', OFF, 'if parent >= t.records or parent in t.free:', TAKEN, TAKEN_ANY),
    ('10 before 9', SIDE, 'if not t.free:\n        return 10\n    ' + SIDE),
    ('10 before a side above 1', SIDE, 'if not t.free and side > 1:\n        return 10\n    ' + SIDE),
    ('10 before a side that is taken', TAKEN, 'if not t.free:\n            return 10\n        ' + TAKEN),
    ('10 before a tree that is not empty', EMPTY, 'if t.chain and not t.free:\n            return 10\n        ' + EMPTY),
    ('the root is hung on the left alone', EMPTY, EMPTY.replace('t.chain', 't.chain or side == 1')),
    ('no root is hung', EMPTY, EMPTY.replace('t.chain', 'True')),
]


def overlap(kind, cause='True'):
    """Another kind for lines of one straight line that share more than an end, or for a point inside a line, where that cause holds."""
    return OVERLAP, OVERLAP.replace('TOUCHING', '%s if %s else TOUCHING' % (kind, cause))


def touch(kind, cause='True'):
    """Another kind for an end of a line inside another that is not parallel, where that cause holds."""
    return TOUCH_AT, TOUCH_AT.replace('TOUCHING', '%s if %s else TOUCHING' % (kind, cause))


# Slips of a comparison of two lines that a check tells as well.
MEETING = [
    ('a touch is called a crossing', *touch('CROSSING')),
    ('an end of the first line inside the second is called a crossing', *touch('CROSSING', 's in (0, q)')),
    ('an end of the second line inside the first is called a crossing', *touch('CROSSING', 't in (0, q)')),
    ('an overlap is called a crossing', *overlap('CROSSING')),
    ('an overlap with a shared end is called a crossing', *overlap('CROSSING', 'first in (p, q) and first in (r, s) or last in (p, q) and last in (r, s)')),
    ('an overlap without a shared end is called a crossing', *overlap('CROSSING', 'len({p, q, r, s}) == 4')),
    ('a crossing is called a touch', INSIDE, INSIDE + '\n            return TOUCHING\n        if False:'),
    ('a crossing in a grid point is called a touch', INSIDE, 'if 0 < s < q and 0 < t < q and %s:\n            return TOUCHING\n        ' % ON_GRID + INSIDE),
    ('a crossing between grid points is not seen', INSIDE, 'if 0 < s < q and 0 < t < q and not (%s):\n            return SEPARATE\n        '
        % ON_GRID + INSIDE),
    ('a crossing in a grid point is not seen', INSIDE, 'if 0 < s < q and 0 < t < q and %s:\n            return SEPARATE\n        ' % ON_GRID + INSIDE),
    ('inside one line is enough for a crossing', INSIDE, INSIDE.replace('and', 'or')),
    ('inside the first line is enough for a crossing', INSIDE, 'if 0 < s < q:'),
    ('inside the second line is enough for a crossing', INSIDE, 'if 0 < t < q:'),
    ('the first line goes on beyond its ends', BOUNDS, 'if not 0 <= t <= q:', INSIDE, 'if s not in (0, q) and 0 < t < q:'),
    ('the second line goes on beyond its ends', BOUNDS, 'if not 0 <= s <= q:', INSIDE, 'if 0 < s < q and t not in (0, q):'),
    ('products cut to 32 bits', TIMES, 'return to32(u[0] * v[1] - u[1] * v[0])'),
    ('differences cut to 16 bits', MINUS, 'return tuple((a - b + 2 ** 15) % 2 ** 16 - 2 ** 15 for a, b in zip(p, q))'),
]


def early(read):
    """Slips of 9 and 10, told before what the table itself gives, at the line that tells that."""
    return [(name, read, read.replace('t.refusal', sooner + ' else t.refusal')) for name, sooner in (
        ('9 for the side before all others', '9 if side > 1'),
        ('9 for the root before 5', '9 if parent == 0 and t.refusal == 5'),
        ('9 for the root before 8', '9 if parent == 0 and t.refusal == 8'),
        ('10 before 5', '10 if t.refusal == 5 and word(data, 0, RIGHT) == 0'))]


def eleven(cause):
    """11 told earlier: another record than the head's right names, with that cause."""
    return FIRST_HALF, FIRST_HALF + "\n    if %s and bytes(data[4:6]) != record.to_bytes(2, 'little'):\n        %s" % (cause, ANOTHER)


SLIPS = [
    ('draw', 'a child pending at the end is forgotten, left hand', 'put_by_left_edge(pending_left, 1, lowest_row() + 1)', 'pass'),
    ('draw', 'a child pending at the end is forgotten, right hand',
     'put_by_right_edge(pending_right, W + 2 - 1, lowest_row() + 1)', 'pass'),
    ('draw', 'a child pending at a switch is forgotten', 'put_by_left_edge(pending_left, 1, bottom + 1)', 'pass'),
    ('draw', 'the node after a left knee is one row below the knee', 'column, row = 1, lowest_row() + 1', 'column, row = 1, r + 1'),
    ('draw', 'the node after a right knee is one row below the knee',
     'column, row = W + 2 - 1, lowest_row() + 1', 'column, row = W + 2 - 1, r + 1'),
    ('draw', 'what hangs from a left knee is one row below the knee', 'hung_right[i], 1, lowest_row() + 1', 'hung_right[i], 1, r + 1'),
    ('draw', 'what hangs from a right knee is one row below the knee',
     'hung_left[i], W + 2 - 1, lowest_row() + 1', 'hung_left[i], W + 2 - 1, r + 1'),
    ('draw', 'a right-side drawing is flipped and not mirrored', MIRROR, 'draw_tree(child, L, R, size) '),
    ('draw', 'ties go to the right', TIE, 'size[L[v]] > size[R[v]]'),
    ('draw', "ties go to the file's left", TIE, TIE_BY + 'L is FILE[0]', DRAW, 'FILE[:] = [t.left]; ' + DRAW),
    ('draw', "in a mirror within a mirror ties go to the file's right",
     TIE, TIE_BY + 'DEEP[0] != 2', MIRROR, 'deeper(draw_tree, child, R, L, size) '),
    ('draw', 'W over the subtrees met so far', 'put(b, column, row)  ',
     'W = max([d.width for h in (hung_left, hung_right) for k, d in h.items() if k <= i] + [0]); put(b, column, row)  '),
    ('draw', 'a switch sets the next node below its subtree', 'column, row = W + 2, r + 1', 'column, row = W + 2, bottom + 1'),
    ('draw', 'an ordinary node sets the next one below the drawing', 'column, row = 1, bottom\n', 'column, row = 1, bottom + 1\n'),
    ('draw', 'hung subtrees are left out', 'child != 0 and child != following', 'False'),
    ('draw', 'the width is that of the spine', DRAWN, DRAWN.replace('width', '2')),
    ('draw', "the head's placement is written", DRAWN, DRAWN.replace(', at)', ', {**at, 0: (0, 0)})')),
    ('wide', 'the tree is not mirrored', WIDE, DRAW),
    ('wide', "the root's children alone are exchanged", WIDE,
     'at, width, height = plan_of(t.roots, *({b: x[b == t.root][b] for b in t.chain} for x in ((t.left, t.right), (t.right, t.left))))'),
    ('wide', "left and right of the chain's last node are not exchanged", WIDE,
     'at, width, height = plan_of(t.roots, *({b: x[b != t.chain[-1]][b] for b in t.chain} for x in ((t.left, t.right), (t.right, t.left))))'),
    ('wide', 'the drawing is flipped and the tree not mirrored', WIDE, DRAW, TURNED, 'wide = {b: (r, width - 1 - c) for b, (c, r) in at.items()}'),
    ('wide', 'columns and rows are not exchanged', TURNED, 'wide = at'),
    ('wide', "column and row of the chain's last node are not exchanged", TURNED, TURNED + '; wide.update({b: at[b] for b in t.chain[-1:]})'),
    ('wide', 'width and height are not exchanged', WIDELY, WIDELY.replace('height, width', 'width, height')),
    ('wide', 'columns and rows of all records are exchanged', WIDELY,
     WIDELY.replace('(placements,', '([placements[k ^ 1] if k ^ 1 < len(placements) else placements[k] for k in range(len(placements))],')),
    ('wide', 'ties go to the right', TIE, 'size[L[v]] > size[R[v]]'),
    ('wide', "ties go to the file's left", TIE, TIE_BY + 'L is FILE[0]', WIDE, 'FILE[:] = [t.left]; ' + WIDE),
    ('wide', "ties go to the file's right", TIE, TIE_BY + 'L is FILE[0]', WIDE, 'FILE[:] = [t.right]; ' + WIDE),
    ('check', 'a child above its parent passes', ABOVE, 'if False:'),
    ('check', 'lines that share an end are not compared', COMPARE, 'kind = {b, c} & {e, f} or compare(', ON, 'if False and'),
    ('check', 'crossings are tested in the middles of lines only', 'if kind == TOUCHING', 'if kind == TOUCHING and {b, c} & {e, f}',
     ON, 'if False and'),
    ('check', 'cross products cut to 32 bits', CROSS, 'to32(' + CROSS + ')', TIMES, 'return to32(u[0] * v[1] - u[1] * v[0])'),
    ('check', 'the products of 24 cut to 32 bits', ORDER, ORDER.replace('a * d - b * c', 'to32(a * d - b * c)')),
    ('check', '24 with the sides exchanged', ORDER, ORDER.replace('<', '>'), LEVEL, LEVEL.replace('a < 0 and c > 0', 'a > 0 and c < 0')),
    ('level', '22 with "not greater"', EQUAL, 'if at[c][1] == at[b][1]'),
    ('level', 'level children are never in order', LEVEL, 'level = False'),
    ('level', 'level children are in order either way', LEVEL, LEVEL.replace('a < 0 and c > 0', 'a * c < 0')),
    ('level', 'one level child is enough', LEVEL, 'level = b == 0 or d == 0'),
    ('level', 'a level child and a lower one are out of order', ORDER, ORDER.replace('< 0', '< 0 and b > 0 and d > 0')),
    ('level', 'a level child and a lower one are in order by their columns', ORDER, 'if not (a < 0 < c if b == 0 or d == 0 else a * d - b * c < 0)'),
    ('level', 'level lines of one row are not compared', COMPARE, 'kind = at[b][1] == at[c][1] == at[e][1] == at[f][1] or compare(', ON, OFF_LEVEL),
    ('level', 'level lines of one row with a common end are not compared',
     COMPARE, 'kind = at[b][1] == at[c][1] == at[e][1] == at[f][1] and bool({b, c} & {e, f}) or compare(', ON, OFF_LEVEL),
    ('level', 'level lines of one row without a common end are not compared',
     COMPARE, 'kind = at[b][1] == at[c][1] == at[e][1] == at[f][1] and not {b, c} & {e, f} or compare(', ON, OFF_LEVEL),
    ('level', 'level lines to the left are not compared', COMPARE,
     'kind = at[b][1] == at[c][1] and at[c] < at[b] or at[e][1] == at[f][1] and at[f] < at[e] or compare(', ON, OFF_LEVEL),
    ('level', 'a level line may touch another line', TOUCH, TOUCH.replace(':', ' and at[b][1] != at[c][1] and at[e][1] != at[f][1]:'), ON, OFF_LEVEL),
    ('level', 'a level line may touch one that is not level', TOUCH, TOUCH.replace(':', ' and (at[b][1] == at[c][1]) == (at[e][1] == at[f][1]):'), ON,
        OFF_LEVEL),
    ('level', 'a level line may cross another', SOUGHT, SOUGHT.replace(':', ' and at[b][1] != at[c][1] and at[e][1] != at[f][1]:')),
    *[('crossing', *slip) for slip in MEETING],
    ('crossing', '25 is never given, 23 as before', TOUCHED, TOUCHED.replace('25', '23')),
    ('crossing', '23 is never given', CROSSED, CROSSED.replace('23', '25')),
    ('crossing', '23 and 25 are traded', CROSSED, CROSSED.replace('23', '25'), TOUCHED, TOUCHED.replace('25', '23')),
    ('crossing', '25 before 23', CROSSED, TOUCHED + '\n        ' + CROSSED),
    ('crossing', '23 only where no lines touch', CROSSED, CROSSED.replace('crossing', 'crossing and not box_on_a_line(spans, at)')),
    ('crossing', 'crossings are not seen', CROSSED, 'crossing = False'),
    ('crossing', 'touches are not seen', TOUCHED, 'touching = False'),
    ('crossing', 'the search stops at the first fault', ON_ONE, 'break'),
    ('crossing', 'the search stops at the first fault, lines by parent in chain order', ON_ONE, 'break',
     SEARCH, SEARCH.replace('near_pairs(spans)', 'by_chain(near_pairs(spans), lines)')),
    ('crossing', 'the search stops at the first fault, lines by parent in chain order from the end', ON_ONE, 'break',
     SEARCH, SEARCH.replace('near_pairs(spans)', 'by_chain(near_pairs(spans), lines[::-1])')),
    ('crossing', 'the search stops at the first fault, from the bottom', ON_ONE, 'break', SEARCH,
        SEARCH.replace('near_pairs(spans)', 'list(near_pairs(spans))[::-1]')),
    ('crossing', 'of each line only the first fault is told',
     SEARCH, SEARCH.replace('near_pairs(spans)', '((l, m) for l, m in near_pairs(spans) if not {l, m} & FILE[0])'),
     SEEN, SEEN + '; FILE[0] = set()', ON_ONE, 'FILE[0].update(((b, c), (e, f)))'),
    ('crossing', 'only the last fault is told', SOUGHT, SOUGHT.replace(':', ':\n            crossing, touching = True, False\n        if False:'),
     TOUCH, TOUCH + '\n            crossing = False'),
    ('crossing', 'a crossing where a node is, is a touch', SOUGHT,
     SOUGHT.replace(':', ' and not any(on_line(at[x], at[b], at[c]) and on_line(at[x], at[e], at[f]) for x in at if x not in (b, c, e, f)):')),
    ('crossing', 'a line that touches two others crosses them', SEEN, SEEN + '; FILE[0] = set()',
     TOUCH, TOUCH + '\n            crossing |= bool({(b, c), (e, f)} & FILE[0]); FILE[0].update(((b, c), (e, f)))'),
    ('crossing', 'a node on a line that it does not end is not seen', TOUCH, TOUCH.replace(':', ' and {b, c} & {e, f}:'), ON, 'if False and'),
    ('crossing', 'an overlap of lines from one node is not seen', TOUCH, TOUCH.replace(':', ' and b != e:'), ON, 'if False and'),
    ('crossing', '24 before 25', TOUCHED, 'late = touching or box_on_a_line(spans, at)', UNORDERED, UNORDERED.replace('0', '25 if late else 0')),
    ('crossing', '24 before 23', CROSSED, 'late = crossing', TOUCHED, TOUCHED.replace('if', 'if not crossing and (').replace(':', '):'),
     UNORDERED, UNORDERED.replace('0', '23 if late else 0')),
    ('crossing', '25 before 22', SAME, 'late = 0\n    ' + SAME, ABOVE, ABOVE_LATE, CROSSED, CROSSED.replace('23', 'late or 23'),
     TOUCHED, TOUCHED + '\n        if late:\n            return late'),
    ('crossing', '23 before 22', SAME, 'late = 0\n    ' + SAME, ABOVE, ABOVE_LATE, CROSSED, CROSSED + '\n        if late:\n            return late'),
    ('crossing', '25 before 21', SAME, SAME_LATE, CROSSED, CROSSED.replace('23', 'late or 23'), TOUCHED,
        TOUCHED + '\n        if late:\n            return late'),
    ('crossing', '23 before 21', SAME, SAME_LATE, CROSSED, CROSSED + '\n        if late:\n            return late'),
    *[('compare', *slip) for slip in MEETING],
    ('compare', 'separate and a shared end are traded', KINDS, KINDS.replace('0, 1', '1, 0')),
    ('compare', 'a shared end and touching are traded', KINDS, KINDS.replace('1, 2, 3', '3, 2, 1')),
    ('compare', 'crossing and touching are traded', KINDS, KINDS.replace('2, 3', '3, 2')),
    ('compare', 'lines beyond their ends touch', BOUNDS, 'if False:'),
    ('compare', 'the ends are no part of the first line', BOUNDS, BOUNDS.replace('0 <= s <= q', '0 < s < q')),
    ('compare', 'the ends are no part of the second line', BOUNDS, BOUNDS.replace('0 <= t <= q', '0 < t < q')),
    ('compare', 'the first end is no part of the first line', BOUNDS, BOUNDS.replace('0 <= s', '0 < s')),
    ('compare', 'the last end is no part of the first line', BOUNDS, BOUNDS.replace('s <= q', 's < q')),
    ('compare', 'the first end is no part of the second line', BOUNDS, BOUNDS.replace('0 <= t', '0 < t')),
    ('compare', 'the last end is no part of the second line', BOUNDS, BOUNDS.replace('t <= q', 't < q')),
    ('compare', 'an end of the first line inside the second is not seen', *touch('SEPARATE', 's in (0, q)')),
    ('compare', 'an end of the second line inside the first is not seen', *touch('SEPARATE', 't in (0, q)')),
    ('compare', 'an end of one line is enough for a shared end', ENDS, ENDS.replace('and', 'or')),
    ('compare', 'end to end at an angle is called a touch', ENDS, 'if False:'),
    ('compare', 'a shared end is the first end of both', ENDS, 'if s == 0 and t == 0:'),
    ('compare', 'a shared end is the same end of both', ENDS, 'if s == t and s in (0, q):'),
    ('compare', 'a shared end is the last of the first line and the first of the second', ENDS, 'if s == q and t == 0:'),
    ('compare', 'parallel lines are separate', DIRECTION, 'return SEPARATE\n    ' + DIRECTION),
    ('compare', 'parallel lines touch', BESIDE, BESIDE + '\n        return TOUCHING\n    if False:'),
    ('compare', 'parallel lines beside each other overlap', BESIDE, 'if False:'),
    ('compare', 'lines of one straight line are never separate', GAP, 'if False:'),
    ('compare', 'lines of one straight line that have no shared end are separate', *overlap('SEPARATE', 'not {p, q} & {r, s}')),
    ('compare', 'end to end in line is called a touch', IN_LINE, 'if False:'),
    ('compare', 'end to end in line is called separate', GAP, GAP.replace('>', '>=')),
    ('compare', 'an overlap is called a shared end', *overlap('SHARED_END', 'u != (0, 0) != v')),
    ('compare', 'an overlap with a shared end is called a shared end', *overlap('SHARED_END', '{p, q} & {r, s}')),
    ('compare', 'the same line is called a shared end', *overlap('SHARED_END', '{p, q} == {r, s}')),
    ('compare', 'the same line is called a crossing', *overlap('CROSSING', '{p, q} == {r, s}')),
    ('compare', 'the same line the other way is called a crossing', *overlap('CROSSING', '(p, q) == (s, r)')),
    ('compare', 'a line within the other is not seen', *overlap('SEPARATE', 'min(p, q) < min(r, s) and max(r, s) < max(p, q)')),
    ('compare', 'a line around the other is not seen', *overlap('SEPARATE', 'min(r, s) < min(p, q) and max(p, q) < max(r, s)')),
    ('compare', 'places along a line by columns alone', ALONG, 'return X[0]'),
    ('compare', 'places along a line by rows alone', ALONG, 'return X[1]'),
    ('compare', 'places along a line cut to 32 bits', ALONG, ALONG.replace('return ', 'return to32(') + ')'),
    ('compare', 'a point inside a line is called a crossing', *overlap('CROSSING', A_POINT)),
    ('compare', 'a point inside a line is called a shared end', *overlap('SHARED_END', A_POINT)),
    ('compare', 'a point inside a line is called separate', *overlap('SEPARATE', A_POINT)),
    ('compare', 'a point at an end of a line is called a touch', IN_LINE, IN_LINE.replace(':', ' and not (%s):' % A_POINT)),
    ('compare', 'a point at an end of a line is called separate', GAP,
        GAP.replace(':', ' or first == last and first in (p, q) and first in (r, s) and (%s):' % A_POINT)),
    ('compare', 'a point beyond a line touches it', GAP, GAP.replace(':', ' and not (%s):' % A_POINT)),
    ('compare', 'a point beside a line touches it', BESIDE, 'if not (%s) and' % A_POINT + BESIDE[2:], GAP, GAP.replace(':', ' and not (%s):' % A_POINT)),
    ('compare', 'a point for the first line is held against the first end of the second', DIRECTION, 'd = u'),
    ('compare', 'a point for the second line is held against the first end of the first', DIRECTION, 'd = v'),
    ('compare', 'two points are always separate', POINTS_TWO, 'return SEPARATE'),
    ('compare', 'two points always meet', POINTS_TWO, 'return SHARED_END'),
    ('compare', 'two points at one place touch', POINTS_TWO, POINTS_TWO.replace('SHARED_END', 'TOUCHING')),
    ('compare', 'two points in one column meet', POINTS_TWO, POINTS_TWO.replace('P == R', 'P[0] == R[0]')),
    ('compare', 'two points in one row meet', POINTS_TWO, POINTS_TWO.replace('P == R', 'P[1] == R[1]')),
    ('compare', 'the lines from 1 to 3 and from 2 to 4', LINE_BY_LINE, 'Q, R = R, Q\n    ' + LINE_BY_LINE),
    ('compare', 'the lines from 1 to 4 and from 2 to 3', LINE_BY_LINE, 'Q, S = S, Q\n    ' + LINE_BY_LINE),
    *[('compare', 'column and row of point %d are traded' % k, LINE_BY_LINE, '%s = %s[::-1]\n    ' % (p, p) + LINE_BY_LINE) for k, p in enumerate('PQRS', 1)],
    ('stroke', 'right before left', LINES, LINES.replace('(t.left[b], t.right[b])', '(t.right[b], t.left[b])')),
    ('stroke', 'lines in the order of the records', LINES, LINES.replace('in t.chain', 'in sorted(t.chain)')),
    ('stroke', 'lines in the order of the tree', LINES, LINES.replace('in t.chain', 'in preorder(t.roots, t.left, t.right)')),
    ('stroke', 'lines by child in chain order', LINES,
     '[(p[c], c) for p in [{c: b for b in t.chain for c in (t.left[b], t.right[b])}] for c in t.chain if c in p]'),
    ('stroke', "no child is a line to the head's placement", LINES, LINES.replace(' if c != 0', ''),
     POINTS, POINTS.replace('points(t, placements)', '{0: (placements[0], placements[1]), **points(t, placements)}')),
    ('stroke', 'a lift to the child', LIFTED, LIFTED.replace('parent', 'child')),
    ('stroke', 'a draw to the parent', DRAWN_TO, DRAWN_TO.replace('child', 'parent')),
    ('stroke', 'from the child to the parent', LIFTED, LIFTED.replace('parent', 'child'), DRAWN_TO, DRAWN_TO.replace('child', 'parent')),
    ('stroke', 'lift and draw traded', LIFTED, LIFTED.replace('LIFT', 'DRAW'), DRAWN_TO, DRAWN_TO.replace('DRAW', 'LIFT')),
    ('stroke', 'pitch 0 is taken', 'if pitch == 0:', 'if False:'),
    ('stroke', '7 before 6', READ, READ + 'Table(refusal=7) if pitch == 0 and read(data, upto).refusal == 0 else '),
    ('stroke', '7 before all others', READ, READ + 'Table(refusal=7) if pitch == 0 else '),
    ('stroke', '7 not where the number is past the last stroke', 'if pitch == 0:', 'if pitch == 0 and number < 2 * len(lines_of(t)):'),
    ('stroke', 'only good placements are taken', PAST, PAST.replace(':', ' or check(data, placements, upto) != 0:')),
    ('stroke', 'placements in chain order', POINTS,
     POINTS.replace('points(t, placements)', '{b: (placements[2 * i], placements[2 * i + 1]) for i, b in enumerate(t.chain, 1)}')),
    ('stroke', 'column and row traded', PEN, PEN.translate({ord('0'): '1', ord('1'): '0'})),
    ('stroke', 'the column twice', PEN, PEN.replace('[1]', '[0]')),
    ('stroke', 'halves, not quarters', PEN, PEN.replace(', 4)', ', 2)')),
    ('stroke', 'whole millimetres', PEN, PEN.replace(', 4)', ' // 4)')),
    ('stroke', 'the pitch in whole millimetres', PEN, PEN.replace('pitch, 4)', '(pitch // 4))')),
    ('stroke', 'the product cut to 16 bits', PEN, PEN.replace('pitch', 'pitch % 2 ** 16')),
    ('stroke', 'the pitch with a sign', PEN, PEN.replace('pitch', '(pitch - pitch // 128 * 256)')),
    ('stroke', 'done one stroke too early', PAST, PAST.replace(':', ' - 1:')),
    ('stroke', 'done one stroke too late', PAST, PAST.replace('>=', '>'), NTH, NTH.replace('[number]', '[number % len(strokes)]')),
    ('stroke', 'past the last stroke the last again', PAST, 'if not strokes:', NTH, NTH.replace('[number]', '[min(number, len(strokes) - 1)]')),
    ('stroke', 'the number is not halved', PAST, PAST.replace('len(strokes)', 'len(strokes) // 2'), NTH, NTH.replace('number', '2 * number + number % 2')),
    ('stroke', 'the number cut to 16 bits', FIRST, FIRST + '    number %= 2 ** 16\n'),
    ('stroke', 'the number cut to 32 bits', FIRST, FIRST + '    number %= 2 ** 32\n'),
    ('stroke', 'the number with a sign', FIRST, FIRST + '    number -= number // 2 ** 63 * 2 ** 64\n', NTH, NTH.replace('[number]', '[max(number, 0)]')),
    *[('hang', *slip) for slip in WRITING + PLACING + early(READ_HANG)],
    ('hang', 'where none is free, a record on neither chain is taken', LEAF, 'f = min(t.free[:1] or set(range(1, t.records)) - set(t.chain))',
     NONE_FREE, 'if t.records == 1 + len(t.chain):'),
    ('hang', 'with no record free it answers 0 and keeps the table', READ_HANG,
        READ_HANG + '\n    if _place_refusal(t, parent, side) == 10:\n        return (0, 0, data)'),
    ('cut', "the parent's left is left as it is", CUT_LEFT, 'pass'),
    ('cut', "the parent's right is left as it is", CUT_RIGHT, 'pass'),
    ('cut', "the head's link is left as it is", CUT_ROOT, 'pass'),
    ('cut', 'the right sibling is cut off too', CUT_LEFT, 'new = with_word(with_word(new, b, LEFT, 0), b, 2, 0)'),
    ('cut', 'a node with a child is cut', CHILD, 'if False:'),
    ('cut', 'a node with a left child is cut', CHILD, 'if t.right[node] != 0:'),
    ('cut', 'a node with a right child is cut', CHILD, 'if t.left[node] != 0:'),
    ('cut', 'a node with one child is cut', CHILD, 'if t.left[node] != 0 and t.right[node] != 0:'),
    ('cut', 'a node with one child is cut, and the child takes its place', CHILD, 'if t.left[node] != 0 and t.right[node] != 0:',
     CUT_LEFT, CUT_LEFT.replace('0)', 't.left[node] or t.right[node])'), CUT_RIGHT, CUT_RIGHT.replace('0)', 't.left[node] or t.right[node])')),
    ('cut', 'the only node is not cut', CHILD, 'if t.left[node] != 0 or t.right[node] != 0 or len(t.chain) == 1:'),
    ('cut', 'the tag is left', ZEROED, 'for k in (LEFT, RIGHT):'),
    ('cut', 'its next is left', FREED, 'pass'),
    ('cut', 'the free records behind it are lost', FREED, 'new = with_word(new, node, NEXT, 0)'),
    ('cut', 'last among the free', FREED, 'new = with_word(new, node, NEXT, 0)',
     FIRST_FREE, 'new = with_word(new, *((t.free[-1], NEXT) if t.free else (0, RIGHT)), node)'),
    ('cut', 'second among the free', FREED, 'new = with_word(new, node, NEXT, word(data, t.free[0], NEXT) if t.free else 0)',
     FIRST_FREE, 'new = with_word(new, *((t.free[0], NEXT) if t.free else (0, RIGHT)), node)'),
    ('cut', 'not among the free', FIRST_FREE, 'pass'),
    ('cut', 'the chain is left as it is', UNCHAINED, 'new = data'),
    ('cut', 'the chain behind it is lost', UNCHAINED, 'new = with_word(data, before, NEXT, 0)'),
    ('cut', 'its parent is taken for the one before it', BEFORE, 'before = ([b for b in t.chain if node in (t.left[b], t.right[b])] or [0])[0]'),
    ('cut', "the head's next is left as it is", BEFORE, 'before = t.chain[max(i - 1, 0)]'),
    ('cut', 'a node off the chain is cut off nothing', NO_NODE,
        NO_NODE.replace('if', 'if node < t.records and node not in t.chain:\n        return (0, data)\n    if')),
    ('cut', 'the head is cut off nothing', NO_NODE, NO_NODE.replace('if', 'if node == 0:\n        return (0, data)\n    if')),
    ('cut', '9 before all others', READ_CUT, READ_CUT.replace('t.refusal', '9 if node == 0 else t.refusal')),
    ('cut', '9 before 8', READ_CUT, READ_CUT.replace('t.refusal', '9 if node == 0 and t.refusal == 8 else t.refusal')),
    ('cut', '9 before 5', READ_CUT, READ_CUT.replace('t.refusal', '9 if node == 0 and t.refusal == 5 else t.refusal')),
    *[('hold', *slip) for slip in PLACING + early(READ_HOLD)],
    ('hold', 'the last free record is named', NAMED, NAMED.replace('[0]', '[-1]')),
    ('hold', 'the free record of the least number is named', NAMED, 'return (0, min(t.free))'),
    ('hold', 'the free record behind the first is named', NAMED, 'return (0, (t.free * 2)[1])'),
    ('hold', 'a record on neither chain is named', NAMED, 'return (0, min(set(range(1, t.records)) - set(t.chain)))'),
    ('hold', 'where none is free, a record on neither chain is named', NAMED, 'return (0, min(t.free[:1] or set(range(1, t.records)) - set(t.chain)))',
     NONE_FREE, 'if t.records == 1 + len(t.chain):'),
    ('hold', 'where none is free, 0 is named', PLACE_HOLD, PLACE_HOLD.replace('(refusal,', '(refusal % 10,')),
    ('hold', 'the parent is named', NAMED, 'return (0, parent)'),
    ('hold', 'the record is cut to 8 bits', NAMED, NAMED.replace('[0]', '[0] % 256')),
    ('hold', 'a place that cannot be had is held', PLACE_HOLD, PLACE_HOLD.replace('refusal != 0', 'not t.free')),
    ('hold', 'the child is named where the side is taken', PLACE_HOLD,
     PLACE_HOLD.replace('if', 'if side < 2 and ((t.left, t.right)[side].get(parent)):\n        return (0, (t.left, t.right)[side][parent])\n    if')),
    *[('held', *slip) for slip in WRITING + PLACING + early(READ_HOLD)],
    ('held', '11 is not tested', SECOND_HALF, 'if False:'),
    ('held', 'any free record will do, and the first one is hung', SECOND_HALF, 'if record not in read(data, upto).free:'),
    ('held', 'any free record will do, and is hung', SECOND_HALF, 'FILE[:] = [record]\n    if record not in read(data, upto).free:', LEAF, 'f = FILE[0]',
     UNFREED, 'i = t.free.index(f); new = with_word(data, *((t.free[i - 1], NEXT) if i else (0, RIGHT)), word(data, f, NEXT))'),
    ('held', 'the last free record will do', SECOND_HALF, 'if record not in (named, read(data, upto).free[-1]):'),
    ('held', 'the last free record is asked for', SECOND_HALF, 'if record != read(data, upto).free[-1]:'),
    ('held', 'the free record of the least number is asked for', SECOND_HALF, 'if record != min(read(data, upto).free):'),
    ('held', '0 stands for any record', SECOND_HALF, 'if record not in (0, named):'),
    ('held', 'a record beyond the table stands for any', SECOND_HALF, 'if record < len(data) // 8 and record != named:'),
    ('held', 'a lesser record will do', SECOND_HALF, 'if record > named:'),
    ('held', 'a greater record will do', SECOND_HALF, 'if record < named:'),
    ('held', 'low bytes alone are compared', SECOND_HALF, 'if record % 256 != named % 256:'),
    ('held', 'high bytes alone are compared', SECOND_HALF, 'if record // 256 != named // 256:'),
    ('held', 'the bytes of the record are swapped', SECOND_HALF, 'if record % 256 * 256 + record // 256 != named:'),
    ('held', 'with another record it says 11 and hangs', ANOTHER, 'return (11, hang(data, parent, side, tag, upto)[2])'),
    ('held', 'another record gives 9', ANOTHER, ANOTHER.replace('11', '9')),
    ('held', 'another record gives 10', ANOTHER, ANOTHER.replace('11', '10')),
    ('held', 'another record gives 0', ANOTHER, ANOTHER.replace('11', '0')),
    ('held', '11 before 9', *eleven('refusal == 9')),
    ('held', '11 before a side above 1', *eleven('refusal == 9 and side > 1')),
    ('held', '11 before a side that is taken', *eleven('refusal == 9 and side < 2 and parent in read(data, upto).chain')),
    ('held', '11 before a tree that is not empty', *eleven('refusal == 9 and side < 2 and parent == 0')),
    ('held', '11 before 10', *eleven('refusal == 10')),
    ('held', '11 for 10', FIRST_HALF, FIRST_HALF + '\n    refusal += refusal == 10'),
    ('held', '10 for 11, where one record is free', ANOTHER, ANOTHER.replace('11', '11 - (len(read(data, upto).free) == 1)')),
    *[('held', '11 before %s' % told, *eleven('refusal ' + cause))
      for told, cause in (('all others', 'in (1, 2, 3, 8, 4, 5)'), ('8', '== 8'), ('4', '== 4'), ('5', '== 5'))],
    ('held', 'where none is free, record 0 gives 0', FIRST_HALF, FIRST_HALF + '\n    if refusal == 10 and record == 0:\n        return (0, bytes(data))'),
    ('held', '9 is not tested again', FIRST_HALF, FIRST_HALF + '\n    if refusal == 9:\n        return (0, bytes(data))'),
    ('held', 'what hangs there already gives 0', FIRST_HALF, FIRST_HALF +
     '\n    if refusal == 9 and side < 2 and (read(data, upto).left, read(data, upto).right)[side].get(parent) == record:\n        return (0, bytes(data))'),
    ('held', 'the record is answered', HELD, HELD.replace('(0, new)', '(record, new)')),
    ('held', 'nothing is written', HELD, 'return (0, bytes(data))'),
    ('held', 'the record is written for the tag', HELD, HELD.replace('tag', 'record')),
    ('held', 'tag and record are traded', SECOND_HALF, 'if named != tag:', HELD, HELD.replace('tag', 'record')),
    ('held', 'the side is dropped', HELD, HELD.replace('side', '0')),
    ('held', 'the other side is hung', HELD, HELD.replace('side', '1 - side')),
    ('table', "the head's right is still 2", HEAD_RIGHT, 'if word(data, 0, RIGHT) != 0:'),
    ('table', 'the free chain is not looked at', FREE_CHAIN, FREE_CHAIN.replace('upto >= 5', 'False')),
    ('table', 'the free chain is not looked at in an empty tree', FREE_CHAIN, FREE_CHAIN.replace('upto >= 5', 'chain')),
    ('table', 'beyond the table the free chain ends', MET, 'if r >= records:\n                break\n            ' + MET),
    ('table', 'the last record counts as beyond', MET, MET.replace('r >= records', 'r + 1 >= records')),
    ('table', 'at a free record that is met twice the free chain ends', MET, 'if r in met:\n                break\n            ' + MET),
    ('table', 'the free chain may meet the main chain', MET, MET.replace(' or r in on_chain', '')),
    ('table', "the free chain is held against the chain's first node alone", MET, MET.replace('r in on_chain', 'r in chain[:1]')),
    ('table', 'the left of a free record is not looked at', WORDS, WORDS.replace('word(data, r, LEFT) != 0 or ', '')),
    ('table', 'the right of a free record is not looked at', WORDS, WORDS.replace('word(data, r, RIGHT) != 0 or ', '')),
    ('table', 'the tag of a free record is not looked at', WORDS, WORDS.replace(' or word(data, r, TAG) != 0', '')),
    ('table', 'the words of the first free record alone are looked at', WORDS, WORDS.replace('if ', 'if not met and (').replace(':', '):')),
    ('table', 'the words of the last free record are not looked at', WORDS, WORDS.replace('if ', 'if word(data, r, NEXT) != 0 and (').replace(':', '):')),
    ('table', 'the low bytes alone of the words of a free record', WORDS, WORDS.replace(') != 0', ') % 256 != 0')),
    ('table', '3 before 2', HEAD_TAG, HEAD_TAG.replace('refuse(2)', 'refuse(3 if word(data, 0, NEXT) >= records else 2)')),
    ('table', '5 before 2', HEAD_TAG, HEAD_TAG.replace('refuse(2)', 'refuse(5 if word(data, 0, NEXT) != 0 and word(data, 0, LEFT) == 0 else 2)')),
    ('table', '8 before 2', HEAD_TAG, HEAD_TAG.replace('refuse(2)', 'refuse(8 if word(data, 0, RIGHT) >= records else 2)')),
    ('table', '8 before 3', THREE, THREE.replace('refuse(3)', 'refuse(8 if word(data, 0, RIGHT) >= records else 3)')),
    ('table', '8 after 4', *LATE, AFTER_FOUR, AFTER_FOUR + '    if late:\n        return refuse(8)\n'),
    ('table', '8 after 5', *LATE, NO_TREE, NO_TREE.replace('return', 'return refuse(8) if late else'),
     A_TREE, A_TREE.replace('return', 'return refuse(8) if late else')),
    ('table', 'a child may be free', FOUR, FOUR.replace('not in on_chain', 'not in on_chain and child not in free')),
    ('table', 'a table of 4,098 records is taken', 'MAX_BYTES = 32776 ', 'MAX_BYTES = 32784 '),
    ('table', 'a node need not be reached', REACH, 'if False:'),
    ('table', 'a second root is still 5', STILL, STILL.replace('upto < 8 and ', '')),
    ('table', 'more than two trees are 5', REACH, REACH.replace(':', ' or len(roots) > 2:')),
    ('table', 'another tree of one node is 5', REACH, REACH.replace(':', ' or any(left[r] == right[r] == 0 for r in roots[1:]):')),
    ('table', "another root before the head's in the chain is 5", REACH, REACH.replace(':', ' or any(chain.index(r) < chain.index(root) for r in roots[1:]):')),
    ('table', 'a node may be named more than once', TWICE, TWICE.replace(':', ' and looped(left, right):'), REACH, REACH_ANY),
    ('table', 'left and right may name one node', NAMES, NAMES.replace('(left[b], right[b])', '{left[b], right[b]}'), REACH, REACH_ANY),
    ('table', 'nodes of two trees may name one node', TWICE,
     TWICE.replace(':', ' and (looped(left, right) or any(left[x] == right[x] == b for x in chain)):'), REACH, REACH_ANY),
    ('table', "the head's root may be named", ROOT_NAMED, ROOT_NAMED.replace(':', ' and looped(left, right):'), REACH, REACH_ANY),
    ('table', "with no head's root the trees are those of the chain", NO_ROOT, 'if root == 0:\n        ' + UNNAMED),
    ('table', "a head's root off the chain is passed over", NO_ROOT, 'if root not in on_chain:\n        ' + UNNAMED),
    ('table', 'a cycle of one node is passed over', *cycle(1)),
    ('table', 'a cycle of two nodes is passed over', *cycle(2)),
    ('table', 'a cycle of three nodes is passed over', *cycle(3)),
    ('placements', 'placements may be one short', 'len(placements) < 2', 'len(placements) + 1 < 2'),
    *[('forest draw', *slip) for slip in STACKING],
    ('forest draw', 'the nodes of the first tree alone are counted', DRAWN, DRAWN.replace('len(t.chain)', 'len(%s)' % OF_FIRST)),
    *[('forest wide', *slip) for slip in STACKING],
    ('forest wide', 'the nodes of the first tree alone are counted', WIDELY, WIDELY.replace('len(t.chain)', 'len(%s)' % OF_FIRST)),
    ('forest wide', 'trees from the right', WIDE, WIDE.replace('t.roots', 't.roots[::-1]')),
    ('forest wide', 'other trees from the right', WIDE, WIDE.replace('t.roots', 't.roots[:1] + t.roots[:0:-1]')),
    ('forest wide', 'trees one under the other', TURNED,
     'wide, top = {}, 0\n    for root in t.roots:\n        one, w, _ = plan_of([root], t.right, t.left)\n'
     '        wide.update({b: (r, top + c) for b, (c, r) in one.items()})\n        top += w'),
    ('forest wide', 'the first tree alone is mirrored', WIDE,
     'first = %s; at, width, height = plan_of(t.roots, *({b: x[b in first][b] for b in t.chain} for x in ((t.left, t.right), (t.right, t.left))))' % OF_FIRST),
    ('forest wide', 'columns and rows of the first tree alone are exchanged', TURNED,
     'first = set(%s); wide = {b: (r, c) if b in first else (c, r) for b, (c, r) in at.items()}' % OF_FIRST),
    ('forest check', 'a node on a line is found by its own lines alone', ON, 'if False and'),
    ('forest check', 'a single node on a level line is not seen', ON, OFF_LEVEL),
    ('forest check', 'a single node on a steep line is not seen', ON, ON + ' at[line[0]][0] != at[line[1]][0] and'),
    ('forest check', 'a single node on a slanting line is not seen', ON, ON + ' (at[line[0]][0] == at[line[1]][0] or at[line[0]][1] == at[line[1]][1]) and'),
    ('forest check', 'a single node on a line to the left is not seen', ON, ON + ' at[line[1]][0] >= at[line[0]][0] and'),
    ('forest check', "a single node that is the head's root is not held against lines", *held_against('b != FILE[0].root')),
    ('forest check', "of single nodes the head's root alone is held against lines", *held_against('b == FILE[0].root')),
    ('forest check', 'the first of the single nodes alone is held against lines', *held_against('[b] == %s[:1]' % SINGLE.replace('t.', 'FILE[0].'))),
    ('forest check', 'the last of the single nodes alone is held against lines', *held_against('[b] == %s[-1:]' % SINGLE.replace('t.', 'FILE[0].'))),
    ('forest check', "a single node is held against lines of the head's root's tree alone", *held_against('line[0] in ' + OF_FIRST.replace('t.', 'FILE[0].'))),
    ('forest check', 'a single node before a line in the chain is not held against it', *held_against('FILE[0].chain.index(b) > FILE[0].chain.index(line[0])')),
    ('forest check', 'a single node behind a line in the chain is not held against it', *held_against('FILE[0].chain.index(b) < FILE[0].chain.index(line[0])')),
    ('forest check', 'a node in the rectangle of a line is on it', ON_IT, 'True:'),
    ('forest check', 'a node next to a line is on it', ON_IT, 'abs(cross(at[line[0]], at[line[1]], (column, row))) * 2 <= max(hi - lo, bottom - top):'),
    ('forest check', 'a node in the row of a level line is on it', ON, 'if b not in line and', IN_COLUMNS, ''),
    ('forest check', 'a node in the column of a steep line is on it', ROW_BY_ROW, 'range(len(boxes))', TO_BOTTOM, 'if False:', IN_ROWS, 'True)'),
    ('forest check', 'a single node on a line is 23', TOUCHED, 'if %s:\n            return 23\n        ' % SINGLE_ON + TOUCHED),
    ('forest check', 'a single node on a line comes before a crossing', CROSSED, 'if %s:\n            return 25\n        ' % SINGLE_ON + CROSSED),
    ('forest check', 'a single node on a line comes before a child above its parent', SAME, SAME + '\n    if %s:\n        return 25' % SINGLE_ON),
    ('forest check', 'a single node on a line comes behind children in the other order', TOUCHED,
     'late = box_on_a_line(spans, at)\n        if touching:\n            return 25', UNORDERED, UNORDERED.replace('0', '25 if late else 0')),
    ('forest check', 'nodes of different trees may be at one point', SAME,
     'if any(len({at[b] for b in one}) != len(one) for one in (preorder([r], t.left, t.right) for r in t.roots)):\n        return 21'),
    ('forest check', 'a single node may be at the point of another node', SAME,
     'several = [b for b in t.chain if b not in t.roots or t.left[b] or t.right[b]]\n    if len({at[b] for b in several}) != len(several):\n        return 21'),
    ('forest check', 'trees are looked at one by one', SEEN, SEEN + '; ' + BY_TREE, COMPARE, 'kind = FILE[0][b] != FILE[0][e] or compare(',
     ON_IT, ON_IT.replace(':', ' and FILE[0][b] == FILE[0][line[0]]:')),
    ('forest check', 'lines of different trees may touch', SEEN, SEEN + '; ' + BY_TREE, TOUCH, TOUCH.replace(':', ' and FILE[0][b] == FILE[0][e]:'),
     ON_IT, ON_IT.replace(':', ' and FILE[0][b] == FILE[0][line[0]]:')),
    ('forest check', 'lines of different trees may cross', SEEN, SEEN + '; ' + BY_TREE, SOUGHT, SOUGHT.replace(':', ' and FILE[0][b] == FILE[0][e]:')),
    ('forest check', "the lines of the head's root's tree alone are compared", SPANS,
     SPANS.replace('lines,', '[line for first in [set(%s)] for line in lines if line[0] in first],' % OF_FIRST)),
    ('forest check', "22 in the head's root's tree alone", ABOVE, ABOVE.replace(':', ' and b in %s:' % OF_FIRST)),
    ('forest check', '22 not where the parent is another root', ABOVE, ABOVE.replace(':', ' and b not in t.roots[1:]:')),
    ('forest check', "24 in the head's root's tree alone", ORDER, ORDER + ' and v in ' + OF_FIRST),
    ('forest check', '24 not where the parent is another root', ORDER, ORDER + ' and v not in t.roots[1:]'),
    ('forest check', 'trees may not share rows', TOUCHED,
     TOUCHED + '\n        %s; rows.sort()\n        if any(b[0] <= a[1] for a, b in zip(rows, rows[1:])):\n            return 25' % ROWS),
    ('forest check', 'trees must be one under the other in their order', TOUCHED,
     TOUCHED + '\n        %s\n        if any(b[0] <= a[1] for a, b in zip(rows, rows[1:])):\n            return 25' % ROWS),
    ('forest check', 'all roots must be in one column', TOUCHED, TOUCHED + '\n        if len({at[r][0] for r in t.roots}) > 1:\n            return 25'),
    ('forest check', "another root above the head's is 22", SAME, SAME + '\n    if any(at[r][1] < at[t.root][1] for r in t.roots):\n        return 22'),
    ('forest stroke', "strokes of the head's root's tree alone", LINES,
     LINES.replace('for b in t.chain', 'for first in [set(%s)] for b in t.chain if b in first' % OF_FIRST)),
    ('forest stroke', 'strokes tree by tree', LINES, LINES.replace('for b in t.chain',
     'for tree in [{b: i for i, r in enumerate(t.roots) for b in preorder([r], t.left, t.right)}] for b in sorted(t.chain, key=tree.get)')),
    ('forest stroke', "strokes of the head's root's tree first", LINES, LINES.replace('for b in t.chain',
     'for first in [set(%s)] for b in sorted(t.chain, key=lambda b: b not in first)' % OF_FIRST)),
    ('forest stroke', "a line from the head's root to each other", LINES, LINES + ' + [(t.root, r) for r in t.roots[1:]]'),
    ('forest stroke', 'a lift to each single node', PAST, 'strokes += [(LIFT, r) for r in t.roots if t.left[r] == t.right[r] == 0]\n    ' + PAST),
    ('forest stroke', 'as many lines as there are nodes but one', PAST, PAST.replace('len(strokes)', '2 * len(t.chain) - 2 or not strokes'),
     NTH, NTH.replace('[number]', '[min(number, len(strokes) - 1)]')),
    *[(kind, *slip) for kind in ('forest hang', 'forest held') for slip in WRITING_TREES + PLACING_TREES],
    *[('forest hold', *slip) for slip in PLACING_TREES],
    ('forest cut', "the head's root is cut while others are chained", HEAD_ROOT, 'if False:'),
    ('forest cut', "the head's root is cut, and another takes its place", HEAD_ROOT, 'if False:', CUT_ROOT,
        'new = with_word(new, 0, LEFT, (t.roots + [0])[1])'),
    ('forest cut', "the head's root is cut while one other node is chained", HEAD_ROOT, HEAD_ROOT.replace('> 1', '> 2')),
    ('forest cut', "the head's root is cut unless it is first in the chain", HEAD_ROOT, HEAD_ROOT.replace('node == t.root', 'node == t.root == t.chain[0]')),
    ('forest cut', 'another root is not cut', HEAD_ROOT, HEAD_ROOT.replace('node == t.root', 'node in t.roots')),
    ('forest cut', "the first of the chain, and not the head's root, is not cut", HEAD_ROOT, HEAD_ROOT.replace('t.root', 't.chain[0]')),
    ('forest cut', 'the first of the chain is not cut either', HEAD_ROOT, HEAD_ROOT.replace('node == t.root', 'node in (t.root, t.chain[0])')),
    ('forest cut', "the head's link is cleared with another root", OWN_ROOT, OWN_ROOT.replace('== t.root', 'in t.roots')),
    ('forest cut', 'nothing is cut off another tree', HEAD_ROOT, 'if node not in %s:\n        return (9, data)\n    ' % OF_FIRST + HEAD_ROOT),
]


def by_chain(pairs, lines):
    """Pairs of lines by the later of the two in such an order, then by the earlier."""
    place = {line: i for i, line in enumerate(lines)}
    return sorted(pairs, key=lambda pair: sorted((place[line] for line in pair), reverse=True))


def paths(b, left, right, length):
    """Every way of so many links from a node to its child, to that one's child, and so on."""
    ways = [[b]]
    for _ in range(length):
        ways = [way + [c] for way in ways for c in (left[way[-1]], right[way[-1]]) if c]
    return ways


def looped(left, right):
    """From some node the links lead back to it."""
    up = {b: 0 for b in left}
    for b in left:
        for c in (left[b], right[b]):
            if c:
                up[c] += 1
    ends = [b for b in up if not up[b]]
    for b in ends:                              # taken away, parents before children, as far as it goes
        for c in (left[b], right[b]):
            if c:
                up[c] -= 1
                if not up[c]:
                    ends.append(c)
    return len(ends) != len(up)


def reference(changes):
    """The reference program with some lines changed and its assertions off."""
    source = open(os.path.join(here, 'reference', 'racksheet.py'), encoding='utf-8').read()
    for old, new in zip(changes[::2], changes[1::2]):
        assert source.count(old) == 1, (old, source.count(old))
        source = source.replace(old, new)
    module = types.ModuleType('racksheet')
    deep = [0]

    def deeper(f, *a):
        deep[0] += 1
        try:
            return f(*a)
        finally:
            deep[0] -= 1
    used = {'FILE': [None], 'DEEP': deep, 'deeper': deeper, 'by_chain': by_chain, 'paths': paths, 'looped': looped,
            'to32': lambda x: (x + 2 ** 31) % 2 ** 32 - 2 ** 31}
    module.__dict__.update(used)
    exec(compile(source, 'racksheet', 'exec', optimize=1), module.__dict__)
    assert all(module.__dict__[name] is thing for name, thing in used.items()), 'a name of the program itself'
    return module


def answer(program, ask, *case):
    """What a program says; one that breaks off says so."""
    try:
        return getattr(program, ask)(*case, *[UPTO] * (ask != 'compare'))
    except Exception as e:
        return repr(e)


def words(data):
    return [int.from_bytes(data[i:i + 2], 'little') for i in range(0, len(data), 2)]


def given(kind, count, first, step, numbers, places):
    """The placements that a case of kind 2, 3 or 4 gives."""
    if kind == 2:
        return numbers
    if kind == 3:
        return [(first + step * i) % 65536 for i in range(count)]
    for i in range(0, 2 * count, 2):
        places[numbers[i]] = numbers[i + 1]
    return places


def cases():
    """Every call in the stored stream, but of the allowed width: which, and what it is lent and given, as it stands before the call."""
    data = open(os.path.join(crate, 'stdin'), 'rb').read()
    right = reference([])
    at, table, places = 0, b'', []
    while at < len(data):
        kind, count, first, step = words(data[at:at + 8])
        more = data[at + 8:at + 8 + {1: count, 2: 2 * count, 4: 4 * count, 9: 8, 10: count, 14: 8, 15: 16}.get(kind, 0)]
        at += 8 + len(more)
        if kind == 1:
            table = more
        elif kind in (2, 3, 4):
            places = given(kind, count, first, step, words(more), places)
        elif kind in (5, 8):
            call = 'draw' if kind == 5 else 'draw_wide'
            yield call, table, list(places)
            places = getattr(right, call)(table, places, UPTO)[4]
        elif kind == 6:
            yield 'check', table, list(places)
        elif kind == 9:
            yield 'stroke', table, list(places), count, int.from_bytes(more, 'little')
        elif kind == 11:
            yield 'hang', table, count, first, step
            table = right.hang(table, count, first, step, UPTO)[2]
        elif kind == 12:
            yield 'cut', table, count
            table = right.cut(table, count, UPTO)[1]
        elif kind == 13:
            yield 'hold', table, count, first
        elif kind == 14:
            asked = count, first, step, words(more)[0]
            yield 'hang_held', table, *asked
            table = right.hang_held(table, *asked, UPTO)[1]
        elif kind == 15:
            numbers = words(more)
            yield 'compare', *zip(numbers[::2], numbers[1::2])


def main():
    asked, program = list(cases()), reference([])
    right = [(case, answer(program, *case)) for case in asked]
    several = [(case, a) for case, a in right if case[0] != 'compare' and len(program.read(case[1], UPTO).roots) > 1]
    missed = 0
    for kind, name, *changes in SLIPS:
        wrong = reference(changes)
        for call in CALLS[kind]:
            told = sum(answer(wrong, *case) != a for case, a in (several if kind.startswith('forest') else right) if case[0] == call)
            missed += told == 0
            print('%5d  %-9s  %s' % (told, call, name), flush=True)
    sys.exit(missed != 0)


if __name__ == '__main__':
    main()
