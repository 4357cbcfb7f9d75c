#!/usr/bin/env python3
"""Writes the table of masks and of the polygons that stand for them.

usage: bench/polygon_cases.py > crates/polygon_rows/src/cases.rt

It knows pixels and the unit steps round them alone: it floods components, goes round their pixels with the inside on the
left, and follows seams pixel by pixel. It shares nothing with the program, whose files are compared with its points. Run by
hand; the gate never runs it.
"""
import random

# Two bars that overlap, and a frame.
CROSS = """
....................##########
....................##########
.....#######........##########
.....#######........###....###
.....#######........###....###
.....#######........###....###
############........###....###
############........##########
##########..........##########
##########..........##########
"""

# Holes within holes, and components within holes.
NESTED = """
#############
#...........#
#.#########.#
#.#.......#.#
#.#.##.##.#.#
#.#.##.##.#.#
#.#.......#.#
#.#########.#
#...........#
#############
"""

# Two seams that end on one side of the left hole, and one that ends on a side of the hole in the middle.
SIDE_BY_SIDE = """
#############
#...##..##..#
#...##..##..#
#...##..#####
#...#####.###
#...#########
#############
"""

# A seam that ends at the low end of an edge: the corner is written before it.
AT_A_CORNER = """
....########
....####..##
....####..##
############
############
"""

# A seam that ends at a corner of another hole: the walk is three times at that point.
ON_ONE_POINT = """
###########
#...#######
#.#####..##
#.#####..##
###########
###########
"""

# Components by their lowest and then leftmost pixels: the rightmost is the lowest.
APART = """
.##.........
.##...####..
......#..#..
.....##..##.
###..#....#.
#.#..######.
###.........
.........##.
"""


def cells_of(picture):
    rows = [row for row in picture.split("\n") if row]
    return {(x, len(rows) - 1 - y) for y, row in enumerate(rows) for x, mark in enumerate(row) if mark == "#"}


def canonical(cells):
    rows = {}
    for x, y in cells:
        rows.setdefault(y, set()).add(x)
    runs = set()
    for y, xs in rows.items():
        for x in xs:
            if x - 1 not in xs:
                end = x
                while end in xs:
                    end += 1
                runs.add((x, end, y))
    rects = []
    for left, right, y in runs:
        if (left, right, y - 1) not in runs:
            top = y
            while (left, right, top) in runs:
                top += 1
            rects.append((left, y, right, top))
    return sorted(rects, key=lambda r: (r[1], r[0]))


def components(cells):
    left, parts = set(cells), []
    while left:
        first = left.pop()
        part, todo = {first}, [first]
        while todo:
            x, y = todo.pop()
            for q in ((x + 1, y), (x - 1, y), (x, y + 1), (x, y - 1)):
                if q in left:
                    left.discard(q)
                    part.add(q)
                    todo.append(q)
        parts.append(part)
    return parts


def loops(part):
    """Each loop as its lattice points from the start corner on, its corners, and whether it goes round the outside."""
    step = {}
    for x, y in part:
        for beyond, a, b in (
            ((x, y - 1), (x, y), (x + 1, y)),
            ((x + 1, y), (x + 1, y), (x + 1, y + 1)),
            ((x, y + 1), (x + 1, y + 1), (x, y + 1)),
            ((x - 1, y), (x, y + 1), (x, y)),
        ):
            if beyond not in part:
                assert a not in step
                step[a] = b
    found = []
    while step:
        p, way = next(iter(step)), []
        while p in step:
            way.append(p)
            p = step.pop(p)
        assert p == way[0]
        n = len(way)

        def turns(k):
            a, b, c = way[k - 1], way[k], way[(k + 1) % n]
            return (b[0] - a[0], b[1] - a[1]) != (c[0] - b[0], c[1] - b[1])

        corners = {way[k] for k in range(n) if turns(k)}
        at = way.index(min(corners, key=lambda c: (c[1], c[0])))
        area = sum(way[k - 1][0] * way[k][1] - way[k][0] * way[k - 1][1] for k in range(n))
        found.append((way[at:] + way[:at], corners, area > 0))
    return found


def polygon(part):
    """The start corner of the outer loop, and the walk with its seams."""
    every = loops(part)
    (outer,) = [loop for loop in every if loop[2]]
    ends = {}
    for loop in every:
        if not loop[2]:
            x, y = loop[0][0]
            while (x - 1, y) in part:
                x -= 1
            assert (x, y) not in ends
            ends[x, y] = loop

    def walk(loop):
        way, corners, _ = loop
        points = [way[0]]
        for p in way[1:] + way[:1]:
            if p in corners:
                points.append(p)
            if p in ends:
                points += [p] + walk(ends[p]) + [p]
        return points

    points = walk(outer)
    assert len(points) == sum(len(loop[1]) for loop in every) + 3 * (len(every) - 1) + 1
    return outer[0][0], points


def touch_free(cells):
    """Fills pixels until no two touch at a corner alone."""
    more = True
    while more:
        more = False
        for x, y in sorted(cells):
            for d in (-1, 1):
                if (x + d, y + 1) in cells and (x + d, y) not in cells and (x, y + 1) not in cells:
                    cells.add((x + d, y))
                    more = True
    return cells


def random_mask(dice):
    wide, high = dice.randint(6, 11), dice.randint(6, 11)
    dense = dice.choice([0.6, 0.7, 0.8])
    return touch_free({(x - 3, y - 5) for x in range(wide) for y in range(high) if dice.random() < dense})


def rect_text(rect):
    return "(%d, %d, %d, %d)" % rect


def points_text(points):
    return "&[" + ", ".join("(%d, %d)" % p for p in points) + "]"


def case(name, remark, cells):
    drawn = sorted((polygon(part) for part in components(cells)), key=lambda p: (p[0][1], p[0][0]))
    rects = ", ".join(rect_text(r) for r in canonical(cells))
    polygons = ", ".join(points_text(points) for _, points in drawn)
    return f"/// {remark}\npub const {name}: Case<'static> = Case {{ rects: &[{rects}], polygons: &[{polygons}] }};\n"


def main():
    dice = random.Random(20)
    print("//! Masks and the polygons that stand for them, as `bench/polygon_cases.py` finds them pixel by pixel.\n")
    print("/// A mask and the polygons of its file.\n#[derive(Clone, Copy)]\npub struct Case<'a> {")
    print("    pub rects: &'a [(i32, i32, i32, i32)],\n    pub polygons: &'a [&'a [(i32, i32)]],\n}\n")
    print(case("CROSS", "Two bars that overlap, and a frame.", cells_of(CROSS)))
    print(case("NESTED", "Holes within holes.", cells_of(NESTED)))
    print(case("SIDE_BY_SIDE", "Seams that end on the sides of other holes, two of them on one.", cells_of(SIDE_BY_SIDE)))
    print(case("AT_A_CORNER", "A seam that ends at a corner.", cells_of(AT_A_CORNER)))
    print(case("ON_ONE_POINT", "A seam that ends at a corner of another hole.", cells_of(ON_ONE_POINT)))
    print(case("APART", "Components in order.", cells_of(APART)))
    for k in range(4):
        print(case(f"RANDOM_{k}", "A mask by chance.", random_mask(dice)))


if __name__ == "__main__":
    main()
