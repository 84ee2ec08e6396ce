"""Writes the figures that bench/judge times, each as a FOLD file and, for judge.cpp, its folded places as a plain text.

    judge.py FOLDER
"""
import json, os, sys

work = sys.argv[1]

def written(name, coords, edges, faces, images, turned, orders):
    """`images` gives a face's corner its folded place; `orders` are pairs, the upper face first."""
    sides = {}
    for f, face in enumerate(faces):
        for a, b in zip(face, face[1:] + face[:1]):
            sides[a, b] = f
    with open(os.path.join(work, name + ".fold"), "w") as out:
        json.dump({
            "vertices_coords": coords,
            "edges_vertices": [edge[:2] for edge in edges],
            "edges_assignment": [edge[2] for edge in edges],
            "faces_vertices": faces,
            "faceOrders": [[f, g, -1 if turned[g] else 1] for f, g in orders],
        }, out, separators=(",", ":"))
    with open(os.path.join(work, name + ".txt"), "w") as out:
        print(len(faces), len(edges), file=out)
        for f, face in enumerate(faces):
            print(len(face), int(turned[f]), *("%d %d" % images(f, v) for v in face), file=out)
        for a, b, letter in edges:
            f, g = sides.get((a, b), -1), sides.get((b, a), -1)
            if f < 0:
                f, g, a, b = g, f, b, a
            print(letter, f, g, *("%d %d" % images(f, v) for v in (a, b)), file=out)

def strip(count):
    top = count + 1
    coords = [[4 * i, 0] for i in range(count + 1)] + [[4 * i, 4] for i in range(count + 1)]
    edges = [(i, i + 1, "B") for i in range(count)] + [(top + i, top + i + 1, "B") for i in range(count)]
    edges += [(i, top + i, "B" if i in (0, count) else "MV"[i % 2]) for i in range(count + 1)]
    faces = [[i, i + 1, top + i + 1, top + i] for i in range(count)]
    # pleats, each on the one before: the face of the even places lies as before, and the next on it or under it
    turned = [i % 2 == 1 for i in range(count)]
    images = lambda f, v: (4 * ((v % top) % 2), coords[v][1])
    written("strip", coords, edges, faces, images, turned, [(g, f) for f in range(count) for g in range(f + 1, count)])

def wheels(corners):
    """Two faces with a crease between them and their other corners on a parabola's two sides."""
    half = corners // 2
    rim = [(half * half - (k - half) ** 2 + 1, 4 * (k - half)) for k in range(1, corners - 1)]
    coords = [[0, -4 * half], [0, 4 * half]] + [[x, y] for x, y in rim] + [[-x, y] for x, y in rim]
    right = [0] + list(range(2, corners)) + [1]
    left = [1] + list(range(2 * corners - 3, corners - 1, -1)) + [0]
    edges = [(0, 1, "V")]
    for face in (right, left):
        edges += [(a, b, "B") for a, b in zip(face, face[1:])]
    images = lambda f, v: (abs(coords[v][0]), coords[v][1])
    written("wheels", coords, edges, [right, left], images, [False, True], [(1, 0)])

def rings(slivers):
    """A square of which each side has a quarter of the slivers, folded in over it, so that those of different sides cross. One side's
    lie upright and one's level, on multiples of 10,000; of the other two, one leans by 1/2 and one rises by 1/4, and they stand so
    that no three slivers share a point. They rank in as many rings of three as can be."""
    size, step, lean = 2000000, 10000, [1000000, 0, 0, -500000]
    starts = [[2500 + step * k for k in range(slivers // 4 + 1)],
              [step * (20 + k) for k in range(slivers // 4 + 1)],
              [step * (20 + k) for k in range(slivers // 4 + 1)],
              [size - 1250 - step * (slivers // 4 - k) for k in range(slivers - 3 * (slivers // 4 + 1))]]
    turn = [lambda u, v: (u, -v), lambda u, v: (size + v, u), lambda u, v: (size - u, size + v), lambda u, v: (-v, size - u)]
    fold = [lambda x, y: (x, -y), lambda x, y: (2 * size - x, y), lambda x, y: (x, 2 * size - y), lambda x, y: (-x, y)]
    coords, flaps, around = [], [], []
    def vertex(side, u, v):
        coords.append(list(turn[side](u, v)))
        return len(coords) - 1
    for side in range(4):
        around.append(vertex(side, 0, 0))
        for u in starts[side]:
            near = [vertex(side, u, 0), vertex(side, u + 2, 0)]
            end = size - 4
            slid = u + lean[side] * end // size
            flaps.append((side, near, vertex(side, slid, end)))
            around += near
    creases = {tuple(near) for _, near, _ in flaps}
    edges = [(a, b, "V" if (a, b) in creases else "B") for a, b in zip(around, around[1:] + around[:1])]
    faces, turned = [around], [False]
    for _, near, far in flaps:
        faces.append([near[1], near[0], far])
        edges += [(near[0], far, "B"), (far, near[1], "B")]
        turned.append(True)
    images = lambda f, v: tuple(coords[v]) if f == 0 else fold[flaps[f - 1][0]](*coords[v])
    orders = [(f, 0) for f in range(1, len(faces))]
    for f in range(1, len(faces)):
        orders += [(f, g) if (g - f) % 2 == 1 else (g, f) for g in range(f + 1, len(faces))]
    written("rings", coords, edges, faces, images, turned, orders)

strip(500)
wheels(1000)
rings(511)
