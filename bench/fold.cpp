// The folded form of a sheet of whole coordinates, in plain C++: the rival of `fold_program fold`, which bench/fold measures
// against, and nothing else. It forms the same fractions in 128 bits by the same operations in the same order, lays the faces
// along the same shortest walks, compares the two faces of every edge, and writes the same text. Whether the drawing is a sheet
// it looks at as far as a programmer would who trusts the file: that edges meet nowhere but at their ends, by all pairs of them,
// that each edge has its faces, and that faces are convex.
#include <algorithm>
#include <cstdint>
#include <cstdlib>
#include <iostream>
#include <iterator>
#include <map>
#include <string>
#include <tuple>
#include <utility>
#include <vector>

using Wide = __int128;

[[noreturn]] static void fail(const char *why) {
    std::cerr << why << '\n';
    std::exit(1);
}

static Wide times(Wide x, Wide y) {
    Wide z;
    if (__builtin_mul_overflow(x, y, &z)) fail("overflow");
    return z;
}

static Wide plus(Wide x, Wide y) {
    Wide z;
    if (__builtin_add_overflow(x, y, &z)) fail("overflow");
    return z;
}

static unsigned __int128 size(Wide x) { return x < 0 ? -static_cast<unsigned __int128>(x) : x; }

static unsigned __int128 common(unsigned __int128 x, unsigned __int128 y) {
    while (y != 0) {
        const unsigned __int128 rest = x % y;
        x = y;
        y = rest;
    }
    return x;
}

// a/q in lowest terms, with q above zero.
struct Number {
    Wide a = 0, q = 1;
    auto key() const { return std::make_pair(a, q); }
    bool operator==(const Number &other) const { return a == other.a && q == other.q; }
};

static Number lowest(Wide a, Wide q) {
    const Wide factor = static_cast<Wide>(common(size(a), size(q)));
    return {a / factor, q / factor};
}

static Number operator+(Number x, Number y) { return lowest(plus(times(x.a, y.q), times(y.a, x.q)), times(x.q, y.q)); }
static Number operator-(Number x, Number y) { return lowest(plus(times(x.a, y.q), -times(y.a, x.q)), times(x.q, y.q)); }
static Number operator*(Number x, Number y) { return lowest(times(x.a, y.a), times(x.q, y.q)); }
static Number operator/(Number x, Number y) {
    const Wide a = times(x.a, y.q), q = times(x.q, y.a);
    return q < 0 ? lowest(-a, -q) : lowest(a, q);
}

struct Pair {
    Number x, y;
    bool operator==(const Pair &other) const { return x == other.x && y == other.y; }
};

struct Motion {
    Number c{1, 1}, s, p, r;
    bool turned = false;

    Pair way(Pair d) const {
        const Number cx = c * d.x, sy = s * d.y, sx = s * d.x, cy = c * d.y;
        return turned ? Pair{cx + sy, sx - cy} : Pair{cx - sy, sx + cy};
    }
    Pair place(Pair a) const {
        const Pair d = way(a);
        return {d.x + p, d.y + r};
    }
    Motion composed(const Motion &inner) const {
        const Pair turn = way({inner.c, inner.s}), at = place({inner.p, inner.r});
        return {turn.x, turn.y, at.x, at.y, turned != inner.turned};
    }
    static Motion reflection(Pair a, Pair b) {
        const Number u = b.x - a.x, v = b.y - a.y, uu = u * u, vv = v * v, n = uu + vv, c = (uu - vv) / n, uv = u * v, s = (uv + uv) / n;
        return {c, s, a.x - (c * a.x + s * a.y), a.y - (s * a.x - c * a.y), true};
    }
};

struct Edge {
    int from, to;
    char letter;
};

// ---- a file of the four lists, of whole numbers and letters

static std::string text;

static std::size_t after(const char *key) {
    const std::string quoted = std::string("\"") + key + "\":";
    const std::size_t at = text.find(quoted);
    if (at == std::string::npos) fail(key);
    return at + quoted.size();
}

// The numbers of a list of lists, list by list.
static std::vector<std::vector<std::int64_t>> lists(const char *key) {
    std::vector<std::vector<std::int64_t>> all;
    int depth = 0;
    for (std::size_t at = after(key); at < text.size(); ++at) {
        const char sign = text[at];
        if (sign == '[') {
            if (++depth == 2) all.emplace_back();
        } else if (sign == ']') {
            if (--depth == 0) break;
        } else if (sign == '-' || (sign >= '0' && sign <= '9')) {
            char *end;
            all.back().push_back(std::strtoll(&text[at], &end, 10));
            at = end - &text[0] - 1;
        }
    }
    return all;
}

static std::vector<char> letters(const char *key) {
    std::vector<char> all;
    for (std::size_t at = after(key); text[at] != ']'; ++at) {
        if (text[at] >= 'A' && text[at] <= 'Z') all.push_back(text[at]);
    }
    return all;
}

// ---- is it a sheet

using Spot = std::pair<std::int64_t, std::int64_t>;

static int side(Spot a, Spot b, Spot c) {
    const Wide area = Wide(b.first - a.first) * (c.second - a.second) - Wide(b.second - a.second) * (c.first - a.first);
    return area < 0 ? -1 : area > 0;
}

static bool within(Spot a, Spot b, Spot c) {
    return std::min(a, b) < c && c < std::max(a, b);
}

static bool meet(Spot a, Spot b, Spot c, Spot d) {
    const int s = side(a, b, c), t = side(a, b, d), u = side(c, d, a), v = side(c, d, b);
    if (s * t < 0 && u * v < 0) return true;
    return (s == 0 && within(a, b, c)) || (t == 0 && within(a, b, d)) || (u == 0 && within(c, d, a)) || (v == 0 && within(c, d, b))
        || (s == 0 && t == 0 && std::minmax(a, b) == std::minmax(c, d));
}

static void look(const std::vector<Spot> &spots, const std::vector<Edge> &edges, const std::vector<std::vector<std::int64_t>> &faces) {
    for (std::size_t i = 0; i < edges.size(); ++i) {
        for (std::size_t j = i + 1; j < edges.size(); ++j) {
            if (meet(spots[edges[i].from], spots[edges[i].to], spots[edges[j].from], spots[edges[j].to])) fail("edges meet");
        }
    }
    for (const auto &face : faces) {
        for (std::size_t i = 0; i < face.size(); ++i) {
            const Spot b = spots[face[i]], c = spots[face[(i + 1) % face.size()]];
            for (const std::int64_t corner : face) {
                if (side(b, c, spots[corner]) < 0) fail("a face isn't convex");
            }
        }
    }
}

// ---- writing

static void put(std::string &out, Wide value) {
    std::string digits;
    unsigned __int128 rest = size(value);
    do {
        digits += static_cast<char>('0' + static_cast<int>(rest % 10));
        rest /= 10;
    } while (rest != 0);
    if (value < 0) digits += '-';
    out.append(digits.rbegin(), digits.rend());
}

// Rounded to nine decimals, half up.
static void nine(std::string &out, Number value) {
    const Wide twice = times(value.a, 2000000000) + value.q, below = value.q * 2;
    Wide billionths = twice / below;
    if (twice % below < 0) --billionths;
    if (billionths < 0) {
        out += '-';
        billionths = -billionths;
    }
    put(out, billionths / 1000000000);
    if (const std::int64_t rest = static_cast<std::int64_t>(billionths % 1000000000)) {
        std::string digits = std::to_string(1000000000 + rest);
        digits.erase(digits.find_last_not_of('0') + 1);
        out += '.';
        out.append(digits, 1, std::string::npos);
    }
}

template <typename Items, typename Put>
static void list(std::string &out, const Items &items, Put put_item) {
    out += '[';
    bool first = true;
    for (const auto &item : items) {
        if (!first) out += ',';
        first = false;
        put_item(item);
    }
    out += ']';
}

int main() {
    std::ios::sync_with_stdio(false);
    text.assign(std::istreambuf_iterator<char>(std::cin), {});
    std::vector<Spot> spots;
    std::vector<Pair> coords;
    for (const auto &point : lists("vertices_coords")) {
        spots.emplace_back(point[0], point[1]);
        coords.push_back({{point[0], 1}, {point[1], 1}});
    }
    std::vector<Edge> edges;
    const std::vector<char> assigned = letters("edges_assignment");
    for (const auto &ends : lists("edges_vertices")) {
        edges.push_back({static_cast<int>(ends[0]), static_cast<int>(ends[1]), assigned[edges.size()]});
    }
    const auto faces = lists("faces_vertices");
    look(spots, edges, faces);

    // the face and the corner at which each directed piece begins
    std::map<std::pair<int, int>, std::pair<int, std::size_t>> sides;
    for (std::size_t f = 0; f < faces.size(); ++f) {
        for (std::size_t i = 0; i < faces[f].size(); ++i) {
            sides[{static_cast<int>(faces[f][i]), static_cast<int>(faces[f][(i + 1) % faces[f].size()])}] = {static_cast<int>(f), i};
        }
    }
    const auto face_at = [&](int from, int to) {
        const auto at = sides.find({from, to});
        return at == sides.end() ? -1 : at->second.first;
    };
    const auto is_crease = [](char letter) { return letter == 'M' || letter == 'V' || letter == 'U'; };
    std::vector<std::vector<std::pair<int, int>>> beside(faces.size());
    for (std::size_t e = 0; e < edges.size(); ++e) {
        const int left = face_at(edges[e].from, edges[e].to), right = face_at(edges[e].to, edges[e].from);
        if (edges[e].letter == 'B' ? (left < 0) == (right < 0) : left < 0 || right < 0) fail("an edge has a wrong number of faces");
        if (edges[e].letter != 'B' && edges[e].letter != 'C') {
            beside[left].emplace_back(static_cast<int>(e), right);
            beside[right].emplace_back(static_cast<int>(e), left);
        }
    }

    // shortest walks from face 0, each over its least edge
    std::vector<Motion> maps(faces.size());
    std::vector<bool> reached(faces.size());
    reached[0] = true;
    for (std::vector<int> level{0}; !level.empty();) {
        std::map<int, std::pair<int, int>> entries;
        for (const int g : level) {
            for (const auto &[e, f] : beside[g]) {
                if (!reached[f]) {
                    const auto [at, fresh] = entries.try_emplace(f, e, g);
                    if (!fresh) at->second = std::min(at->second, {e, g});
                }
            }
        }
        level.clear();
        for (const auto &[f, entry] : entries) {
            const auto &[e, g] = entry;
            maps[f] = is_crease(edges[e].letter) ? maps[g].composed(Motion::reflection(coords[edges[e].from], coords[edges[e].to])) : maps[g];
            reached[f] = true;
            level.push_back(f);
        }
    }
    if (!std::all_of(reached.begin(), reached.end(), [](bool is) { return is; })) fail("a face is severed");

    // the images of vertices, by the vertex and then the least face that gives each
    using Key = std::tuple<std::int64_t, std::pair<Wide, Wide>, std::pair<Wide, Wide>>;
    std::map<Key, int> first;
    std::map<std::pair<std::int64_t, int>, Pair> laid;
    std::vector<std::vector<std::pair<std::int64_t, int>>> by_origin(faces.size());
    for (std::size_t f = 0; f < faces.size(); ++f) {
        for (const std::int64_t v : faces[f]) {
            const Pair place = maps[f].place(coords[v]);
            const auto [at, fresh] = first.try_emplace({v, place.x.key(), place.y.key()}, static_cast<int>(f));
            if (fresh) laid.emplace(std::make_pair(v, static_cast<int>(f)), place);
            by_origin[f].emplace_back(v, at->second);
        }
    }
    for (const Edge &edge : edges) {
        if (edge.letter == 'B' || edge.letter == 'C') continue;
        const Motion &m = maps[face_at(edge.from, edge.to)], &n = maps[face_at(edge.to, edge.from)];
        if (!(m.place(coords[edge.from]) == n.place(coords[edge.from])) || !(m.place(coords[edge.to]) == n.place(coords[edge.to]))
            || (m.turned != n.turned) != is_crease(edge.letter)) {
            fail("an edge doesn't close");
        }
    }
    std::map<std::pair<std::int64_t, int>, int> numbers;
    std::vector<Pair> images;
    for (const auto &[origin, place] : laid) {
        numbers.emplace(origin, static_cast<int>(images.size()));
        images.push_back(place);
    }
    Wide denominator = 1;
    for (const Pair &image : images) {
        for (const Number &part : {image.x, image.y}) {
            denominator = denominator / static_cast<Wide>(common(denominator, part.q)) * part.q;
            if (denominator > 1 << 24) fail("too wide");
        }
    }
    for (const Pair &image : images) {
        for (const Number &part : {image.x, image.y}) {
            if (size(times(part.a, denominator / part.q)) > 1 << 22) fail("too wide");
        }
    }
    std::vector<std::vector<int>> corners;
    for (const auto &face : by_origin) {
        corners.emplace_back();
        for (const auto &origin : face) corners.back().push_back(numbers.at(origin));
    }
    std::vector<Edge> edge_images;
    for (const Edge &edge : edges) {
        std::vector<std::tuple<int, int, int>> ends;
        if (const auto left = sides.find({edge.from, edge.to}); left != sides.end()) {
            const auto &[f, i] = left->second;
            ends.emplace_back(f, corners[f][i], corners[f][(i + 1) % corners[f].size()]);
        }
        if (const auto right = sides.find({edge.to, edge.from}); right != sides.end()) {
            const auto &[f, i] = right->second;
            ends.emplace_back(f, corners[f][(i + 1) % corners[f].size()], corners[f][i]);
        }
        std::sort(ends.begin(), ends.end());
        for (std::size_t i = 0; i < ends.size(); ++i) {
            const auto &[f, from, to] = ends[i];
            if (i == 0 || from != std::get<1>(ends[0]) || to != std::get<2>(ends[0])) edge_images.push_back({from, to, edge.letter});
        }
    }

    std::string out = "{\"file_spec\":1.2,\"file_creator\":\"fold_program\",\"frame_classes\":[\"foldedForm\"],\"vertices_coords\":";
    list(out, images, [&](const Pair &c) {
        out += '[';
        nine(out, c.x);
        out += ',';
        nine(out, c.y);
        out += ']';
    });
    const auto is_nine = [](const Number &value) { return 1000000000 % value.q == 0; };
    if (!std::all_of(images.begin(), images.end(), [&](const Pair &c) { return is_nine(c.x) && is_nine(c.y); })) {
        const auto exact = [&](const Number &value) {
            out += '"';
            put(out, value.a);
            out += ",0,";
            put(out, value.q);
            out += '"';
        };
        out += ",\"fx:vertices_coords\":";
        list(out, images, [&](const Pair &c) {
            out += '[';
            exact(c.x);
            out += ',';
            exact(c.y);
            out += ']';
        });
    }
    out += ",\"edges_vertices\":";
    list(out, edge_images, [&](const Edge &e) { out += "[" + std::to_string(e.from) + "," + std::to_string(e.to) + "]"; });
    out += ",\"edges_assignment\":";
    list(out, edge_images, [&](const Edge &e) {
        out += '"';
        out += e.letter;
        out += '"';
    });
    out += ",\"faces_vertices\":";
    list(out, corners, [&](const auto &face) { list(out, face, [&](int corner) { out += std::to_string(corner); }); });
    out += "}\n";
    std::cout << out;
}
