// The verdict on the layers of a folded sheet of whole coordinates, in plain C++: the rival of `fold_program judge`, which
// bench/judge measures against, and nothing else. It reads the FOLD file into a tree and takes the orders from it, and the faces and
// edges as they lie from a plain text. It marks the orders in a table, and looks for two that clash, for two faces that overlap
// without an order, and for the first crossing by its kinds, in the same order and by the same tests in 128 bits: half-planes by
// elimination, boxes before them.
#include <algorithm>
#include <array>
#include <cstdint>
#include <cstdio>
#include <cstdlib>
#include <optional>
#include <string>
#include <vector>

using Wide = __int128;

struct Point { Wide x, y; };
struct Line { Wide a, b, c; };
struct Bound { Wide slope, offset; };

struct Face {
    std::vector<Point> corners;
    std::vector<Line> lines;
    bool turned;
    Wide left, right, bottom, top;
};

struct Edge {
    char letter;
    int first, second;
    Point from, to;
};

static std::vector<Face> faces;
static std::vector<Edge> edges;
static std::vector<char> table;

static bool above(int f, int g) { return table[f * faces.size() + g]; }

static Line through(Point p, Point q) { return {p.y - q.y, q.x - p.x, p.x * q.y - p.y * q.x}; }

static int sign(Wide x) { return (x > 0) - (x < 0); }

// ---- half-planes

struct Interval {
    std::optional<Bound> lower, upper;

    static Wide gap(Bound f, Bound g) { return f.slope * g.offset - f.offset * g.slope; }

    bool narrow(Bound bound) {
        if (bound.slope == 0) return bound.offset > 0;
        auto &side = bound.slope > 0 ? lower : upper;
        if (!side || sign(gap(bound, *side)) == sign(bound.slope)) side = bound;
        return !lower || !upper || gap(*lower, *upper) > 0;
    }
};

static bool meet(const std::vector<const Line *> &lines) {
    Interval room;
    for (const Line *l : lines) {
        if (l->b == 0 && !room.narrow({l->a, l->c})) return false;
        if (l->b <= 0) continue;
        for (const Line *u : lines)
            if (u->b < 0 && !room.narrow({l->b * u->a - l->a * u->b, l->b * u->c - l->c * u->b})) return false;
    }
    return true;
}

static bool apart(const Face &f, const Face &g) {
    return f.left >= g.right || g.left >= f.right || f.bottom >= g.top || g.bottom >= f.top;
}

static std::vector<const Line *> together;

static void add(const Face &f) {
    for (const Line &l : f.lines) together.push_back(&l);
}

static bool overlap(int f, int g) {
    if (apart(faces[f], faces[g])) return false;
    together.clear();
    add(faces[f]), add(faces[g]);
    return meet(together);
}

static bool three_overlap(int f, int g, int h) {
    if (apart(faces[f], faces[g]) || apart(faces[g], faces[h]) || apart(faces[f], faces[h])) return false;
    together.clear();
    add(faces[f]), add(faces[g]), add(faces[h]);
    return meet(together);
}

// ---- edges

static Wide value(Line l, Point p) { return l.a * p.x + l.b * p.y + l.c; }

static bool enters(const Edge &e, int f) {
    Interval room;
    if (!room.narrow({1, 0})) return false;
    for (const Line &l : faces[f].lines)
        if (!room.narrow({value(l, e.from), value(l, e.to)})) return false;
    return true;
}

static bool run_together(const Edge &e, const Edge &d) {
    const Line l = through(e.from, e.to);
    if (value(l, d.from) != 0 || value(l, d.to) != 0) return false;
    const bool by_x = e.from.x != e.to.x;
    auto at = [&](Point p) { return by_x ? p.x : p.y; };
    const Wide low = std::max(std::min(at(e.from), at(e.to)), std::min(at(d.from), at(d.to)));
    const Wide high = std::min(std::max(at(e.from), at(e.to)), std::max(at(d.from), at(d.to)));
    return low < high;
}

static int side_of(const Edge &e, int f) {
    const Line l = through(e.from, e.to);
    for (Point p : faces[f].corners)
        if (int s = sign(value(l, p))) return s;
    return 0;
}

static bool beside(const Edge &e, int f, int g) { return side_of(e, f) == side_of(e, g); }
static bool is_crease(const Edge &e) { return e.second >= 0 && (e.letter == 'M' || e.letter == 'V' || e.letter == 'U'); }
static bool is_join(const Edge &e) { return e.second >= 0 && (e.letter == 'F' || e.letter == 'J'); }
static bool between(int x, int y, int z) { return (above(x, y) && above(z, x)) || (above(x, z) && above(y, x)); }

static bool changes(int f, int g, int near, int far) {
    return (above(f, near) && above(far, g)) || (above(near, f) && above(g, far));
}

static bool on_normal_side(int f, int g) { return faces[g].turned ? above(g, f) : above(f, g); }

[[noreturn]] static void no(const std::string &words) {
    std::printf("no %s\n", words.c_str());
    std::exit(0);
}

static std::string n(std::size_t k) { return " " + std::to_string(k); }

static void crossings() {
    const int count = static_cast<int>(faces.size()), sides = static_cast<int>(edges.size());
    for (int f = 0; f < count; f++)
        for (int g = f + 1; g < count; g++)
            if (above(f, g))
                for (int h = f + 1; h < count; h++)
                    if (above(g, h) && above(h, f) && three_overlap(f, g, h)) no("cycle" + n(f) + n(g) + n(h));
    for (int e = 0; e < sides; e++) {
        const Edge &c = edges[e];
        if (!is_crease(c)) continue;
        for (int f = 0; f < count; f++)
            if (between(f, c.first, c.second) && enters(c, f)) no("through edge" + n(e) + " face" + n(f));
        for (int d = 0; d < sides; d++) {
            const Edge &j = edges[d];
            if (!is_join(j)) continue;
            const bool near = between(j.first, c.first, c.second) && beside(c, c.first, j.first);
            if ((near || (between(j.second, c.first, c.second) && beside(c, c.first, j.second))) && run_together(c, j))
                no("through edge" + n(e) + " edge" + n(d));
        }
    }
    for (int e = 0; e < sides; e++)
        for (int d = e + 1; is_crease(edges[e]) && d < sides; d++) {
            const Edge &c = edges[e], &o = edges[d];
            if (is_crease(o) && between(o.first, c.first, c.second) != between(o.second, c.first, c.second) && run_together(c, o)
                && beside(c, c.first, o.first))
                no("creases" + n(e) + n(d));
        }
    for (int e = 0; e < sides; e++) {
        const Edge &c = edges[e];
        if (!is_join(c)) continue;
        for (int f = 0; f < count; f++)
            if (between(f, c.first, c.second) && enters(c, f)) no("joined edge" + n(e) + " face" + n(f));
        for (int d = e + 1; d < sides; d++) {
            const Edge &o = edges[d];
            if (!is_join(o)) continue;
            const bool near = changes(c.first, c.second, o.first, o.second) && beside(c, c.first, o.first);
            if ((near || (changes(c.first, c.second, o.second, o.first) && beside(c, c.first, o.second))) && run_together(c, o))
                no("joined edge" + n(e) + " edge" + n(d));
        }
    }
    for (int e = 0; e < sides; e++) {
        const Edge &c = edges[e];
        if (c.second < 0) continue;
        const bool first = on_normal_side(c.first, c.second), second = on_normal_side(c.second, c.first);
        if ((c.letter == 'V' && !(first && second)) || (c.letter == 'M' && (first || second))) no("letter" + n(e));
    }
}

// ---- the FOLD file as a tree, whose numbers keep their text

struct Value {
    char kind;
    std::string text;
    std::vector<Value> items;
    std::vector<std::pair<std::string, Value>> members;
};

struct Reader {
    const char *at, *end;

    [[noreturn]] static void fail() { std::exit(2); }

    char next() {
        while (at < end && (*at == ' ' || *at == '\n' || *at == '\r' || *at == '\t')) at++;
        if (at == end) fail();
        return *at;
    }

    void take(char wanted) {
        if (next() != wanted) fail();
        at++;
    }

    bool goes_on(char close) {
        const char c = next();
        at++;
        if (c != ',' && c != close) fail();
        return c == ',';
    }

    // Without escapes, which the figures don't have.
    std::string word() {
        take('"');
        const char *from = at;
        while (at < end && *at != '"') {
            if (*at == '\\') fail();
            at++;
        }
        take('"');
        return {from, at - 1};
    }

    Value value() {
        Value read{next(), {}, {}, {}};
        if (read.kind == '[') {
            at++;
            if (next() == ']') return at++, read;
            do read.items.push_back(value());
            while (goes_on(']'));
        } else if (read.kind == '{') {
            at++;
            do {
                std::string key = word();
                take(':');
                read.members.emplace_back(std::move(key), value());
            } while (goes_on('}'));
        } else if (read.kind == '"') {
            read.text = word();
        } else {
            const char *from = at;
            while (at < end && (*at == '-' || *at == '.' || (*at >= '0' && *at <= '9'))) at++;
            if (from == at) fail();
            read.text.assign(from, at);
        }
        return read;
    }
};

static Value read_tree() {
    std::string text;
    char room[65536];
    while (const std::size_t got = std::fread(room, 1, sizeof room, stdin)) text.append(room, got);
    Reader reader{text.data(), text.data() + text.size()};
    return reader.value();
}

static const Value &member(const Value &tree, const char *key) {
    for (const auto &[name, value] : tree.members)
        if (name == key) return value;
    Reader::fail();
}

// ---- the folded places

static std::FILE *places;

static long long number() {
    long long x = 0;
    int byte = std::getc(places);
    while (byte == ' ' || byte == '\n') byte = std::getc(places);
    const bool negative = byte == '-';
    if (negative) byte = std::getc(places);
    for (; byte >= '0' && byte <= '9'; byte = std::getc(places)) x = 10 * x + (byte - '0');
    return negative ? -x : x;
}

static Point point() {
    const Wide x = number(), y = number();
    return {x, y};
}

static Face face() {
    Face f;
    const int corners = static_cast<int>(number());
    f.turned = number() != 0;
    for (int k = 0; k < corners; k++) f.corners.push_back(point());
    f.left = f.right = f.corners[0].x;
    f.bottom = f.top = f.corners[0].y;
    for (int k = 0; k < corners; k++) {
        const Point p = f.corners[k], q = f.corners[(k + 1) % corners];
        f.lines.push_back(f.turned ? through(q, p) : through(p, q));
        f.left = std::min(f.left, p.x), f.right = std::max(f.right, p.x);
        f.bottom = std::min(f.bottom, p.y), f.top = std::max(f.top, p.y);
    }
    return f;
}

int main(int, char **words) {
    const Value tree = read_tree();
    places = std::fopen(words[1], "r");
    if (!places) Reader::fail();
    const int count = static_cast<int>(number()), sides = static_cast<int>(number());
    for (int f = 0; f < count; f++) faces.push_back(face());
    for (int e = 0; e < sides; e++) {
        int letter = std::getc(places);
        while (letter == '\n' || letter == ' ') letter = std::getc(places);
        const int first = static_cast<int>(number()), second = static_cast<int>(number());
        const Point from = point(), to = point();
        edges.push_back({static_cast<char>(letter), first, second, from, to});
    }
    table.assign(static_cast<std::size_t>(count) * count, 0);
    for (const Value &order : member(tree, "faceOrders").items) {
        int f = std::stoi(order.items[0].text), g = std::stoi(order.items[1].text);
        const int side = std::stoi(order.items[2].text);
        if (f == g || side == 0) continue;
        if ((side > 0) == faces[g].turned) std::swap(f, g);
        if (above(g, f)) no("order clash");
        table[f * count + g] = 1;
    }
    for (int f = 0; f < count; f++)
        for (int g = f + 1; g < count; g++)
            if (!above(f, g) && !above(g, f) && overlap(f, g)) no("no order" + n(f) + n(g));
    crossings();
    std::printf("yes\n");
}
