// The same job as `fold_program convert --from=cp` under the rule `exact`, for decimals of at most nine places, in plain C++: reads
// the whole text, checks every line, reads the coordinates as exact fractions of 128 bits, numbers the different ends by a hash
// table, and prints the file. It is the rival that the benchmark measures against, and nothing else: no part of the program is
// built from it.
#include <charconv>
#include <cstdint>
#include <cstdio>
#include <cstdlib>
#include <string>
#include <unordered_map>
#include <vector>

using Int = __int128;

struct Fraction {
    Int p, q;
    bool operator==(const Fraction &other) const { return p == other.p && q == other.q; }
};

struct Point {
    Fraction x, y;
    bool operator==(const Point &other) const { return x == other.x && y == other.y; }
};

struct PointHash {
    size_t operator()(const Point &point) const {
        uint64_t hash = 1469598103934665603u;
        for (Int part : {point.x.p, point.x.q, point.y.p, point.y.q}) {
            hash = (hash ^ uint64_t(part)) * 0x9e3779b97f4a7c15u;
            hash = (hash ^ uint64_t(part >> 64) ^ (hash >> 32)) * 0x9e3779b97f4a7c15u;
        }
        return hash ^ (hash >> 29);
    }
};

struct Edge { uint32_t from, to; };

[[noreturn]] static void fail() { std::exit(2); }

static std::string read_all() {
    std::string text;
    char room[65536];
    while (size_t got = fread(room, 1, sizeof room, stdin)) text.append(room, got);
    return text;
}

static Int divisor(Int a, Int b) {
    while (b) { Int rest = a % b; a = b; b = rest; }
    return a;
}

// An optional minus, digits, and perhaps a point and at most 18 digits more.
static Fraction read_number(const char *&at, const char *end) {
    bool minus = at < end && *at == '-';
    if (minus) at++;
    if (at == end || *at < '0' || *at > '9') fail();
    Int p = 0, q = 1;
    bool zero = *at == '0';
    const char *first = at;
    while (at < end && *at >= '0' && *at <= '9') p = p * 10 + (*at++ - '0');
    if ((zero && at - first > 1) || at - first > 18) fail();
    if (at < end && *at == '.') {
        const char *point = at++;
        while (at < end && *at >= '0' && *at <= '9') { p = p * 10 + (*at++ - '0'); q *= 10; }
        if (at - point == 1 || at - point > 19) fail();
        Int common = divisor(p, q);
        p /= common;
        q /= common;
    }
    return {minus ? -p : p, q};
}

static void skip_blanks(const char *&at, const char *end) {
    while (at < end && (*at == ' ' || *at == '\t')) at++;
}

static void print_whole(std::string &out, uint64_t number) {
    char digits[24];
    out.append(digits, std::to_chars(digits, digits + sizeof digits, number).ptr);
}

// With at most nine decimals, and no zeros at the end.
static void print_number(std::string &out, Fraction number) {
    const Int billion = 1000000000;
    Int size = number.p < 0 ? -number.p : number.p;
    if (number.p < 0) out += '-';
    if (number.q == 1) return print_whole(out, uint64_t(size));
    if (billion % number.q != 0) fail();
    Int scaled = size * (billion / number.q);
    print_whole(out, uint64_t(scaled / billion));
    char digits[16];
    int count = snprintf(digits, sizeof digits, ".%09u", uint32_t(scaled % billion));
    while (digits[count - 1] == '0') count--;
    out.append(digits, count);
}

int main() {
    std::string text = read_all();
    const char *at = text.data(), *end = at + text.size();
    std::unordered_map<Point, uint32_t, PointHash> places;
    std::vector<Point> points;
    std::vector<Edge> edges;
    std::string letters;
    auto place_of = [&](Point point) {
        auto [entry, fresh] = places.try_emplace(point, uint32_t(points.size()));
        if (fresh) points.push_back(point);
        return entry->second;
    };
    for (; at < end; at++) {
        skip_blanks(at, end);
        if (at == end) break;
        if (*at == '\n') continue;
        if (*at < '0' || *at > '4') fail();
        char letter = "FBMVF"[*at++ - '0'];
        Fraction parts[4];
        for (Fraction &part : parts) {
            const char *from = at;
            skip_blanks(at, end);
            if (from == at) fail();
            part = read_number(at, end);
        }
        skip_blanks(at, end);
        if (at < end && *at != '\n') fail();
        uint32_t from = place_of({parts[0], parts[1]});
        edges.push_back({from, place_of({parts[2], parts[3]})});
        letters += letter;
    }
    std::string out = "{\"file_spec\":1.2,\"file_creator\":\"fold_program\",\"frame_classes\":[\"creasePattern\"],\"vertices_coords\":[";
    for (size_t i = 0; i < points.size(); i++) {
        out += i ? ",[" : "[";
        print_number(out, points[i].x);
        out += ',';
        print_number(out, points[i].y);
        out += ']';
    }
    out += "],\"edges_vertices\":[";
    for (size_t i = 0; i < edges.size(); i++) {
        out += i ? ",[" : "[";
        print_whole(out, edges[i].from);
        out += ',';
        print_whole(out, edges[i].to);
        out += ']';
    }
    out += "],\"edges_assignment\":[";
    for (size_t i = 0; i < letters.size(); i++) {
        out += i ? ",\"" : "\"";
        out += letters[i];
        out += '"';
    }
    out += "]}\n";
    fwrite(out.data(), 1, out.size(), stdout);
}
