// CP text as a FOLD file of vertices, pieces and faces, by CGAL's exact arrangement of segments (Debian's libcgal-dev): the rival of
// `fold_program repair --from=cp`, which bench/repair measures against, and nothing else. It writes the same text for segments of
// one kind that make one connected drawing.
#include <CGAL/Arr_segment_traits_2.h>
#include <CGAL/Arrangement_2.h>
#include <CGAL/Exact_predicates_exact_constructions_kernel.h>
#include <gmpxx.h>
#include <algorithm>
#include <iostream>
#include <iterator>
#include <sstream>
#include <string>
#include <unordered_map>
#include <utility>
#include <vector>

using Kernel = CGAL::Exact_predicates_exact_constructions_kernel;
using Traits = CGAL::Arr_segment_traits_2<Kernel>;
using Arrangement = CGAL::Arrangement_2<Traits>;
using Vertex = Arrangement::Vertex_const_handle;

// A decimal text as an exact fraction.
static mpq_class fraction(const std::string &text) {
    const auto point = text.find('.');
    if (point == std::string::npos) {
        return mpq_class(text);
    }
    const std::string digits = text.substr(0, point) + text.substr(point + 1);
    mpq_class value(mpz_class(digits), mpz_class("1" + std::string(text.size() - point - 1, '0')));
    value.canonicalize();
    return value;
}

// A fraction rounded to nine decimals, half up.
static std::string nine(const mpq_class &value) {
    mpz_class billionths, rest;
    const mpz_class twice = value.get_num() * 2000000000 + value.get_den(), below = value.get_den() * 2;
    mpz_fdiv_q(billionths.get_mpz_t(), twice.get_mpz_t(), below.get_mpz_t());
    const bool negative = billionths < 0;
    const mpz_class size = abs(billionths), whole = size / 1000000000;
    rest = size % 1000000000;
    std::string text = (negative ? "-" : "") + whole.get_str();
    if (rest != 0) {
        std::string digits = rest.get_str();
        digits.insert(0, 9 - digits.size(), '0');
        digits.erase(digits.find_last_not_of('0') + 1);
        text += "." + digits;
    }
    return text;
}

// Whether nine decimals tell all of it.
static bool is_nine(const mpq_class &value) {
    return mpz_class(1000000000) % value.get_den() == 0;
}

static Kernel::FT number(const std::string &text) {
    std::stringstream digits(fraction(text).get_str());
    Kernel::Exact_kernel::FT value;
    digits >> value;
    return Kernel::FT(value);
}

static mpq_class exact(const Kernel::FT &value) {
    std::stringstream text;
    text << CGAL::exact(value);
    mpq_class fraction(text.str());
    fraction.canonicalize();
    return fraction;
}

// The corners, begun at their least rotation.
static std::vector<int> least(const std::vector<int> &corners) {
    std::size_t best = 0;
    const std::size_t count = corners.size();
    for (std::size_t other = 1; other < count; ++other) {
        for (std::size_t i = 0; i < count; ++i) {
            const int a = corners[(other + i) % count], b = corners[(best + i) % count];
            if (a != b) {
                best = a < b ? other : best;
                break;
            }
        }
    }
    std::vector<int> turned(corners);
    std::rotate(turned.begin(), turned.begin() + best, turned.end());
    return turned;
}

template <typename Items, typename Put>
static void list(std::string &out, const Items &items, Put put) {
    out += '[';
    bool first = true;
    for (const auto &item : items) {
        out += first ? "" : ",";
        first = false;
        put(item);
    }
    out += ']';
}

int main() {
    std::ios::sync_with_stdio(false);
    std::vector<Traits::X_monotone_curve_2> segments;
    std::string kind, x, y, u, v;
    while (std::cin >> kind >> x >> y >> u >> v) {
        const Kernel::Point_2 from{number(x), number(y)};
        const Kernel::Point_2 to{number(u), number(v)};
        if (from != to) {
            segments.emplace_back(from, to);
        }
    }
    Arrangement cut;
    CGAL::insert(cut, segments.begin(), segments.end());

    std::vector<Vertex> vertices;
    for (auto at = cut.vertices_begin(); at != cut.vertices_end(); ++at) {
        vertices.push_back(at);
    }
    const auto before = Kernel().compare_xy_2_object();
    std::sort(vertices.begin(), vertices.end(), [&](Vertex a, Vertex b) { return before(a->point(), b->point()) == CGAL::SMALLER; });
    std::unordered_map<const void *, int> ids;
    std::vector<std::pair<mpq_class, mpq_class>> coords;
    for (const Vertex vertex : vertices) {
        ids.emplace(&*vertex, static_cast<int>(ids.size()));
        coords.emplace_back(exact(vertex->point().x()), exact(vertex->point().y()));
    }
    std::vector<std::pair<int, int>> pieces;
    for (auto at = cut.edges_begin(); at != cut.edges_end(); ++at) {
        const int from = ids.at(&*at->source()), to = ids.at(&*at->target());
        pieces.emplace_back(std::min(from, to), std::max(from, to));
    }
    std::sort(pieces.begin(), pieces.end());
    std::vector<std::vector<int>> faces;
    for (auto at = cut.faces_begin(); at != cut.faces_end(); ++at) {
        if (at->is_unbounded()) {
            continue;
        }
        std::vector<int> corners;
        auto round = at->outer_ccb();
        const auto begin = round;
        do {
            corners.push_back(ids.at(&*round->source()));
        } while (++round != begin);
        faces.push_back(least(corners));
    }
    std::sort(faces.begin(), faces.end());

    std::string out = "{\"file_spec\":1.2,\"file_creator\":\"fold_program\",\"frame_classes\":[\"creasePattern\"],\"vertices_coords\":";
    list(out, coords, [&](const auto &c) { out += "[" + nine(c.first) + "," + nine(c.second) + "]"; });
    if (!std::all_of(coords.begin(), coords.end(), [](const auto &c) { return is_nine(c.first) && is_nine(c.second); })) {
        const auto text = [](const mpq_class &value) { return "\"" + value.get_num().get_str() + ",0," + value.get_den().get_str() + "\""; };
        out += ",\"fx:vertices_coords\":";
        list(out, coords, [&](const auto &c) { out += "[" + text(c.first) + "," + text(c.second) + "]"; });
    }
    out += ",\"edges_vertices\":";
    list(out, pieces, [&](const auto &p) { out += "[" + std::to_string(p.first) + "," + std::to_string(p.second) + "]"; });
    const std::string letter = kind == "1" ? "\"B\"" : kind == "2" ? "\"M\"" : kind == "3" ? "\"V\"" : "\"F\"";
    out += ",\"edges_assignment\":";
    list(out, pieces, [&](const auto &) { out += letter; });
    out += ",\"faces_vertices\":";
    list(out, faces, [&](const auto &face) { list(out, face, [&](int corner) { out += std::to_string(corner); }); });
    out += "}\n";
    std::cout << out;
}
