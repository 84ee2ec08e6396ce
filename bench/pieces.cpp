// The drawings of the crate `piece_timing`, cut by CGAL's exact arrangement of segments (Debian's libcgal-dev). It is the rival
// that the benchmark measures against, and nothing else. It prints how many vertices and pieces there are.
#include <CGAL/Exact_predicates_exact_constructions_kernel.h>
#include <CGAL/Arr_segment_traits_2.h>
#include <CGAL/Arrangement_2.h>
#include <cstdint>
#include <cstdio>
#include <cstdlib>
#include <string>
#include <vector>

using Kernel = CGAL::Exact_predicates_exact_constructions_kernel;
using Traits = CGAL::Arr_segment_traits_2<Kernel>;
using Arrangement = CGAL::Arrangement_2<Traits>;

static std::uint64_t state = 1;

static long roll(std::uint64_t below) {
    state = state * 6364136223846793005u + 1442695040888963407u;
    return static_cast<long>((state >> 33) % below);
}

int main(int, char **words) {
    const std::string drawing = words[1];
    const long count = std::atol(words[2]);
    std::vector<Traits::X_monotone_curve_2> segments;
    for (long i = 0; i < count; ++i) {
        long x, y, u, v;
        if (drawing == "grid") {
            const long half = count / 2;
            if (i < half) {
                x = 0, y = i, u = half - 1, v = i;
            } else {
                x = i - half, y = 0, u = i - half, v = half - 1;
            }
        } else if (drawing == "line") {
            x = i, y = i, u = i + count, v = i + count;
        } else if (drawing == "point") {
            x = -4000, y = -i, u = 4000, v = i;
        } else if (drawing == "all") {
            x = 0, y = 1000 * i, u = 4000, v = roll(512) - 1000 * i;
        } else {
            x = roll(1 << 21), y = roll(1 << 21);
            u = x + roll(1 << 19) - (1 << 18);
            v = y + roll(1 << 19) - (1 << 18);
        }
        if (x != u || y != v) {
            segments.emplace_back(Kernel::Point_2(x, y), Kernel::Point_2(u, v));
        }
    }
    Arrangement cut;
    CGAL::insert(cut, segments.begin(), segments.end());
    std::printf("%zu vertices, %zu pieces\n", cut.number_of_vertices(), cut.number_of_edges());
}
