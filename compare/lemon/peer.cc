// A peer in C++ for the bench: LEMON's Dijkstra over a road book.
//   peer roads < ROAD                     what eccentricity prints
//   peer search ROAD YARD QUERY SECONDS [DRIVE]
//                                         brute force for a query, again and again for so many seconds:
//                                         the shortest time in milliseconds, then a line `yard distance` for each listed yard;
//                                         the first k, or all within DRIVE seconds
// The books are taken to be accepted ones: nothing is tested.
#include <lemon/dijkstra.h>
#include <lemon/static_graph.h>

#include <algorithm>
#include <chrono>
#include <cstdint>
#include <cstdio>
#include <cstdlib>
#include <cstring>
#include <tuple>
#include <utility>
#include <vector>

using Bytes = std::vector<uint8_t>;
using Graph = lemon::StaticDigraph;
using Seconds = Graph::ArcMap<uint32_t>;
using Dijkstra = lemon::Dijkstra<Graph, Seconds>;

static unsigned u16(const Bytes &book, size_t at)
{
    return 256u * book.at(at) + book.at(at + 1);
}

static Bytes all_of(FILE *file)
{
    Bytes bytes(65536);
    bytes.resize(fread(bytes.data(), 1, bytes.size(), file));
    return bytes;
}

static Bytes file_of(const char *path)
{
    FILE *file = fopen(path, "rb");
    if (!file) {
        perror(path);
        exit(2);
    }
    Bytes bytes = all_of(file);
    fclose(file);
    return bytes;
}

struct Arc {
    int from, to;
    uint32_t seconds;
};

// The graph of a road book: each road is an arc each way.
struct Roads {
    Graph graph;
    Seconds seconds;

    explicit Roads(const Bytes &book) : seconds(graph)
    {
        std::vector<Arc> arcs;
        for (size_t k = 0; k < u16(book, 7); k++) {
            const size_t at = 9 + 6 * k;
            const int low = u16(book, at), high = u16(book, at + 2);
            const uint32_t s = u16(book, at + 4);
            arcs.push_back({low, high, s});
            arcs.push_back({high, low, s});
        }
        std::sort(arcs.begin(), arcs.end(), [](const Arc &a, const Arc &b) { return a.from < b.from; });
        std::vector<std::pair<int, int>> ends;
        for (const Arc &a : arcs)
            ends.emplace_back(a.from, a.to);
        graph.build(u16(book, 5), ends.begin(), ends.end());
        for (int a = 0; a < graph.arcNum(); a++)
            seconds[graph.arc(a)] = arcs[a].seconds;
    }
};

static void roads()
{
    const Roads district(all_of(stdin));
    Dijkstra dijkstra(district.graph, district.seconds);
    puts("junction furthest total");
    for (int u = 0; u < district.graph.nodeNum(); u++) {
        dijkstra.run(district.graph.node(u));
        uint64_t furthest = 0, total = 0;
        for (int v = 0; v < district.graph.nodeNum(); v++) {
            const uint64_t d = dijkstra.dist(district.graph.node(v));
            furthest = std::max(furthest, d);
            total += d;
        }
        printf("%d %llu %llu\n", u, (unsigned long long)furthest, (unsigned long long)total);
    }
}

// A yard in yard order: the aggregate, then the furthest crew's distance, then the junction.
struct Place {
    uint64_t total, furthest;
    unsigned yard;

    bool operator<(const Place &other) const
    {
        return std::tie(total, furthest, yard) < std::tie(other.total, other.furthest, other.yard);
    }
};

using Ranked = std::vector<Place>;

// The first k yards of a query, or all within a drive, by a walk from each crew and the yards sorted. The graph is made
// from the book, as in a call.
static Ranked listed(const Bytes &road, const Bytes &yard, const Bytes &query, const uint64_t *drive)
{
    const Roads district(road);
    Dijkstra dijkstra(district.graph, district.seconds);
    Ranked ranked;
    for (size_t i = 0; i < u16(yard, 5); i++)
        ranked.push_back({0, 0, u16(yard, 7 + 2 * i)});
    for (size_t crew = 0; crew < query.at(11); crew++) {
        dijkstra.run(district.graph.node(u16(query, 12 + 2 * crew)));
        for (auto &[total, furthest, y] : ranked) {
            const uint64_t d = dijkstra.dist(district.graph.node(y));
            furthest = std::max(furthest, d);
            total = query.at(5) == 0 ? total + d : furthest;
        }
    }
    if (drive) {
        const auto above = [drive](const Place &place) { return place.total > *drive; };
        ranked.erase(std::remove_if(ranked.begin(), ranked.end(), above), ranked.end());
    }
    std::sort(ranked.begin(), ranked.end());
    if (!drive)
        ranked.resize(std::min<size_t>(ranked.size(), query.at(6)));
    return ranked;
}

static void search(char **arguments, bool within)
{
    using Clock = std::chrono::steady_clock;
    const Bytes road = file_of(arguments[0]), yard = file_of(arguments[1]), query = file_of(arguments[2]);
    const uint64_t drive = within ? strtoull(arguments[4], nullptr, 10) : 0;
    const auto end = Clock::now() + std::chrono::duration<double>(atof(arguments[3]));
    std::chrono::duration<double, std::milli> best(1e9);
    Ranked ranked;
    do {
        const auto start = Clock::now();
        ranked = listed(road, yard, query, within ? &drive : nullptr);
        best = std::min<decltype(best)>(best, Clock::now() - start);
    } while (Clock::now() < end);
    printf("%f\n", best.count());
    for (const Place &place : ranked)
        printf("%u %llu\n", place.yard, (unsigned long long)place.total);
}

int main(int count, char **arguments)
{
    if (count == 2 && strcmp(arguments[1], "roads") == 0)
        roads();
    else if ((count == 6 || count == 7) && strcmp(arguments[1], "search") == 0)
        search(arguments + 2, count == 7);
    else {
        fputs("usage: peer roads < ROAD | peer search ROAD YARD QUERY SECONDS [DRIVE]\n", stderr);
        return 2;
    }
    return 0;
}
