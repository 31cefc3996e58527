// LEMON's and Boost's Dijkstra on a table. The graph is made before the clock starts.
#include <boost/graph/adjacency_list.hpp>
#include <boost/graph/dijkstra_shortest_paths.hpp>
#include <cstddef>
#include <cstdint>
#include <lemon/dijkstra.h>
#include <lemon/smart_graph.h>
#include <utility>
#include <vector>

namespace {

using LemonGraph = lemon::SmartDigraph;
using LemonLengths = LemonGraph::ArcMap<long long>;

struct LemonTable {
    LemonGraph graph;
    LemonLengths lengths{graph};
    lemon::Dijkstra<LemonGraph, LemonLengths> search{graph, lengths};
};

using BoostGraph = boost::adjacency_list<boost::vecS, boost::vecS, boost::directedS, boost::no_property,
                                         boost::property<boost::edge_weight_t, std::uint64_t>>;

struct BoostTable {
    BoostGraph graph;
    std::vector<std::uint64_t> distances;
    std::vector<std::size_t> parents;
};

struct TargetFound {};

// Ends the search where the target's distance is final, as Boost's manual advises.
struct StopAtTarget : boost::default_dijkstra_visitor {
    explicit StopAtTarget(std::size_t node) : target(node) {}
    void examine_vertex(std::size_t node, const BoostGraph &) const
    {
        if (node == target) throw TargetFound();
    }
    std::size_t target;
};

} // namespace

extern "C" {

void *lemon_new(std::size_t n, std::size_t m, const std::uint16_t *tails, const std::uint16_t *heads,
                const std::uint32_t *lengths)
{
    auto *table = new LemonTable;
    for (std::size_t node = 0; node < n; node++) table->graph.addNode();
    for (std::size_t arc = 0; arc < m; arc++) {
        auto added = table->graph.addArc(table->graph.nodeFromId(tails[arc]), table->graph.nodeFromId(heads[arc]));
        table->lengths[added] = lengths[arc];
    }
    return table;
}

// A target of n or more means every node.
void lemon_run(void *made, std::size_t target)
{
    auto *table = static_cast<LemonTable *>(made);
    auto origin = table->graph.nodeFromId(0);
    if (target < static_cast<std::size_t>(table->graph.nodeNum()))
        table->search.run(origin, table->graph.nodeFromId(static_cast<int>(target)));
    else
        table->search.run(origin);
}

std::uint64_t lemon_distance(void *made, std::size_t node)
{
    auto *table = static_cast<LemonTable *>(made);
    auto at = table->graph.nodeFromId(static_cast<int>(node));
    return table->search.reached(at) ? static_cast<std::uint64_t>(table->search.dist(at)) : UINT64_MAX;
}

void lemon_free(void *made) { delete static_cast<LemonTable *>(made); }

void *boost_new(std::size_t n, std::size_t m, const std::uint16_t *tails, const std::uint16_t *heads,
                const std::uint32_t *lengths)
{
    auto *table = new BoostTable{BoostGraph(n), std::vector<std::uint64_t>(n), std::vector<std::size_t>(n)};
    for (std::size_t arc = 0; arc < m; arc++) boost::add_edge(tails[arc], heads[arc], lengths[arc], table->graph);
    return table;
}

void boost_run(void *made, std::size_t target)
{
    auto *table = static_cast<BoostTable *>(made);
    auto maps = boost::predecessor_map(table->parents.data()).distance_map(table->distances.data());
    if (target >= table->distances.size()) {
        boost::dijkstra_shortest_paths(table->graph, 0, maps);
        return;
    }
    try {
        boost::dijkstra_shortest_paths(table->graph, 0, maps.visitor(StopAtTarget(target)));
    } catch (const TargetFound &) {
    }
}

std::uint64_t boost_distance(void *made, std::size_t node) { return static_cast<BoostTable *>(made)->distances[node]; }

void boost_free(void *made) { delete static_cast<BoostTable *>(made); }

} // extern "C"
