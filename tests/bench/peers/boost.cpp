// An outside peer: the Boost Graph Library. From segments that are already read
// it makes a graph, the lightest tree by Kruskal's method and the shortest by
// Dijkstra's, and answers with the length of the one and the radius of the
// other. It hangs no tree by document 01's rules, refuses nothing and builds no
// third tree: it does less than the library, and has a head start.
#include <boost/graph/adjacency_list.hpp>
#include <boost/graph/dijkstra_shortest_paths.hpp>
#include <boost/graph/kruskal_min_spanning_tree.hpp>

#include <algorithm>
#include <cstddef>
#include <cstdint>
#include <utility>
#include <vector>

using Graph = boost::adjacency_list<boost::vecS, boost::vecS, boost::undirectedS, boost::no_property,
                                    boost::property<boost::edge_weight_t, std::uint32_t>>;
using Edge = boost::graph_traits<Graph>::edge_descriptor;
using Vertex = boost::graph_traits<Graph>::vertex_descriptor;

struct PeerSegment {
    std::uint32_t a, b, length;
};

extern "C" void peer_boost_build(std::uint32_t posts, std::uint32_t source, const PeerSegment *segments,
                                 std::size_t count, std::uint32_t *lightest_length, std::uint32_t *shortest_radius) {
    std::vector<std::pair<std::uint32_t, std::uint32_t>> ends(count);
    std::vector<std::uint32_t> lengths(count);
    for (std::size_t number = 0; number < count; ++number) {
        ends[number] = {segments[number].a, segments[number].b};
        lengths[number] = segments[number].length;
    }
    Graph graph(ends.begin(), ends.end(), lengths.begin(), posts);
    const auto weight = boost::get(boost::edge_weight, graph);

    std::vector<Edge> tree;
    tree.reserve(posts);
    boost::kruskal_minimum_spanning_tree(graph, std::back_inserter(tree));
    *lightest_length = 0;
    for (const Edge &edge : tree) *lightest_length += weight[edge];

    std::vector<Vertex> parent(posts);
    std::vector<std::uint32_t> least(posts);
    boost::dijkstra_shortest_paths(graph, source, boost::predecessor_map(parent.data()).distance_map(least.data()));
    *shortest_radius = *std::max_element(least.begin(), least.end());
}
