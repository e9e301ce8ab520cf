// Solves a network by LEMON's network simplex, many times, and prints the least time and the cost.
//   usage: peer RUNS < NETWORK      (the network as bench/lists.py writes it)
// A flow of ours sends a need to a variable and is the dearer the less its arcs ask for; LEMON's is the cheapest, so
// its costs are the negated ones. The time is that of its set-up over a graph that is there, and of its run.
#include <chrono>
#include <cstdlib>
#include <iostream>
#include <lemon/network_simplex.h>
#include <lemon/smart_graph.h>
#include <vector>

using Graph = lemon::SmartDigraph;
using Clock = std::chrono::steady_clock;

struct Problem {
    Graph graph;
    Graph::ArcMap<long long> costs{graph};
    Graph::NodeMap<long long> supplies{graph};
};

static void read(Problem &problem) {
    int variables, arcs;
    std::cin >> variables >> arcs;
    problem.graph.reserveNode(variables);
    problem.graph.reserveArc(arcs);
    for (int v = 0; v < variables; v++) problem.graph.addNode();
    for (int i = 0; i < arcs; i++) {
        int from, to;
        long long least;
        std::cin >> from >> to >> least;
        auto arc = problem.graph.addArc(problem.graph.nodeFromId(from), problem.graph.nodeFromId(to));
        problem.costs[arc] = -least;
    }
    for (int v = 0; v < variables; v++) {
        long long need;
        std::cin >> need;
        problem.supplies[problem.graph.nodeFromId(v)] = -need;
    }
}

int main(int count, char **words) {
    const int runs = count > 1 ? std::atoi(words[1]) : 1;
    Problem problem;
    read(problem);
    long long least = -1, cost = 0;
    for (int run = 0; run < runs; run++) {
        const auto since = Clock::now();
        lemon::NetworkSimplex<Graph, long long, long long> simplex(problem.graph);
        simplex.costMap(problem.costs).supplyMap(problem.supplies);
        if (simplex.run() != simplex.OPTIMAL) return 1;
        const auto spent = std::chrono::duration_cast<std::chrono::nanoseconds>(Clock::now() - since).count();
        cost = -simplex.totalCost();
        if (least < 0 || spent < least) least = spent;
    }
    std::cout << "lemon " << least << "\ncost " << cost << "\n";
}
