// Solves the instances that `plan.rattle` prints, by the network simplex of LEMON, and compares costs and times.
#include <lemon/network_simplex.h>
#include <lemon/smart_graph.h>

#include <algorithm>
#include <chrono>
#include <cstdio>
#include <iostream>
#include <string>
#include <vector>

using namespace lemon;

struct Group {
    int variant;
    long long count, points;
};

int main() {
    std::string word;
    bool equal = true;
    while (std::cin >> word) {
        int names, groups;
        std::cin >> names >> groups;
        std::vector<long long> low(names), high(names), price(names * names);
        for (int n = 0; n < names; n++) std::cin >> low[n] >> high[n];
        for (auto& p : price) std::cin >> p;
        std::vector<Group> rows(groups);
        for (auto& r : rows) std::cin >> r.variant >> r.count >> r.points;
        long long total, cost, micros;
        std::cin >> word >> total >> cost >> micros;

        SmartDigraph graph;
        std::vector<SmartDigraph::Node> supply, demand;
        for (int g = 0; g < groups; g++) supply.push_back(graph.addNode());
        for (int n = 0; n < names; n++) demand.push_back(graph.addNode());
        auto sink = graph.addNode();
        std::vector<std::pair<SmartDigraph::Arc, long long>> costs;
        for (int g = 0; g < groups; g++)
            for (int n = 0; n < names; n++) {
                long long p = price[rows[g].variant * names + n];
                if (p >= 0) costs.push_back({graph.addArc(supply[g], demand[n]), p * rows[g].count});
            }
        SmartDigraph::ArcMap<long long> cost_of(graph, 0), lower(graph, 0), upper(graph, total);
        for (auto& [arc, c] : costs) cost_of[arc] = c;
        for (int n = 0; n < names; n++) {
            auto arc = graph.addArc(demand[n], sink);
            lower[arc] = low[n];
            upper[arc] = high[n];
        }
        SmartDigraph::NodeMap<long long> supplies(graph, 0);
        for (int g = 0; g < groups; g++) supplies[supply[g]] = rows[g].points;
        supplies[sink] = -total;

        long long best = -1, found = -1;
        for (int turn = 0; turn < 5; turn++) {
            auto start = std::chrono::steady_clock::now();
            NetworkSimplex<SmartDigraph, long long, long long> simplex(graph);
            simplex.lowerMap(lower).upperMap(upper).costMap(cost_of).supplyMap(supplies);
            bool optimal = simplex.run() == NetworkSimplex<SmartDigraph, long long, long long>::OPTIMAL;
            auto end = std::chrono::steady_clock::now();
            long long taken = std::chrono::duration_cast<std::chrono::microseconds>(end - start).count();
            best = best < 0 ? taken : std::min(best, taken);
            found = optimal ? simplex.totalCost<long long>() : -1;
        }
        equal = equal && found == cost;
        std::printf("total %lld, %d names, %d groups: cost %lld, planner %.2f ms, LEMON %.2f ms (cost %lld), ratio %.1f\n",
                    total, names, groups, cost, micros / 1000.0, best / 1000.0, found, double(best) / micros);
    }
    if (!equal) std::puts("the costs differ");
    return equal ? 0 : 1;
}
