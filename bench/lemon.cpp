// The peel loop of the exact plan over LEMON's matching: fill, then take any full setting of the
// non-zero cells off for its smallest cell until all is zero. The graph is kept, and an edge goes
// when its cell is empty.
//
//     lemon anew|kept REPEATS FILE..
//
// `anew` matches from nothing for each setting, `kept` starts from what is left of the setting
// before. A file has N and then the N * N cells, 32 bits each, low byte first. For each file a line:
// records, total hold, and the least nanoseconds of the repeats.
#include <lemon/list_graph.h>
#include <lemon/matching.h>

#include <algorithm>
#include <chrono>
#include <cstdint>
#include <cstdio>
#include <cstdlib>
#include <fstream>
#include <numeric>
#include <string>
#include <vector>

using Graph = lemon::ListGraph;
using Cells = std::vector<uint32_t>;

struct Plan {
    uint64_t records = 0;
    uint64_t total = 0;
};

// Adds to each cell, in order, the smaller of what its row and its column still lack of T.
static uint64_t fill(size_t n, Cells &cells) {
    std::vector<uint64_t> rows(n), columns(n);
    for (size_t k = 0; k < n * n; k++) {
        rows[k / n] += cells[k];
        columns[k % n] += cells[k];
    }
    uint64_t longest = std::max(*std::max_element(rows.begin(), rows.end()),
                                *std::max_element(columns.begin(), columns.end()));
    for (size_t k = 0; k < n * n; k++) {
        uint64_t added = std::min(longest - rows[k / n], longest - columns[k % n]);
        cells[k] += static_cast<uint32_t>(added);
        rows[k / n] += added;
        columns[k % n] += added;
    }
    return longest;
}

static Plan peel(size_t n, Cells cells, bool kept) {
    uint64_t line = fill(n, cells);
    Graph graph;
    std::vector<Graph::Node> inputs, outputs;
    for (size_t i = 0; i < n; i++) {
        inputs.push_back(graph.addNode());
        outputs.push_back(graph.addNode());
    }
    Graph::EdgeMap<size_t> cell(graph);
    for (size_t k = 0; k < n * n; k++)
        if (cells[k] != 0)
            cell[graph.addEdge(inputs[k / n], outputs[k % n])] = k;

    Plan plan;
    Graph::EdgeMap<bool> left(graph, false);
    std::vector<Graph::Edge> setting(n);
    while (line != 0) {
        lemon::MaxMatching<Graph> matching(graph);
        if (kept) {
            matching.matchingInit(left);
            matching.startDense();
        } else {
            matching.run();
        }
        uint32_t hold = UINT32_MAX;
        for (size_t i = 0; i < n; i++) {
            if (kept && plan.records != 0 && graph.valid(setting[i]))
                left[setting[i]] = false;
            setting[i] = matching.matching(inputs[i]);
            hold = std::min(hold, cells[cell[setting[i]]]);
        }
        for (Graph::Edge edge : setting) {
            left[edge] = true;
            if ((cells[cell[edge]] -= hold) == 0)
                graph.erase(edge);
        }
        plan.records += 1;
        plan.total += hold;
        line -= hold;
    }
    return plan;
}

int main(int count, char **words) {
    bool kept = std::string(words[1]) == "kept";
    int repeats = std::atoi(words[2]);
    for (int file = 3; file < count; file++) {
        std::ifstream in(words[file], std::ios::binary);
        uint32_t n = 0;
        in.read(reinterpret_cast<char *>(&n), sizeof n);
        Cells cells(size_t(n) * n);
        in.read(reinterpret_cast<char *>(cells.data()), static_cast<std::streamsize>(cells.size() * sizeof cells[0]));
        Plan plan;
        int64_t least = INT64_MAX;
        for (int k = 0; k < repeats; k++) {
            auto began = std::chrono::steady_clock::now();
            plan = peel(n, cells, kept);
            auto took = std::chrono::steady_clock::now() - began;
            least = std::min<int64_t>(least, std::chrono::nanoseconds(took).count());
        }
        std::printf("%llu %llu %lld\n", static_cast<unsigned long long>(plan.records),
                    static_cast<unsigned long long>(plan.total), static_cast<long long>(least));
    }
}
