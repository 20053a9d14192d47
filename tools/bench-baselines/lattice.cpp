// All concepts of a table by upper neighbours: from the concept of all columns, each one by the closures of its extent
// with one more row. It reads what `table` prints, and writes how many concepts and covers there are.
#include <algorithm>
#include <cstdint>
#include <cstdio>
#include <iostream>
#include <sstream>
#include <string>
#include <unordered_map>
#include <vector>

using Bits = std::vector<uint64_t>;

struct Hash {
    size_t operator()(const Bits& bits) const {
        uint64_t h = 1469598103934665603u;
        for (uint64_t w : bits) h = (h ^ w) * 1099511628211u;
        return h;
    }
};

static bool has(const Bits& bits, size_t i) { return bits[i / 64] >> (i % 64) & 1; }
static bool within(const Bits& a, const Bits& b) {
    for (size_t k = 0; k < a.size(); k++)
        if (a[k] & ~b[k]) return false;
    return true;
}

int main() {
    std::string line;
    std::vector<std::vector<unsigned>> rows;
    unsigned width = 0;
    while (std::getline(std::cin, line)) {
        if (line.rfind("columns ", 0) == 0) width = std::stoul(line.substr(8));
        if (line[0] != 'r' || line.rfind("rows ", 0) == 0) continue;
        std::istringstream words(line.substr(line.rfind(':') + 1));
        rows.emplace_back();
        for (std::string w; words >> w;) rows.back().push_back(std::stoul(w.substr(1)));
    }
    size_t words = (width + 63) / 64;
    std::vector<Bits> table;
    for (auto& r : rows) {
        table.emplace_back(words);
        for (unsigned c : r) table.back()[c / 64] |= uint64_t(1) << (c % 64);
    }
    Bits full(words);
    for (unsigned c = 0; c < width; c++) full[c / 64] |= uint64_t(1) << (c % 64);
    std::vector<Bits> intents{full};
    std::unordered_map<Bits, size_t, Hash> number{{full, 0}};
    size_t covers = 0;
    for (size_t k = 0; k < intents.size(); k++) {
        std::vector<Bits> near;
        for (auto& r : table) {
            Bits meet(words);
            for (size_t w = 0; w < words; w++) meet[w] = intents[k][w] & r[w];
            if (meet != intents[k]) near.push_back(meet);
        }
        std::sort(near.begin(), near.end());
        near.erase(std::unique(near.begin(), near.end()), near.end());
        std::vector<std::pair<int, size_t>> order;
        for (size_t i = 0; i < near.size(); i++) {
            int size = 0;
            for (uint64_t w : near[i]) size += __builtin_popcountll(w);
            order.push_back({-size, i});
        }
        std::sort(order.begin(), order.end());
        std::vector<size_t> most;
        for (auto& o : order) {
            bool below = false;
            for (size_t m : most) below = below || within(near[o.second], near[m]);
            if (!below) most.push_back(o.second);
        }
        covers += most.size();
        for (size_t m : most)
            if (number.emplace(near[m], intents.size()).second) intents.push_back(near[m]);
    }
    std::printf("concepts %zu covers %zu\n", intents.size(), covers);
}
