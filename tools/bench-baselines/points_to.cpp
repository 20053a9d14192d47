// Points-to sets of the same drawn facts as crates/bench_facts: 2,000 points, 500 sites and 5,000 flows, by a worklist
// that passes on only what is new. It writes how many sites are in points and in their one row, all told.
#include <bitset>
#include <cstdint>
#include <cstdio>
#include <deque>
#include <vector>

static constexpr int POINTS = 2000, SITES = 500, FLOWS = 5000;
using Set = std::bitset<SITES>;

static uint64_t next(uint64_t x) { return (x % 0x80000000u * 1103515245u + 12345u) % 0x80000000u; }

int main() {
    std::vector<Set> points(POINTS), fresh(POINTS);
    std::vector<std::vector<int>> flows(POINTS);
    std::deque<int> work;
    std::vector<char> waits(POINTS);
    auto add = [&](int p, const Set& more) {
        Set news = more & ~points[p];
        if (news.none()) return;
        points[p] |= news;
        fresh[p] |= news;
        if (!waits[p]) {
            waits[p] = 1;
            work.push_back(p);
        }
    };
    uint64_t x = 2;
    for (int k = 0; k < FLOWS; k++) {
        x = next(x);
        int from = x / 8 % POINTS;
        x = next(x);
        flows[from].push_back(x / 8 % POINTS);
    }
    x = 1;
    for (int k = 0; k < SITES; k++) {
        x = next(x);
        int point = x / 8 % POINTS;
        x = next(x);
        add(point, Set().set(x / 8 % SITES));
    }
    while (!work.empty()) {
        int p = work.front();
        work.pop_front();
        waits[p] = 0;
        Set news = fresh[p];
        fresh[p].reset();
        for (int q : flows[p]) add(q, news);
    }
    size_t sum = 0;
    Set row;
    for (const Set& set : points) {
        sum += set.count();
        row |= set;
    }
    std::printf("points %zu rows %zu\n", sum, row.count());
}
