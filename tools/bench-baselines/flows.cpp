// The table of the shapes of tools/bench_flows.py that are of variables alone, from their facts to the text, by worklists
// that pass on only what is new: flows SHAPE COUNT. It writes what `kaba table` writes of the same shape.
#include <algorithm>
#include <cstdint>
#include <cstdio>
#include <cstdlib>
#include <deque>
#include <string>
#include <vector>

struct Set {
    std::vector<uint64_t> words;
    explicit Set(int width = 0) : words((width + 63) / 64) {}
    bool has(int n) const { return words[n / 64] >> n % 64 & 1; }
    void set(int n) { words[n / 64] |= 1ull << n % 64; }
    void clear() { std::fill(words.begin(), words.end(), 0); }
    template <class F> void each(F f) const {
        for (size_t w = 0; w < words.size(); w++)
            for (uint64_t bits = words[w]; bits; bits &= bits - 1) f(int(w * 64 + __builtin_ctzll(bits)));
    }
    bool add(const Set& other) {
        uint64_t news = 0;
        for (size_t w = 0; w < words.size(); w++) {
            news |= other.words[w] & ~words[w];
            words[w] |= other.words[w];
        }
        return news != 0;
    }
};

struct Facts {
    std::vector<std::string> rows;
    int sites = 0, columns = 0;
    std::vector<int> row_of_site;
    std::vector<std::vector<int>> flows, loads, stores, calls;  // by the variable where they begin
    std::vector<std::pair<int, int>> ties, marks, creations;    // upper and lower row; row and column; variable and site
    std::vector<int> body_of_this;                              // the column of the body whose `this` a row is, or -1
    std::vector<std::string> names;

    int row(const std::string& name) {
        rows.push_back(name);
        for (auto* list : {&flows, &loads, &stores, &calls}) list->emplace_back();
        body_of_this.push_back(-1);
        return int(rows.size()) - 1;
    }
    void create(int v, int line, const char* type) {
        row_of_site.push_back(row(std::string("new ") + type + "@" + std::to_string(line)));
        creations.emplace_back(v, sites++);
        ties.emplace_back(v, row_of_site.back());
    }
    void assign(int x, int y) {
        flows[y].push_back(x);
        ties.emplace_back(x, y);
    }
};

static const int FIELD = 0;  // the row and the column of the field `next`

static Facts facts_of(const std::string& shape, int count) {
    Facts f;
    if (shape == "methods") {
        for (int n = 0; n < count; n++) {
            std::string m = "P.m" + std::to_string(n);
            f.body_of_this[f.row(m + ".this")] = 2 * n + 1;
            f.names.push_back("dcl(" + m + ")");
            f.names.push_back("def(" + m + ")");
        }
        f.columns = 2 * count;
        int p = f.row("Main.main.p");
        for (int n = 0; n < 2 * count; n++) f.create(p, 2 * count + 6 + n, "P");
        for (int n = 0; n < count; n++) {
            f.calls[p].push_back(n);
            f.marks.emplace_back(p, 2 * n);
        }
        return f;
    }
    f.row("Node.next");
    f.names.push_back("fld(Node.next)");
    f.columns = 1;
    std::vector<int> a;
    int line = 6;
    auto variable = [&](int n) { a.push_back(f.row("Main.main.a" + std::to_string(n))); };
    auto store = [&](int base, int value) {
        f.stores[base].push_back(value);
        f.marks.emplace_back(base, FIELD);
        f.ties.emplace_back(FIELD, value);
    };
    auto load = [&](int base, int into) {
        f.loads[base].push_back(into);
        f.marks.emplace_back(base, FIELD);
        f.ties.emplace_back(into, FIELD);
    };
    if (shape == "followed") {
        variable(0);
        f.create(a[0], line++, "Node");
        for (int n = 0; n < count; n++) {
            // A variable that only the object stored has: the store of a creation.
            f.row_of_site.push_back(f.row("new Node@" + std::to_string(line)));
            int site = f.sites++;
            line += 2;
            f.creations.emplace_back(-1 - a[n], site);
            f.marks.emplace_back(a[n], FIELD);
            f.ties.emplace_back(FIELD, f.row_of_site.back());
            variable(n + 1);
            load(a[n], a[n + 1]);
        }
        return f;
    }
    int made = shape == "walked" ? count + 1 : count;
    for (int n = 0; n < made; n++) {
        variable(n);
        f.create(a[n], line++, "Node");
    }
    if (shape == "walked") {
        for (int n = 0; n < count; n++) store(a[n + 1], a[n]);
        int x = f.row("Main.main.x");
        for (int n = 0; n < count; n++) {
            load(a[n], x);
            f.assign(a[n], x);
        }
        return f;
    }
    for (int n = 0; n + (shape != "around") < count; n++) {
        int next = (n + 1) % count;
        shape == "along" ? f.assign(a[next], a[n]) : f.assign(a[n], a[next]);
    }
    return f;
}

// The sets of the rows: first those of variables, and then, while it is worked out, the cell of each site at the field.
static std::vector<Set> solve(const Facts& f) {
    int rows = int(f.rows.size()), nodes = rows + f.sites;
    std::vector<Set> sets(nodes, Set(f.sites)), fresh(nodes, Set(f.sites));
    std::vector<std::vector<int>> more(nodes);
    std::vector<char> waits(nodes);
    std::deque<int> work;
    auto add = [&](int n, const Set& other) {
        bool grew = false;
        for (size_t w = 0; w < other.words.size(); w++) {
            uint64_t news = other.words[w] & ~sets[n].words[w];
            sets[n].words[w] |= news;
            fresh[n].words[w] |= news;
            grew |= news != 0;
        }
        if (grew && !waits[n]) {
            waits[n] = 1;
            work.push_back(n);
        }
    };
    std::vector<std::vector<int>> stored(rows);
    Set one(f.sites);
    for (auto [v, site] : f.creations) {
        one.clear();
        one.set(site);
        if (v >= 0) add(v, one);
        else stored[-1 - v].push_back(site);
    }
    while (!work.empty()) {
        int n = work.front();
        work.pop_front();
        waits[n] = 0;
        Set news = fresh[n];
        fresh[n].clear();
        for (int to : more[n]) add(to, news);
        if (n >= rows) continue;
        for (int to : f.flows[n]) add(to, news);
        news.each([&](int o) {
            int cell = rows + o;
            for (int site : stored[n]) {
                one.clear();
                one.set(site);
                add(cell, one);
            }
            for (int into : f.loads[n]) {
                more[cell].push_back(into);
                add(into, sets[cell]);
            }
            for (int value : f.stores[n]) {
                more[value].push_back(cell);
                add(cell, sets[value]);
            }
        });
        for (int m : f.calls[n]) add(m, news);
    }
    if (f.rows[0] == "Node.next")
        for (int o = 0; o < f.sites; o++) sets[FIELD].add(sets[rows + o]);
    sets.resize(rows);
    return sets;
}

static std::vector<Set> close(const Facts& f, const std::vector<Set>& sets) {
    int rows = int(f.rows.size());
    std::vector<Set> table(rows, Set(f.columns));
    std::vector<int> this_of(f.columns, -1);
    std::vector<std::vector<int>> ties(rows);
    std::vector<char> waits(rows, 1);
    std::deque<int> work;
    for (auto [r, c] : f.marks) table[r].set(c);
    for (auto [upper, lower] : f.ties) ties[upper].push_back(lower);
    for (int r = 0; r < rows; r++) {
        work.push_back(r);
        if (f.body_of_this[r] >= 0) {
            table[r].set(f.body_of_this[r]);
            this_of[f.body_of_this[r]] = r;
        }
        for (int m : f.calls[r]) sets[r].each([&](int o) { table[f.row_of_site[o]].set(2 * m + 1); });
    }
    auto add = [&](int r, const Set& other) {
        if (table[r].add(other) && !waits[r]) {
            waits[r] = 1;
            work.push_back(r);
        }
    };
    while (!work.empty()) {
        int r = work.front();
        work.pop_front();
        waits[r] = 0;
        Set now = table[r];
        now.each([&](int c) {
            if (this_of[c] < 0) return;
            table[r].set(c - 1);
            if (this_of[c] != r) table[r].add(table[this_of[c]]);
        });
        for (int lower : ties[r]) add(lower, table[r]);
        sets[r].each([&](int o) { add(f.row_of_site[o], table[r]); });
    }
    return table;
}

int main(int count, char** words) {
    if (count < 3) return 2;
    Facts f = facts_of(words[1], std::atoi(words[2]));
    std::vector<Set> table = close(f, solve(f));
    std::printf("rows %zu\n", f.rows.size());
    for (size_t r = 0; r < f.rows.size(); r++) {
        std::printf("r%zu %s:", r, f.rows[r].c_str());
        table[r].each([](int c) { std::printf(" c%d", c); });
        std::printf("\n");
    }
    std::printf("columns %zu\n", f.names.size());
    for (size_t c = 0; c < f.names.size(); c++) std::printf("c%zu %s\n", c, f.names[c].c_str());
}
