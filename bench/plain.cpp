// The method of this repository's judge, step by step but for two later short cuts (README), in plain C++ with no proofs
// and no range checks: a row of grades for each event by one walk over the window, bit rows for existence, then shortest augmenting paths with number prices.
// It reads the same parameters and prints the same line as the program judgebench, so that counts and costs can be
// compared. (bitset.cpp is a variant with one walk for all rows and bit sets in place of flags.)
#include <cstdint>
#include <cstdio>
#include <cstdlib>
#include <cstring>
#include <optional>

static uint64_t state = 1;
static uint32_t one_to(uint32_t n) {
    state = state * 6364136223846793005ull + 1442695040888963407ull;
    return (uint32_t)((state >> 33) % n) + 1;
}

struct Plain {
    int64_t value = 0;
    Plain plus(Plain o) const { return {value + o.value}; }
    Plain minus(Plain o) const { return {value - o.value}; }
    bool at_most(const Plain& o) const { return value <= o.value; }
    void add_to(int64_t* sums) const { sums[0] += value; }
};
struct Paired {
    Plain first, second;
    Paired plus(Paired o) const { return {first.plus(o.first), second.plus(o.second)}; }
    Paired minus(Paired o) const { return {first.minus(o.first), second.minus(o.second)}; }
    bool at_most(const Paired& o) const {
        return first.value < o.first.value || (first.value == o.first.value && second.value <= o.second.value);
    }
    void add_to(int64_t* sums) const { sums[0] += first.value; sums[1] += second.value; }
};

struct Mismatch {
    using Value = Plain;
    std::optional<Plain> price(int p, int c) const { return Plain{p != c}; }
};
struct Difference {
    using Value = Plain;
    int delta;
    std::optional<Plain> price(int p, int c) const {
        int gap = abs(p - c);
        if (gap > delta) return std::nullopt;
        return Plain{gap};
    }
};
struct Mixed {
    using Value = Paired;
    int delta;
    std::optional<Paired> price(int p, int c) const {
        int gap = abs(p - c);
        if (gap > delta) return std::nullopt;
        return Paired{{gap != 0}, {gap}};
    }
};

template <class P> struct Table {
    using C = typename P::Value;
    P pricing;
    int size, places;
    int trace[64], slots[64];
    int start = 0, count = 0;

    int slot(int j) const { int at = start + j; return at < places ? at : at - places; }
    void take(int event) {
        slots[slot(count)] = event;
        if (count < places) count++; else start = slot(1);
    }
    void row(int event, std::optional<C>* row) const {
        for (int c = 0; c < size; c++) row[c] = C{};
        for (int j = count - 1; j >= 0; j--) {
            if (slots[slot(j)] != event) continue;
            for (int c = 0; c < size; c++) {
                if (!row[c]) continue;
                std::optional<C> x = pricing.price(trace[j], c + 1);
                if (x) row[c] = x->plus(*row[c]); else row[c] = std::nullopt;
            }
        }
    }
};

template <class C> struct Judge {
    int size;
    std::optional<C> grades[1024];
    uint32_t rows[32];
    std::optional<int> holders[32], numbers[32], finders[32];
    bool scanned[32];
    uint32_t untried;

    template <class P> void grade(const Table<P>& table) {
        for (int r = 0; r < size; r++) {
            table.row(r + 1, grades + r * size);
            rows[r] = 0;
            for (int c = 0; c < size; c++)
                if (grades[r * size + c]) rows[r] |= 1u << c;
        }
    }
    bool seat_event(int event) {
        while (uint32_t both = rows[event] & untried) {
            int number = __builtin_ctz(both);
            untried &= ~(1u << number);
            if (move_holder(number)) { holders[number] = event; return true; }
        }
        return false;
    }
    bool move_holder(int number) { return !holders[number] || seat_event(*holders[number]); }
    bool exists() {
        for (auto& h : holders) h = std::nullopt;
        for (int r = 0; r < size; r++) {
            untried = 0xffffffffu;
            if (!seat_event(r)) return false;
        }
        return true;
    }
    void relax_row(int event, C lead, C* paths) {
        for (int c = 0; c < size; c++) {
            if (scanned[c]) continue;
            const std::optional<C>& grade = grades[event * size + c];
            if (!grade) continue;
            C path = lead.plus(*grade);
            if (!finders[c] || !paths[c].at_most(path)) { finders[c] = event; paths[c] = path; }
        }
    }
    int nearest(const C* paths, const C* prices) {
        int best = -1;
        C least{};
        for (int c = 0; c < size; c++) {
            if (scanned[c] || !finders[c]) continue;
            C key = paths[c].minus(prices[c]);
            if (best < 0 || (holders[c] ? !least.at_most(key) : key.at_most(least))) { best = c; least = key; }
        }
        return best;
    }
    void seat_next(int event, C* prices, C* paths) {
        for (int c = 0; c < 32; c++) { finders[c] = std::nullopt; scanned[c] = false; }
        relax_row(event, C{}, paths);
        int sink = nearest(paths, prices);
        while (holders[sink]) {
            int holder = *holders[sink];
            C lead = paths[sink].minus(*grades[holder * size + sink]);
            scanned[sink] = true;
            relax_row(holder, lead, paths);
            sink = nearest(paths, prices);
        }
        for (int c = 0; c < size; c++)
            if (scanned[c]) prices[c] = paths[c].minus(paths[sink]);
        for (int number = sink;;) {
            int finder = *finders[number];
            std::optional<int> own = numbers[finder];
            numbers[finder] = number;
            holders[number] = finder;
            if (finder == event) break;
            number = *own;
        }
    }
    C settle(C* event_prices, C* prices, C* paths) {
        for (int c = 0; c < 32; c++) { holders[c] = std::nullopt; numbers[c] = std::nullopt; }
        for (int c = 0; c < size; c++) prices[c] = C{};
        for (int r = 0; r < size; r++) seat_next(r, prices, paths);
        for (int r = 0; r < size; r++) event_prices[r] = grades[r * size + *numbers[r]]->minus(prices[*numbers[r]]);
        C total{};
        for (int r = size - 1; r >= 0; r--) total = grades[r * size + *numbers[r]]->plus(total);
        return total;
    }
};

template <class P> static void run(P pricing, int size, int places, long windows, typename P::Value bound) {
    using C = typename P::Value;
    static Table<P> table;
    static Judge<C> judge;
    table.pricing = pricing;
    table.size = judge.size = size;
    table.places = places;
    for (int j = 0; j < places; j++) table.trace[j] = one_to(size);
    for (int j = 0; j < places; j++) table.take(one_to(size));
    long within = 0, over = 0, none = 0;
    int64_t sums[2] = {0, 0};
    static C event_prices[32], prices[32], paths[256];
    for (long w = 0; w < windows; w++) {
        table.take(one_to(size));
        judge.grade(table);
        if (!judge.exists()) { none++; continue; }
        C total = judge.settle(event_prices, prices, paths);
        total.add_to(sums);
        if (total.at_most(bound)) within++; else over++;
    }
    printf("%ld windows: within %ld, over %ld, none %ld, costs %lld %lld\n", windows, within, over, none, (long long)sums[0], (long long)sums[1]);
}

int main(int argc, char** argv) {
    if (argc != 7) { fprintf(stderr, "plain KIND SIZE PLACES DELTA BOUND WINDOWS\n"); return 1; }
    int size = atoi(argv[2]), places = atoi(argv[3]), delta = atoi(argv[4]), bound = atoi(argv[5]);
    long windows = atol(argv[6]);
    if (!strcmp(argv[1], "mismatch")) run(Mismatch{}, size, places, windows, {bound});
    else if (!strcmp(argv[1], "difference")) run(Difference{delta}, size, places, windows, {bound});
    else run(Mixed{delta}, size, places, windows, {{bound}, {0}});
}
