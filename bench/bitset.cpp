// The same method as the judge of this repository, in plain C++ with no proofs and no checks: grades by one walk over
// the window, bit-row matching for existence, shortest augmenting paths with number prices. It reads the same
// parameters and prints the same line as the program judgebench, so that counts and costs can be compared.
#include <cstdint>
#include <cstdio>
#include <cstdlib>
#include <cstring>

static uint64_t state;
static volatile int64_t keep;
static uint32_t next_below(uint32_t n) {
    state = (state * 6364136223846793005ull + 1442695040888963407ull);
    return (uint32_t)((state >> 33) % n);
}

struct Plain {
    int64_t a;
    Plain plus(Plain o) const { return {a + o.a}; }
    Plain minus(Plain o) const { return {a - o.a}; }
    bool at_most(const Plain& o) const { return a <= o.a; }
    void add_to(int64_t* sums) const { sums[0] += a; }
};
struct Paired {
    int64_t a, b;
    Paired plus(Paired o) const { return {a + o.a, b + o.b}; }
    Paired minus(Paired o) const { return {a - o.a, b - o.b}; }
    bool at_most(const Paired& o) const { return a < o.a || (a == o.a && b <= o.b); }
    void add_to(int64_t* sums) const { sums[0] += a; sums[1] += b; }
};

enum Kind { MISMATCH, DIFFERENCE, MIXED };

static bool price(Kind k, int delta, int p, int c, Plain& out) {
    int gap = abs(p - c);
    if (k == MISMATCH) { out = {gap != 0}; return true; }
    out = {gap};
    return gap <= delta;
}
static bool price(Kind, int delta, int p, int c, Paired& out) {
    int gap = abs(p - c);
    out = {gap != 0, gap};
    return gap <= delta;
}

template <class C> struct Judge {
    int S;
    C cost[32][32];
    uint32_t open[32];
    int holder[32], seat[32];
    uint32_t untried;

    void grade(Kind k, int delta, const int* trace, const int* ring, int start, int M) {
        for (int r = 0; r < S; r++) {
            open[r] = S == 32 ? 0xffffffffu : (1u << S) - 1;
            memset(cost[r], 0, sizeof(C) * S);
        }
        for (int j = 0, at = start; j < M; j++, at = at + 1 == M ? 0 : at + 1) {
            int r = ring[at] - 1, p = trace[j];
            for (int c = 0; c < S; c++) {
                C x;
                if (price(k, delta, p, c + 1, x)) cost[r][c] = cost[r][c].plus(x);
                else open[r] &= ~(1u << c);
            }
        }
    }
    bool seat_event(int r) {
        while (uint32_t both = open[r] & untried) {
            int c = __builtin_ctz(both);
            untried &= ~(1u << c);
            if (holder[c] < 0 || seat_event(holder[c])) { holder[c] = r; return true; }
        }
        return false;
    }
    bool exists() {
        for (int c = 0; c < S; c++) holder[c] = -1;
        for (int r = 0; r < S; r++) {
            untried = 0xffffffffu;
            if (!seat_event(r)) return false;
        }
        return true;
    }
    C settle(C* v) {
        C path[32];
        int by[32];
        for (int c = 0; c < S; c++) { holder[c] = -1; seat[c] = -1; v[c] = C{}; }
        for (int r0 = 0; r0 < S; r0++) {
            uint32_t done = 0, known = 0;
            int i = r0, sink;
            C base{};
            for (;;) {
                for (uint32_t left = open[i] & ~done; left; left &= left - 1) {
                    int c = __builtin_ctz(left);
                    C d = base.plus(cost[i][c]);
                    if (!(known >> c & 1) || !path[c].at_most(d)) { path[c] = d; by[c] = i; known |= 1u << c; }
                }
                int best = -1;
                C key{};
                for (uint32_t left = known & ~done; left; left &= left - 1) {
                    int c = __builtin_ctz(left);
                    C k = path[c].minus(v[c]);
                    if (best < 0 || !key.at_most(k)) { best = c; key = k; }
                }
                if (holder[best] < 0) { sink = best; break; }
                done |= 1u << best;
                i = holder[best];
                base = path[best].minus(cost[i][best]);
            }
            for (uint32_t left = done; left; left &= left - 1) {
                int c = __builtin_ctz(left);
                v[c] = path[c].minus(path[sink]);
            }
            for (int j = sink;;) {
                int r = by[j], next = seat[r];
                holder[j] = r; seat[r] = j;
                if (r == r0) break;
                j = next;
            }
        }
        C total{};
        for (int r = 0; r < S; r++) total = total.plus(cost[r][seat[r]]);
        return total;
    }
};

template <class C> static void run(Kind k, int S, int M, int delta, long windows, C bound) {
    int trace[64], ring[64], start = 0;
    for (int j = 0; j < M; j++) trace[j] = 1 + next_below(S);
    for (int j = 0; j < M; j++) ring[j] = 1 + next_below(S);
    static Judge<C> judge;
    judge.S = S;
    long within = 0, over = 0, none = 0;
    int64_t sums[2] = {0, 0};
    C u[32], v[32];
    for (long w = 0; w < windows; w++) {
        ring[start] = 1 + next_below(S);
        start = start + 1 == M ? 0 : start + 1;
        judge.grade(k, delta, trace, ring, start, M);
        if (!judge.exists()) { none++; continue; }
        C total = judge.settle(v);
        for (int r = 0; r < S; r++) u[r] = judge.cost[r][judge.seat[r]].minus(v[judge.seat[r]]);
        total.add_to(sums);
        keep += u[0].a;
        if (total.at_most(bound)) within++; else over++;
    }
    printf("%ld windows: within %ld, over %ld, none %ld, costs %lld %lld\n", windows, within, over, none, (long long)sums[0], (long long)sums[1]);
}

int main(int argc, char** argv) {
    if (argc != 7) { fprintf(stderr, "baseline KIND SIZE PLACES DELTA BOUND WINDOWS\n"); return 1; }
    int S = atoi(argv[2]), M = atoi(argv[3]), delta = atoi(argv[4]), bound = atoi(argv[5]);
    long windows = atol(argv[6]);
    state = 1;
    if (!strcmp(argv[1], "mismatch")) run<Plain>(MISMATCH, S, M, delta, windows, {bound});
    else if (!strcmp(argv[1], "difference")) run<Plain>(DIFFERENCE, S, M, delta, windows, {bound});
    else run<Paired>(MIXED, S, M, delta, windows, {bound, 0});
}
