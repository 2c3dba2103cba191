// A plain program of the definition of automata: states are sets of formulas by their numbers with a counter, and each
// choice of a set is an edge. It builds the automaton of so many responses and prints how many states and edges it has.
#include <cstdint>
#include <cstdio>
#include <cstdlib>
#include <cstring>
#include <memory>
#include <unordered_map>
#include <unordered_set>
#include <vector>

enum Kind { TRUE, FALSE, BIT, NOT_BIT, ALL, ANY, NEXT, UNTIL, RELEASE };

struct Formula {
    Kind kind;
    unsigned bit = 0;
    std::vector<Formula> parts;
};

static int compare(const Formula &a, const Formula &b) {
    if (a.kind != b.kind) return a.kind < b.kind ? -1 : 1;
    if (a.bit != b.bit) return a.bit < b.bit ? -1 : 1;
    for (size_t i = 0; i < a.parts.size() && i < b.parts.size(); i++) {
        int order = compare(a.parts[i], b.parts[i]);
        if (order) return order;
    }
    return a.parts.size() < b.parts.size() ? -1 : a.parts.size() > b.parts.size();
}

using Numbers = std::vector<uint32_t>;

struct Choice {
    uint64_t care = 0, want = 0;
    Numbers next, postponed;
    bool operator==(const Choice &o) const {
        return care == o.care && want == o.want && next == o.next && postponed == o.postponed;
    }
    size_t weight() const { return __builtin_popcountll(care) + next.size() + postponed.size(); }
};

static size_t mixed(size_t seed, uint64_t value) { return (seed ^ value) * 0x9e3779b97f4a7c15u ^ (seed >> 29); }

static size_t mixed(size_t seed, const Numbers &numbers) {
    for (uint32_t n : numbers) seed = mixed(seed, n);
    return mixed(seed, numbers.size());
}

struct Hash {
    size_t operator()(const Choice &c) const { return mixed(mixed(mixed(mixed(1, c.care), c.want), c.next), c.postponed); }
    size_t operator()(const std::pair<Numbers, size_t> &s) const { return mixed(mixed(1, s.second), s.first); }
};

using Choices = std::vector<Choice>;

static void refuse(const char *limit) {
    puts(limit);
    exit(4);
}

static bool subset(const Numbers &small, const Numbers &large) {
    for (uint32_t n : small) {
        bool found = false;
        for (uint32_t m : large) found = found || m == n;
        if (!found) return false;
    }
    return true;
}

static bool within(const Choice &c, const Choice &d) {
    return (c.care & d.care) == c.care && (d.want & c.care) == c.want && subset(c.next, d.next) && subset(c.postponed, d.postponed);
}

static Choices reduced(Choices list) {
    if (list.size() > 65536) refuse("Choices");
    std::unordered_set<Choice, Hash> seen;
    Choices once;
    for (Choice &c : list)
        if (seen.insert(c).second) once.push_back(std::move(c));
    size_t most = 0;
    for (const Choice &c : once) most = std::max(most, c.weight());
    std::vector<char> kept(once.size());
    std::vector<const Choice *> lighter;
    for (size_t weight = 0; weight <= most; weight++) {
        size_t before = lighter.size();
        for (size_t i = 0; i < once.size(); i++) {
            if (once[i].weight() != weight) continue;
            bool larger = false;
            for (size_t k = 0; k < before && !larger; k++) larger = within(*lighter[k], once[i]);
            if (!larger) {
                kept[i] = 1;
                lighter.push_back(&once[i]);
            }
        }
    }
    Choices answer;
    for (size_t i = 0; i < once.size(); i++)
        if (kept[i]) answer.push_back(once[i]);
    return answer;
}

static Numbers joined(const Numbers &left, const Numbers &right) {
    Numbers both = left;
    for (uint32_t n : right) {
        size_t place = 0;
        while (place < both.size() && both[place] < n) place++;
        if (place == both.size() || both[place] != n) both.insert(both.begin() + place, n);
    }
    return both;
}

static Choices product(const Choices &left, const Choices &right) {
    Choices list;
    for (const Choice &c : left)
        for (const Choice &d : right) {
            if ((c.want ^ d.want) & (c.care & d.care)) continue;
            list.push_back({c.care | d.care, c.want | d.want, joined(c.next, d.next), joined(c.postponed, d.postponed)});
            if (list.size() > 65536) refuse("Choices");
        }
    return reduced(std::move(list));
}

static Choices sum(Choices left, const Choices &right) {
    left.insert(left.end(), right.begin(), right.end());
    return reduced(std::move(left));
}

static std::vector<const Formula *> names;

static void name(const Formula &f) {
    size_t place = 0;
    while (place < names.size() && compare(*names[place], f) < 0) place++;
    if (place == names.size() || compare(*names[place], f)) names.insert(names.begin() + place, &f);
}

static void name_obligations(const Formula &f) {
    if (f.kind == UNTIL || f.kind == RELEASE) name(f);
    if (f.kind == NEXT) name(f.parts[0]);
    for (const Formula &part : f.parts) name_obligations(part);
}

static uint32_t number(const Formula &f) {
    uint32_t place = 0;
    while (place < names.size() && compare(*names[place], f)) place++;
    return place;
}

static Choices expanded(const Formula &f) {
    Choice own;
    switch (f.kind) {
    case TRUE:
        return {own};
    case FALSE:
        return {};
    case BIT:
    case NOT_BIT:
        own.care = 1ull << f.bit;
        own.want = f.kind == BIT ? own.care : 0;
        return {own};
    case ALL: {
        Choices list{own};
        for (const Formula &part : f.parts) list = product(list, expanded(part));
        return list;
    }
    case ANY: {
        Choices list;
        for (const Formula &part : f.parts) list = sum(std::move(list), expanded(part));
        return list;
    }
    case NEXT:
        own.next = {number(f.parts[0])};
        return {own};
    case UNTIL: {
        own.next = own.postponed = {number(f)};
        Choices now = expanded(f.parts[1]);
        return sum(std::move(now), product(expanded(f.parts[0]), {own}));
    }
    default: {
        own.next = {number(f)};
        Choices held = expanded(f.parts[1]);
        return product(held, sum(expanded(f.parts[0]), {own}));
    }
    }
}

static void find_untils(const Formula &f, std::vector<uint32_t> &untils) {
    if (f.kind == UNTIL) {
        uint32_t n = number(f);
        bool found = false;
        for (uint32_t u : untils) found = found || u == n;
        if (!found) untils.push_back(n);
    }
    for (const Formula &part : f.parts) find_untils(part, untils);
}

struct Edge {
    uint32_t from;
    uint64_t care, want;
    uint32_t to;
    bool rejecting;
    bool operator==(const Edge &o) const {
        return from == o.from && care == o.care && want == o.want && to == o.to && rejecting == o.rejecting;
    }
};

struct EdgeHash {
    size_t operator()(const Edge &e) const { return mixed(mixed(mixed(mixed(mixed(1, e.from), e.care), e.want), e.to), e.rejecting); }
};

static void build(const Formula &formula) {
    name(formula);
    name_obligations(formula);
    std::vector<uint32_t> untils;
    find_untils(formula, untils);
    std::vector<std::unique_ptr<Choices>> expansions(names.size());
    std::vector<std::pair<Numbers, size_t>> states{{{number(formula)}, 0}};
    std::unordered_map<std::pair<Numbers, size_t>, uint32_t, Hash> numbers{{states[0], 0}};
    std::unordered_set<Edge, EdgeHash> edges;
    for (uint32_t from = 0; from < states.size(); from++) {
        std::pair<Numbers, size_t> state = states[from];
        Choices list{Choice()};
        for (uint32_t member : state.first) {
            if (!expansions[member]) expansions[member] = std::make_unique<Choices>(expanded(*names[member]));
            list = product(list, *expansions[member]);
        }
        for (const Choice &c : list) {
            size_t counter = state.second;
            while (counter < untils.size()) {
                bool put_off = false;
                for (uint32_t u : c.postponed) put_off = put_off || u == untils[counter];
                if (put_off) break;
                counter++;
            }
            bool rejecting = counter == untils.size();
            std::pair<Numbers, size_t> after{c.next, rejecting ? 0 : counter};
            auto [place, is_new] = numbers.try_emplace(after, states.size());
            if (is_new) states.push_back(after);
            if (states.size() > 4096) refuse("States");
            edges.insert({from, c.care, c.want, place->second, rejecting});
            if (edges.size() > 200000) refuse("Edges");
        }
    }
    printf("%zu %zu\n", states.size(), edges.size());
}

static Formula response(unsigned asked, unsigned answered, bool holds) {
    Formula answer{holds ? BIT : NOT_BIT, answered, {}}, no{holds ? FALSE : TRUE, 0, {}}, yes{holds ? TRUE : FALSE, 0, {}};
    Formula later{holds ? UNTIL : RELEASE, 0, {yes, answer}}, ask{holds ? NOT_BIT : BIT, asked, {}};
    return {holds ? RELEASE : UNTIL, 0, {no, {holds ? ANY : ALL, 0, {ask, later}}}};
}

int main(int count, char **words) {
    if (count < 3) return 2;
    bool holds = strcmp(words[1], "controller");
    unsigned responses = atoi(words[2]);
    Formula formula{holds ? ALL : ANY, 0, {}};
    for (unsigned i = 0; i < responses; i++) formula.parts.push_back(response(i, responses + i, holds));
    build(formula);
    return 0;
}
