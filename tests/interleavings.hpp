// What goes through all interleavings of the workers of a model: the states that were met, and which of them are wrong.
//
// A state is wrong where no worker can go on and not all is over, or where all that can go on are inside gates, where they may stay, and a
// worker sleeps in vain. A run that goes on for ever shows as a state that leads back to itself. States are plain bytes, told apart by a hash of 63 bits.

#pragma once

#include <cstdint>
#include <cstdio>
#include <cstring>
#include <string>
#include <vector>

namespace interleavings {

// The states that were met, by their hashes, and which of them lie on the way to where the search is.
class Met {
public:
    Met() : places_(1 << 12) {}

    size_t count() const { return count_; }

    // Whether the state is new. It then lies on the way.
    bool add(uint64_t hash) {
        if (count_ * 2 > places_.size()) grow();
        uint64_t& place = find(hash);
        if (place != 0) return false;
        place = hash | ON_THE_WAY;
        count_++;
        return true;
    }

    bool is_on_the_way(uint64_t hash) { return find(hash) & ON_THE_WAY; }
    void leave(uint64_t hash) { find(hash) &= ~ON_THE_WAY; }

private:
    static constexpr uint64_t ON_THE_WAY = 1;

    uint64_t& find(uint64_t hash) {
        size_t at = size_t(hash >> 1) & (places_.size() - 1);
        while (places_[at] != 0 && (places_[at] | ON_THE_WAY) != (hash | ON_THE_WAY)) at = (at + 1) & (places_.size() - 1);
        return places_[at];
    }

    void grow() {
        std::vector<uint64_t> old(places_.size() * 2);
        old.swap(places_);
        for (uint64_t place : old)
            if (place != 0) find(place) = place;
    }

    std::vector<uint64_t> places_;
    size_t count_ = 0;
};

// A hash that is even, and not 0.
template <typename State>
uint64_t hash_of(const State& state) {
    unsigned char bytes[sizeof(State)];
    std::memcpy(bytes, &state, sizeof bytes);
    uint64_t one = 0x9e3779b97f4a7c15, other = 0xc2b2ae3d27d4eb4f;
    for (unsigned char byte : bytes) {
        one = (one ^ byte) * 0x100000001b3;
        other = (other + byte) * 0x9ddfea08eb382d69;
        other ^= other >> 29;
    }
    one ^= one >> 32;
    one = (one * 0xd6e8feb86659fd93) ^ other;
    one = (one ^ (one >> 31)) & ~uint64_t(1);
    return one != 0 ? one : 2;
}

enum Fault { NONE, STUCK, SLEEPS_IN_VAIN, RUNS_FOR_EVER };

inline const char* const FAULTS[] = {"no fault", "nobody goes on", "a worker sleeps in vain", "a run has no end"};

struct Found {
    Fault fault = NONE;
    size_t states = 0;
};

// Goes through all states that the workers of a model reach, until one is wrong. The model has a first state, a number of moves, each a
// step of one of its workers that is to be tried, and says when all is over.
template <typename Model>
Found search(const Model& model) {
    using State = typename Model::State;
    struct Way {
        State state;
        uint64_t hash;
        int next;       // the move that is to be tried
        bool goes_on;   // whether a worker can go on
        bool in_gates;  // whether all that can are inside gates
    };
    Met met;
    std::vector<Way> way;
    auto enter = [&](const State& state, uint64_t hash) { way.push_back({state, hash, 0, false, true}); };
    State first = model.first();
    met.add(hash_of(first));
    enter(first, hash_of(first));
    while (!way.empty()) {
        Way& here = way.back();
        if (here.next == model.moves()) {
            if (!here.goes_on && !model.is_over(here.state)) return {STUCK, met.count()};
            if (here.goes_on && here.in_gates && model.sleeps_in_vain(here.state)) return {SLEEPS_IN_VAIN, met.count()};
            met.leave(here.hash);
            way.pop_back();
            continue;
        }
        int move = here.next++;
        State state = here.state;
        if (!model.step(state, move)) continue;
        here.goes_on = true;
        if (!model.is_in_gate(here.state, move)) here.in_gates = false;
        uint64_t hash = hash_of(state);
        if (met.add(hash)) enter(state, hash);
        else if (met.is_on_the_way(hash)) return {RUNS_FOR_EVER, met.count()};
    }
    return {NONE, met.count()};
}

inline int passed = 0, failed = 0;

inline void count(bool good, const std::string& name, const Found& found) {
    if (good) {
        passed++;
        return;
    }
    failed++;
    std::printf("FAILED %s: %s after %zu states\n", name.c_str(), FAULTS[found.fault], found.states);
}

// The last line, and the exit status.
inline int end() {
    std::printf("%d passed, %d failed\n", passed, failed);
    return failed == 0 ? 0 : 1;
}

}  // namespace interleavings
