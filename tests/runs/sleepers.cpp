// Goes through all interleavings of the workers of a run: who takes a message, who looks for one, who sleeps, who keeps the deadline of
// the next issue, and who is woken.
//
//     sleepers [all]
//
// A step is what a worker does under the lock, or one look at the offer, in the order of the workers of crates/waff_run. What is behind
// the lock is seen by nobody else before it is let go, so one step has it all. A condition variable wakes any of those that sleep on it.
// The clock goes on at any time, up to the last issue that is known. A message excludes those of a
// graph, which stands for any tree, waits for its release, and is issued when those have ended that it awaits, each for some ticks: one as a
// client's, several by a list. Left out is what only delays, and what messages do.
//
// A worker that performs a message is inside its gate, and may stay there. A worker sleeps in vain where a message may begin and nobody
// that is awake and outside a gate takes it. tests/interleavings.hpp says which states are wrong.
//
// The protocol has to have no wrong state in any of the loads, and each wrong protocol has to have one. Prints a line for each search, and
// last 'N passed, M failed'.

#include <algorithm>
#include <cstdint>
#include <cstdio>
#include <cstring>
#include <string>
#include <utility>
#include <vector>

#include "../interleavings.hpp"

namespace {

using namespace interleavings;

// What workers do, and what they leave out or exchange where the protocol is a wrong one.
struct Protocol {
    bool wakes_one_for_a_ready_message = true;
    bool wakes_one_for_the_next_issue = true;
    bool wakes_all_at_the_end = true;
    bool wakes_though_an_offer_is_made = true;
    bool counts_who_sleeps = true;
    bool leaves_its_deadline = true;
    bool keeps_a_deadline_asleep = true;
    bool keeps_an_earlier_deadline_than_another = true;
    bool sleeps_under_the_lock = true;
    bool looks_again_when_it_has_the_lock = true;
    bool tells_all_that_await = true;
};

constexpr int MOST_WORKERS = 4;
constexpr int MOST_MESSAGES = 5;
constexpr uint8_t NEVER = 255;

// A message that is awaited, from 1, and for how many ticks after its end.
struct Piece {
    uint8_t message;
    uint8_t gap;
};

// A message: which others it excludes, a bit for each, when it is released, and which it awaits.
struct Message {
    uint8_t excludes = 0;
    uint8_t release = 0;
    std::vector<Piece> awaits = {};
};

using Load = std::vector<Message>;

enum At : uint8_t {
    TAKE,           // before the lock, with the message that it has performed
    LOOK,           // outside the lock: looks at the offer, for as long as it likes
    LOOK_UNTIL,     // the same, until an issue
    TAKE_AGAIN,     // before the lock, behind a look or a sleep
    FALL_ASLEEP,    // a wrong protocol alone: has let the lock go, and does not sleep yet
    SLEEP,
    WOKEN,          // a wake has come, and it wants the lock
    PERFORM,
    ENDED
};

struct Worker {
    uint8_t at;
    uint8_t message;   // the one that it performs or has performed, from 1, else 0
    uint8_t looked;    // how many messages had ended when it looked in vain, and one more; 0 where it has not
    uint8_t due;       // the issue that it waits for, else NEVER
    uint8_t keeps;     // whether it keeps the deadline of that issue
};

struct State {
    uint8_t now;
    uint8_t joined, begun, ended;      // a bit for each message
    uint8_t needs[MOST_MESSAGES];      // those before which it does not begin
    uint8_t told[MOST_MESSAGES];       // those that it awaits and that have ended, a bit for each
    uint8_t due[MOST_MESSAGES];        // when it is issued by those and its release
    uint8_t keeper;
    uint8_t asleep;
    uint8_t offer;
    Worker workers[MOST_WORKERS];
};

uint8_t bit(int n) { return uint8_t(1u << n); }

class Run {
public:
    using State = ::State;

    // `early` is for how many ticks before an issue a worker looks at the clock in place of sleeping.
    Run(Load load, int workers, int early, Protocol protocol)
        : load_(std::move(load)), workers_(workers), early_(early), protocol_(protocol) {}

    State first() const {
        State state;
        std::memset(&state, 0, sizeof state);
        state.keeper = NEVER;
        for (int m = 0; m < messages(); m++) state.due[m] = load_[size_t(m)].release;
        return state;
    }

    // Each worker's step, by which of the sleepers it wakes where it wakes one; and the clock.
    int moves() const { return workers_ * workers_ + 1; }

    bool step(State& state, int move) const;

    bool is_in_gate(const State& state, int move) const {
        return move == workers_ * workers_ || state.workers[move / workers_].at == PERFORM;
    }

    bool is_over(const State& state) const {
        for (int n = 0; n < workers_; n++)
            if (state.workers[n].at != ENDED) return false;
        return state.ended == all();
    }

    bool sleeps_in_vain(const State& state) const {
        for (int n = 0; n < workers_; n++)
            if (state.workers[n].at == SLEEP && can_begin(state)) return true;
        return false;
    }

private:
    int messages() const { return int(load_.size()); }
    uint8_t all() const { return uint8_t(bit(messages()) - 1); }

    // When a message is issued, NEVER where that is not known.
    uint8_t issue(const State& state, int m) const {
        return size_t(__builtin_popcount(state.told[m])) == load_[size_t(m)].awaits.size() ? state.due[m] : NEVER;
    }

    // Whether the clock goes on: up to the last release, and to each issue that is known.
    bool has_time(const State& state) const {
        int last = 0;
        for (const Message& message : load_) last = std::max(last, int(message.release));
        uint8_t due = next(state);
        return state.now < last || (due != NEVER && state.now < due);
    }

    // Whether a message that is issued by now, joined or not, waits for none before it.
    bool can_begin(const State& state) const {
        for (int m = 0; m < messages(); m++) {
            if (state.begun & bit(m)) continue;
            if (state.joined & bit(m)) {
                if ((state.needs[m] & ~state.ended) == 0) return true;
            } else if (issue(state, m) <= state.now) {
                uint8_t before = uint8_t(load_[size_t(m)].excludes & state.joined & ~state.ended);
                for (int other = 0; other < messages(); other++) {
                    bool is_earlier = issue(state, other) < issue(state, m) || (issue(state, other) == issue(state, m) && other < m);
                    if (!(state.joined & bit(other)) && is_earlier) before |= load_[size_t(m)].excludes & bit(other);
                }
                if (before == 0) return true;
            }
        }
        return false;
    }

    // The first of the messages that have joined and may begin, or -1: the one issued first.
    int ready(const State& state) const {
        int first = -1;
        for (int m = 0; m < messages(); m++) {
            bool may = (state.joined & bit(m)) && !(state.begun & bit(m)) && (state.needs[m] & ~state.ended) == 0;
            if (may && (first < 0 || issue(state, m) < issue(state, first))) first = m;
        }
        return first;
    }

    // The least issue that is known of those that have not joined.
    uint8_t next(const State& state) const {
        uint8_t least = NEVER;
        for (int m = 0; m < messages(); m++)
            if (!(state.joined & bit(m))) least = std::min(least, issue(state, m));
        return least;
    }

    // All that are issued by now join, in the order of their issues.
    void arrive(State& state) const {
        while (next(state) <= state.now) {
            uint8_t least = next(state);
            for (int m = 0; m < messages(); m++) {
                if ((state.joined & bit(m)) || issue(state, m) != least) continue;
                state.needs[m] = uint8_t(load_[size_t(m)].excludes & state.joined & ~state.ended);
                state.joined |= bit(m);
                break;
            }
        }
    }

    void end(State& state, int m) const {
        state.ended |= bit(m);
        for (int later = m + 1; later < messages(); later++) {
            for (const Piece& piece : load_[size_t(later)].awaits) {
                if (piece.message != m + 1) continue;
                state.told[later] |= bit(m);
                state.due[later] = uint8_t(std::max(int(state.due[later]), state.now + piece.gap));
                if (!protocol_.tells_all_that_await) return;
            }
        }
    }

    void wake_all(State& state) const {
        for (int n = 0; n < workers_; n++)
            if (state.workers[n].at == SLEEP) state.workers[n].at = WOKEN;
    }

    // Wakes the sleeper of this choice, where there are so many. False where there are fewer, and the choice is not the first.
    bool wake_one(State& state, int choice) const {
        int seen = 0;
        for (int n = 0; n < workers_; n++) {
            if (state.workers[n].at != SLEEP) continue;
            if (seen++ == choice) {
                state.workers[n].at = WOKEN;
                return true;
            }
        }
        return choice == 0;
    }

    // What who begins a message does for the others. False where there is no such choice.
    bool wake(State& state, int choice) const {
        bool is_over = state.begun == all();
        bool is_ready = protocol_.wakes_one_for_a_ready_message && ready(state) >= 0;
        bool is_due = protocol_.wakes_one_for_the_next_issue && next(state) < state.keeper;
        if (!is_over && !is_ready && !is_due) return choice == 0;
        bool was_offered = state.offer;
        state.offer = 1;
        if (is_over) {
            if (protocol_.wakes_all_at_the_end) wake_all(state);
            return choice == 0;
        }
        if (state.asleep == 0 || (was_offered && !protocol_.wakes_though_an_offer_is_made)) return choice == 0;
        return wake_one(state, choice);
    }

    // Keeps the deadline of the next issue no more.
    void leave(State& state, Worker& worker) const {
        if (worker.keeps && state.keeper == worker.due && protocol_.leaves_its_deadline) state.keeper = NEVER;
        worker.keeps = 0;
        worker.due = NEVER;
    }

    void sleep(State& state, Worker& worker) const {
        if (protocol_.counts_who_sleeps) state.asleep++;
        uint8_t due = next(state);
        bool keeps = protocol_.keeps_an_earlier_deadline_than_another ? due < state.keeper : state.keeper == NEVER && due != NEVER;
        if (keeps && protocol_.keeps_a_deadline_asleep) {
            state.keeper = due;
            worker.due = due;
            worker.keeps = 1;
        }
        worker.at = protocol_.sleeps_under_the_lock ? SLEEP : FALL_ASLEEP;
    }

    // What a worker does from where it has the lock to where it lets it go. False where there is no such choice.
    bool look_for_work(State& state, Worker& worker, int choice) const {
        if (state.begun == all()) {
            state.offer = 1;
            if (protocol_.wakes_all_at_the_end) wake_all(state);
            worker = Worker{};
            worker.at = ENDED;
            return choice == 0;
        }
        arrive(state);
        int m = ready(state);
        if (m >= 0) {
            state.begun |= bit(m);
            worker = Worker{};
            worker.at = PERFORM;
            worker.message = uint8_t(m + 1);
            return wake(state, choice);
        }
        uint8_t due = next(state);
        uint8_t looked = uint8_t(1 + __builtin_popcount(state.ended));
        if (due < state.keeper && due <= state.now + early_) {
            state.keeper = worker.due = due;
            worker.keeps = 1;
            worker.at = LOOK_UNTIL;
        } else if (worker.looked == looked) {
            sleep(state, worker);
        } else {
            worker.looked = looked;
            worker.at = LOOK;
        }
        return choice == 0;
    }

    Load load_;
    int workers_;
    int early_;
    Protocol protocol_;
};

bool Run::step(State& state, int move) const {
    if (move == workers_ * workers_) {
        if (!has_time(state)) return false;
        state.now++;
        return true;
    }
    int me = move / workers_;
    int choice = move % workers_;
    Worker& worker = state.workers[me];
    switch (worker.at) {
    case TAKE:
        if (worker.message != 0) end(state, worker.message - 1);
        worker.message = worker.looked = 0;
        worker.due = NEVER;
        return look_for_work(state, worker, choice);
    case LOOK:
        state.offer = 0;
        worker.at = TAKE_AGAIN;
        return choice == 0;
    case LOOK_UNTIL:
        if (!state.offer && state.now < worker.due) return false;
        state.offer = 0;
        worker.at = TAKE_AGAIN;
        return choice == 0;
    case TAKE_AGAIN:
        leave(state, worker);
        return look_for_work(state, worker, choice);
    case FALL_ASLEEP:
        worker.at = SLEEP;
        return choice == 0;
    case SLEEP:
        // Its time has come; else it sleeps until it is woken.
        if (!worker.keeps || state.now + early_ < worker.due) return false;
        worker.at = WOKEN;
        return choice == 0;
    case WOKEN:
        if (protocol_.counts_who_sleeps) state.asleep--;
        leave(state, worker);
        if (!protocol_.looks_again_when_it_has_the_lock && state.begun != all()) {
            sleep(state, worker);
            return choice == 0;
        }
        return look_for_work(state, worker, choice);
    case PERFORM:
        worker.at = TAKE;
        return choice == 0;
    default:
        return false;
    }
}

// All loads of so many messages: each pair excludes each other or not, and the later ones are released one tick after the others or not.
std::vector<Load> loads_of(int messages) {
    std::vector<Load> loads;
    int pairs = messages * (messages - 1) / 2;
    for (int choice = 0; choice < 1 << pairs; choice++) {
        for (int released = 0; released < 1 << (messages - 1); released++) {
            Load load(static_cast<size_t>(messages));
            int pair = 0;
            for (int later = 1; later < messages; later++) {
                load[size_t(later)].release = uint8_t(released >> (later - 1) & 1);
                for (int before = 0; before < later; before++, pair++) {
                    if (!(choice >> pair & 1)) continue;
                    load[size_t(later)].excludes |= bit(before);
                    load[size_t(before)].excludes |= bit(later);
                }
            }
            loads.push_back(load);
        }
    }
    return loads;
}

// All loads of so many messages of which each two exclude each other or not, and the later one awaits the other at once, after a tick, or
// does not. All are released at once.
std::vector<Load> lists_of(int messages) {
    std::vector<Load> loads;
    int pairs = messages * (messages - 1) / 2;
    for (int choice = 0; choice < 1 << 2 * pairs; choice++) {
        Load load(static_cast<size_t>(messages));
        int pair = 0;
        for (int later = 1; later < messages; later++) {
            for (int before = 0; before < later; before++, pair++) {
                int kind = choice >> 2 * pair & 3;
                if (kind == 1) {
                    load[size_t(later)].excludes |= bit(before);
                    load[size_t(before)].excludes |= bit(later);
                } else if (kind > 1) {
                    load[size_t(later)].awaits.push_back({uint8_t(before + 1), uint8_t(kind - 2)});
                }
            }
        }
        loads.push_back(load);
    }
    return loads;
}

// A client that thinks, beside messages that are released later, and one that excludes both.
const Load CLIENT = {{bit(3), 0, {}}, {0, 0, {{1, 2}}}, {0, 2, {}}, {bit(0), 1, {}}};
// Messages that one after another release all others: a barrier, and who waits behind it.
const Load BARRIER = {{uint8_t(bit(1) | bit(2) | bit(3)), 0, {}}, {bit(0), 0, {}}, {bit(0), 0, {}}, {bit(0), 1, {}}};
// Two deadlines, the earlier of which becomes known while the later one is kept.
const Load EARLIER = {{0, 0, {}}, {0, 3, {}}, {0, 0, {{1, 1}}}, {0, 3, {}}};
const Load LONG = {{0, 0, {}}, {0, 0, {{1, 1}}}, {0, 0, {{2, 1}}}, {0, 1, {}}, {bit(3), 2, {}}};
// Several that await one, at once and later, and one that awaits them and somebody who is late.
const Load FAN = {{0, 0, {}}, {0, 0, {{1, 0}}}, {0, 0, {{1, 0}}}, {0, 2, {}}, {0, 0, {{2, 1}, {3, 0}, {4, 1}}}};

// The protocol has no wrong state under these loads.
void is_right(const std::string& name, const std::vector<Load>& loads, int workers, int early) {
    Found worst;
    size_t states = 0;
    for (const Load& load : loads) {
        Found found = search(Run(load, workers, early, Protocol{}));
        states += found.states;
        if (found.fault != NONE) worst = found;
    }
    std::printf("%s, %d workers, %d early: %zu loads, %zu states\n", name.c_str(), workers, early, loads.size(), states);
    std::fflush(stdout);
    count(worst.fault == NONE, name, worst);
}

// The wrong protocol has a wrong state under one of these loads.
void is_wrong(const std::string& name, const std::vector<Load>& loads, int workers, const Protocol& protocol) {
    Found found;
    for (const Load& load : loads) {
        for (int early : {0, 1}) {
            found = search(Run(load, workers, early, protocol));
            if (found.fault != NONE) break;
        }
        if (found.fault != NONE) break;
    }
    std::printf("%s: %s\n", name.c_str(), FAULTS[found.fault]);
    count(found.fault != NONE, name, found);
}

void small() {
    for (int early : {0, 1}) {
        is_right("loads of 3 messages", loads_of(3), 2, early);
        is_right("loads of 3 messages", loads_of(3), 3, early);
        is_right("loads of 4 messages", loads_of(4), 2, early);
        for (int workers : {2, 3}) {
            is_right("a client that thinks", {CLIENT}, workers, early);
            is_right("a barrier", {BARRIER}, workers, early);
            is_right("an earlier deadline", {EARLIER}, workers, early);
        }
        is_right("a long client", {LONG}, 2, early);
        is_right("a fan", {FAN}, 2, early);
        is_right("lists of 3 messages", lists_of(3), 3, early);
        is_right("lists of 4 messages", lists_of(4), 2, early);
    }
}

void wrong() {
    std::vector<Load> few = loads_of(3);
    for (const Load& load : {CLIENT, BARRIER, EARLIER, LONG, FAN}) few.push_back(load);
    auto without = [&](const char* name, bool Protocol::*part) {
        Protocol protocol;
        protocol.*part = false;
        is_wrong(name, few, 3, protocol);
    };
    without("who begins a message wakes nobody for one that is ready", &Protocol::wakes_one_for_a_ready_message);
    without("who begins a message wakes nobody for the next issue", &Protocol::wakes_one_for_the_next_issue);
    without("nobody is woken at the end", &Protocol::wakes_all_at_the_end);
    without("where an offer is made, nobody is woken", &Protocol::wakes_though_an_offer_is_made);
    without("nobody counts who sleeps", &Protocol::counts_who_sleeps);
    without("who wakes keeps its deadline", &Protocol::leaves_its_deadline);
    without("who sleeps keeps no deadline", &Protocol::keeps_a_deadline_asleep);
    without("an earlier deadline is not kept where one is", &Protocol::keeps_an_earlier_deadline_than_another);
    without("who sleeps lets the lock go before", &Protocol::sleeps_under_the_lock);
    without("who wakes does not look", &Protocol::looks_again_when_it_has_the_lock);
    without("of those that await a message one alone is told", &Protocol::tells_all_that_await);
}

void large() {
    for (int early : {0, 1}) {
        is_right("loads of 4 messages", loads_of(4), 3, early);
        is_right("loads of 3 messages", loads_of(3), 4, early);
        is_right("a long client", {LONG}, 3, early);
        is_right("a fan", {FAN}, 3, early);
        is_right("lists of 4 messages", lists_of(4), 3, early);
        for (const Load& load : {CLIENT, BARRIER, EARLIER}) is_right("one of the others", {load}, 4, early);
    }
}

}  // namespace

int main(int count, char** words) {
    bool all = count == 2 && std::strcmp(words[1], "all") == 0;
    if (count > 1 && !all) {
        std::fprintf(stderr, "usage: sleepers [all]\n");
        return 2;
    }
    small();
    wrong();
    if (all) large();
    return end();
}
