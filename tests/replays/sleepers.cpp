// Goes through all interleavings of the workers of a replay: how they wait, fall asleep and wake one another.
//
//     sleepers [all]
//
// A step is one access to memory that workers share, in the order of work.rt and sleepers.rt of crates/waff_replay, of the looks of
// crates/waff_board, and of the kit's Parker. A message needs the messages of a graph, which stands for any tree. Left out is what
// only delays: rests, and looks beyond the first. So is what messages do, which is proved.
//
// A worker at `run` is inside the gate of its message, and may stay there. It sleeps in vain where its message, or the next one, can
// run. tests/interleavings.hpp says which states are wrong.
//
// The protocol has to have no wrong state in any graph of a few messages, and each wrong protocol has to have one. Prints a line for
// each search that fails, and last 'N passed, M failed'.

#include <cstdint>
#include <cstdio>
#include <cstring>
#include <string>
#include <utility>
#include <vector>

#include "../interleavings.hpp"

namespace {

using namespace interleavings;

// What workers do, and what they leave out or exchange where the protocol is a wrong one.
struct Protocol {
    bool looks_again_before_it_sleeps_for_a_message = true;
    bool says_that_it_sleeps_before_it_looks_again = true;
    bool looks_again_before_it_sleeps_for_want_of_one = true;
    bool ends_a_message_before_it_asks_who_sleeps = true;
    bool wakes_one_for_the_next = true;
    bool wakes_all_past_the_end = true;
    bool each_worker_has_a_place = true;
};

// For each message, from 1, the messages that it needs.
using Graph = std::vector<std::vector<int>>;

constexpr int MOST_WORKERS = 4;

// The token of a Parker.
enum Token : uint8_t { EMPTY, NOTIFIED, PARKED };

// The next access of a worker.
enum At : uint8_t {
    DRAW,                                       // Board::draw
    SEE_IDLE, TAKE_IDLE,                        // Sleepers::wake_for_next
    GLANCE_DRAWS, GLANCE_NEED,                  // Board::is_next_clear
    LOOK,                                       // Board::clear
    SAY_ON, SAY_HELD, LOOK_AGAIN, UNSAY_HELD,   // Sleepers::sleep_until_done
    SAY_IDLE, UNSAY_IDLE,                       // Sleepers::sleep_until_next
    RUN,                                        // the gate, then Board::finish
    SEE_HELD, SEE_ON, TAKE_HELD,                // Sleepers::wake_after
    TAKE_ANY,                                   // Sleepers::wake_all
    PARK, TAKE_TOKEN, FALL_ASLEEP, ASLEEP,      // Parker::park
    GIVE_TOKEN, WAKE,                           // Parker::unpark
    LATE,                                       // its thread could not be started, so it waits for another's
    ENDED
};

// Why a worker glances at the next message.
enum Why : uint8_t { NO_GLANCE, TO_DRAW, TO_SLEEP, TO_WAKE };

struct Worker {
    uint8_t at;
    uint8_t then;      // where it goes on when it has parked or unparked
    uint8_t why;
    uint8_t message;   // the one that it has drawn, else 0
    uint8_t seen;      // a bit for each message that it has seen done
    uint8_t need;      // which need it looks at
    uint8_t wanted;    // the message that it waits for
    uint8_t draws;     // how many draws there were when it glanced
    uint8_t other;     // the place of the worker that it wakes
    uint8_t others;    // a bit for each place that it has still to ask
    uint8_t looks;     // how often it looked in vain
    uint8_t waited;    // whether it had to wait for its message
};

struct State {
    uint8_t draws;     // word 0
    uint8_t done;      // a bit for each message
    uint8_t idle;      // a bit for each place at which a worker sleeps for want of a message
    uint8_t held;      // a bit for each at which one sleeps that has one
    uint8_t asleep;    // a bit for each worker that the system has put to sleep
    uint8_t on[MOST_WORKERS];
    uint8_t tokens[MOST_WORKERS];
    Worker workers[MOST_WORKERS];
};

uint8_t bit(int n) { return uint8_t(1u << n); }

class Replay {
public:
    using State = ::State;

    Replay(Graph graph, int workers, int looks, Protocol protocol, bool late)
        : graph_(std::move(graph)), workers_(workers), looks_(looks), protocol_(protocol), late_(late) {}

    State first() const {
        State state;
        std::memset(&state, 0, sizeof state);
        if (late_) state.workers[workers_ - 1].at = LATE;
        return state;
    }

    int moves() const { return workers_; }

    static bool is_in_gate(const State& state, int worker) { return state.workers[worker].at == RUN; }

    // The next access of a worker. False where it has none.
    bool step(State& state, int me) const;

    // Whether all workers have ended, and all messages are done.
    bool is_over(const State& state) const {
        for (int n = 0; n < workers_; n++)
            if (state.workers[n].at != ENDED) return false;
        return state.done == bit(messages()) - 1;
    }

    // Whether a worker sleeps though the message that it waits for can run.
    bool sleeps_in_vain(const State& state) const {
        for (int n = 0; n < workers_; n++) {
            const Worker& worker = state.workers[n];
            if (worker.at != ASLEEP) continue;
            int message = worker.message != 0 ? worker.message : state.draws + 1;
            if (message <= messages() && is_clear(state, message)) return true;
        }
        return false;
    }

private:
    int messages() const { return int(graph_.size()); }
    const std::vector<int>& needs(int message) const { return graph_[size_t(message - 1)]; }
    static bool is_done(const State& state, int message) { return state.done & bit(message - 1); }

    // Where a worker sleeps.
    int place_of(int worker) const { return protocol_.each_worker_has_a_place || worker == 0 ? worker : 1; }

    bool is_clear(const State& state, int message) const {
        for (int need : needs(message))
            if (!is_done(state, need)) return false;
        return true;
    }

    // The first need, from this one on, that the worker has not seen done.
    int unseen(const Worker& worker, int from) const {
        const std::vector<int>& all = needs(worker.message);
        int need = from;
        while (need < int(all.size()) && (worker.seen & bit(all[size_t(need)] - 1))) need++;
        return need;
    }

    static void glance(Worker& worker, Why why) {
        worker.at = GLANCE_DRAWS;
        worker.why = why;
    }

    static void park(Worker& worker, At then) {
        worker.at = PARK;
        worker.then = then;
    }

    static void unpark(Worker& worker, At then) {
        worker.at = GIVE_TOKEN;
        worker.then = then;
    }

    // Looks at the needs that it has not seen done, from the first one on.
    void look(Worker& worker) const {
        worker.other = 0;
        worker.wanted = 0;
        worker.need = uint8_t(unseen(worker, 0));
        bool sees_all = worker.need == needs(worker.message).size();
        worker.at = sees_all ? uint8_t(protocol_.ends_a_message_before_it_asks_who_sleeps ? RUN : SEE_HELD) : uint8_t(LOOK);
        if (sees_all) worker.need = worker.looks = 0;
    }

    // Has looked at each need.
    void looked(Worker& worker) const {
        int first = unseen(worker, 0);
        if (first == int(needs(worker.message).size())) return look(worker);
        worker.waited = true;
        if (worker.looks < looks_) {
            worker.looks++;
            return look(worker);
        }
        worker.wanted = uint8_t(needs(worker.message)[size_t(first)]);
        worker.need = 0;
        worker.at = protocol_.says_that_it_sleeps_before_it_looks_again ? SAY_ON : LOOK_AGAIN;
    }

    // Knows whether the next message can run.
    void glanced(Worker& worker, bool clear) const {
        Why why = Why(worker.why);
        worker.why = NO_GLANCE;
        worker.need = worker.draws = 0;
        if (why == TO_WAKE) {
            if (clear) worker.at = TAKE_IDLE;
            else look(worker);
        } else if (why == TO_SLEEP) {
            if (clear) worker.at = UNSAY_IDLE;
            else park(worker, UNSAY_IDLE);
        } else if (clear) {
            worker.at = DRAW;
            worker.looks = worker.waited = 0;
        } else if (worker.looks < looks_) {
            worker.looks++;
            glance(worker, TO_DRAW);
        } else {
            worker.at = SAY_IDLE;
        }
    }

    // Asks the next of the sleepers whether it waits for the message, or goes on when it has asked all.
    void ask_next(Worker& worker) const {
        worker.other = 0;
        if (worker.others != 0) {
            worker.other = uint8_t(__builtin_ctz(worker.others));
            worker.others &= uint8_t(worker.others - 1);
            worker.at = SEE_ON;
            return;
        }
        worker.message = 0;
        if (worker.waited) glance(worker, TO_DRAW);
        else worker.at = DRAW;
    }

    // Goes on to wake the next of all workers, or ends.
    void wake_next(Worker& worker) const {
        worker.other++;
        worker.at = TAKE_ANY;
        if (worker.other == workers_) end(worker);
    }

    static void end(Worker& worker) {
        worker = Worker{};
        worker.at = ENDED;
    }

    // Goes on where it was when it parked or unparked.
    void go_on(Worker& worker) const {
        At then = At(worker.then);
        worker.then = 0;
        if (then == LOOK) look(worker);
        else if (then == SEE_ON) ask_next(worker);
        else if (then == TAKE_ANY) wake_next(worker);
        else worker.at = then;
    }

    // Takes the bit of the worker that it wakes: whether it was there.
    static bool take(uint8_t& sleepers, int other) {
        bool was = sleepers & bit(other);
        sleepers &= uint8_t(~bit(other));
        return was;
    }

    // Wakes one of those that are asleep at this place.
    void wake_one(State& state, int place) const {
        for (int n = 0; n < workers_; n++) {
            if (place_of(n) == place && (state.asleep & bit(n))) {
                state.asleep &= uint8_t(~bit(n));
                return;
            }
        }
    }

    Graph graph_;
    int workers_;
    int looks_;
    Protocol protocol_;
    bool late_;
};

bool Replay::step(State& state, int me) const {
    Worker& worker = state.workers[me];
    const int place = place_of(me);
    switch (worker.at) {
    case DRAW:
        state.draws++;
        if (state.draws <= messages()) {
            worker.message = state.draws;
            if (protocol_.wakes_one_for_the_next) worker.at = SEE_IDLE;
            else look(worker);
        } else if (protocol_.wakes_all_past_the_end) {
            worker.at = TAKE_ANY;
        } else {
            end(worker);
        }
        return true;
    case SEE_IDLE:
        if (state.idle == 0) {
            look(worker);
        } else {
            worker.other = uint8_t(__builtin_ctz(state.idle));
            glance(worker, TO_WAKE);
        }
        return true;
    case TAKE_IDLE:
        if (take(state.idle, worker.other)) unpark(worker, LOOK);
        else look(worker);
        return true;
    case GLANCE_DRAWS:
        worker.draws = state.draws;
        if (worker.draws >= messages() || needs(worker.draws + 1).empty()) glanced(worker, true);
        else worker.at = GLANCE_NEED;
        return true;
    case GLANCE_NEED: {
        const std::vector<int>& all = needs(worker.draws + 1);
        if (!is_done(state, all[worker.need])) glanced(worker, false);
        else if (++worker.need == all.size()) glanced(worker, true);
        return true;
    }
    case LOOK: {
        const std::vector<int>& all = needs(worker.message);
        if (is_done(state, all[worker.need])) worker.seen |= bit(all[worker.need] - 1);
        worker.need = uint8_t(unseen(worker, worker.need + 1));
        if (worker.need == all.size()) looked(worker);
        return true;
    }
    case SAY_ON:
        state.on[place] = worker.wanted;
        worker.at = SAY_HELD;
        return true;
    case SAY_HELD:
        state.held |= bit(place);
        if (protocol_.looks_again_before_it_sleeps_for_a_message && protocol_.says_that_it_sleeps_before_it_looks_again)
            worker.at = LOOK_AGAIN;
        else
            park(worker, UNSAY_HELD);
        return true;
    case LOOK_AGAIN:
        if (protocol_.says_that_it_sleeps_before_it_looks_again) {
            if (is_done(state, worker.wanted)) worker.at = UNSAY_HELD;
            else park(worker, UNSAY_HELD);
        } else if (is_done(state, worker.wanted)) {
            look(worker);
        } else {
            worker.at = SAY_ON;
        }
        return true;
    case UNSAY_HELD:
        state.held &= uint8_t(~bit(place));
        look(worker);
        return true;
    case SAY_IDLE:
        state.idle |= bit(place);
        if (protocol_.looks_again_before_it_sleeps_for_want_of_one) glance(worker, TO_SLEEP);
        else park(worker, UNSAY_IDLE);
        return true;
    case UNSAY_IDLE:
        state.idle &= uint8_t(~bit(place));
        glance(worker, TO_DRAW);
        return true;
    case RUN:
        state.done |= bit(worker.message - 1);
        worker.seen |= bit(worker.message - 1);
        if (protocol_.ends_a_message_before_it_asks_who_sleeps) worker.at = SEE_HELD;
        else ask_next(worker);
        return true;
    case SEE_HELD:
        worker.others = state.held;
        if (protocol_.ends_a_message_before_it_asks_who_sleeps) ask_next(worker);
        else worker.at = RUN;
        return true;
    case SEE_ON:
        if (state.on[worker.other] == worker.message) worker.at = TAKE_HELD;
        else ask_next(worker);
        return true;
    case TAKE_HELD:
        if (take(state.held, worker.other)) unpark(worker, SEE_ON);
        else ask_next(worker);
        return true;
    case TAKE_ANY:
        if (take(state.idle, worker.other)) unpark(worker, TAKE_ANY);
        else wake_next(worker);
        return true;
    case PARK:
        if (state.tokens[place] == EMPTY) state.tokens[place] = PARKED;
        worker.at = TAKE_TOKEN;
        return true;
    case TAKE_TOKEN:
        if (state.tokens[place] == NOTIFIED) {
            state.tokens[place] = EMPTY;
            go_on(worker);
        } else {
            worker.at = FALL_ASLEEP;
        }
        return true;
    case FALL_ASLEEP:
        if (state.tokens[place] == PARKED) {
            state.asleep |= bit(me);
            worker.at = ASLEEP;
        } else {
            worker.at = TAKE_TOKEN;
        }
        return true;
    case ASLEEP:
        if (state.asleep & bit(me)) return false;
        worker.at = TAKE_TOKEN;
        return true;
    case GIVE_TOKEN: {
        bool parked = state.tokens[worker.other] == PARKED;
        state.tokens[worker.other] = NOTIFIED;
        if (parked) worker.at = WAKE;
        else go_on(worker);
        return true;
    }
    case WAKE:
        wake_one(state, worker.other);
        go_on(worker);
        return true;
    case LATE:
        if (state.workers[0].at != ENDED) return false;
        worker.at = DRAW;
        return true;
    default:
        return false;
    }
}

// All graphs of so many messages, in which each needs any of those before it.
std::vector<Graph> graphs_of(int messages) {
    std::vector<Graph> graphs;
    int pairs = messages * (messages - 1) / 2;
    for (int choice = 0; choice < 1 << pairs; choice++) {
        Graph graph(static_cast<size_t>(messages));
        int pair = 0;
        for (int later = 1; later < messages; later++)
            for (int before = 0; before < later; before++, pair++)
                if (choice >> pair & 1) graph[size_t(later)].push_back(before + 1);
        graphs.push_back(graph);
    }
    return graphs;
}

// The protocol has no wrong state in these graphs.
void is_right(const std::string& name, const std::vector<Graph>& graphs, int workers, int looks, bool late = false) {
    Found worst;
    size_t states = 0;
    for (const Graph& graph : graphs) {
        Found found = search(Replay(graph, workers, looks, Protocol{}, late));
        states += found.states;
        if (found.fault != NONE) worst = found;
    }
    std::printf("%s, %d workers, %d looks%s: %zu graphs, %zu states\n", name.c_str(), workers, looks, late ? ", one late" : "",
                graphs.size(), states);
    std::fflush(stdout);
    count(worst.fault == NONE, name, worst);
}

// The wrong protocol has a wrong state in one of these graphs.
void is_wrong(const std::string& name, const std::vector<Graph>& graphs, int workers, const Protocol& protocol) {
    Found found;
    for (const Graph& graph : graphs) {
        found = search(Replay(graph, workers, 0, protocol, false));
        if (found.fault != NONE) break;
    }
    std::printf("%s: %s\n", name.c_str(), FAULTS[found.fault]);
    count(found.fault != NONE, name, found);
}

const Graph CHAIN = {{}, {1}, {2}, {3}, {4}};
const Graph DIAMOND = {{}, {1}, {1}, {2, 3}, {4}};
const Graph BARRIER = {{}, {}, {1, 2}, {3}, {3}, {3}};
const Graph TWO_TWICE = {{}, {1}, {1}, {2, 3}, {4}, {4}};

void small() {
    for (int looks : {0, 1}) {
        is_right("graphs of 3 messages", graphs_of(3), 2, looks);
        is_right("graphs of 4 messages", graphs_of(4), 2, looks);
    }
    is_right("graphs of 3 messages", graphs_of(3), 3, 0);
    is_right("graphs of 4 messages", graphs_of(4), 2, 0, true);
    is_right("graphs of 3 messages", graphs_of(3), 3, 0, true);
    is_right("two messages twice", {TWO_TWICE}, 2, 1);
}

void wrong() {
    std::vector<Graph> few = graphs_of(4);
    Protocol protocol;
    protocol.looks_again_before_it_sleeps_for_a_message = false;
    is_wrong("who sleeps for a message does not look again", few, 2, protocol);
    protocol = Protocol{};
    protocol.says_that_it_sleeps_before_it_looks_again = false;
    is_wrong("who sleeps for a message looks before it says so", few, 2, protocol);
    protocol = Protocol{};
    protocol.looks_again_before_it_sleeps_for_want_of_one = false;
    is_wrong("who sleeps for want of a message does not look again", few, 2, protocol);
    protocol = Protocol{};
    protocol.ends_a_message_before_it_asks_who_sleeps = false;
    is_wrong("who ends a message asks before who sleeps", few, 2, protocol);
    protocol = Protocol{};
    protocol.wakes_one_for_the_next = false;
    is_wrong("who draws a message wakes nobody for the next", {TWO_TWICE}, 2, protocol);
    protocol = Protocol{};
    protocol.wakes_all_past_the_end = false;
    is_wrong("who draws past the end wakes nobody", {CHAIN}, 3, protocol);
    protocol = Protocol{};
    protocol.each_worker_has_a_place = false;
    is_wrong("two workers sleep at one place", few, 3, protocol);
}

void large() {
    for (int looks : {0, 1}) is_right("graphs of 5 messages", graphs_of(5), 2, looks);
    is_right("graphs of 4 messages", graphs_of(4), 3, 0);
    is_right("graphs of 3 messages", graphs_of(3), 4, 0);
    is_right("a chain", {CHAIN}, 3, 0);
    is_right("a diamond", {DIAMOND}, 3, 0);
    is_right("a barrier", {BARRIER}, 3, 0);
    for (int looks : {0, 1}) is_right("two messages twice", {TWO_TWICE}, 3, looks);
}

}  // namespace

int main(int count, char** words) {
    bool all = count == 2 && std::strcmp(words[1], "all") == 0;
    if (count > 1 && !all) {
        std::fprintf(stderr, "usage: sleepers [all]\n");
        return 2;
    }
    small();
    wrong();
    if (all) large();
    return end();
}
