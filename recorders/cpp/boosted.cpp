// Runs the collections of boosted.hpp, with a bug or without one, and writes down what they did.
//
//     boosted --schedule check-then-add --bug no-lock-on-contains --output run.jsonl   two transactions, interleaved as the schedule says
//     boosted --seed 7 --threads 4 --transactions 25 --output run.jsonl                threads that choose by the seed
//
// Standard error has the number of commits that were counted beside the recorder, and what the collections hold at the end.
#include "boosted.hpp"
#include "program.hpp"

#include <cstdio>
#include <cstdlib>

namespace {

using boosted::Bug;
using boosted::Collections;
using boosted::Key;
using boosted::Transaction;
using boosted::Value;

const std::map<std::string, Bug> bugs = {
    {"none", Bug::none},
    {"no-lock-on-contains", Bug::no_lock_on_contains},
    {"wrong-key", Bug::wrong_key},
    {"early-release", Bug::early_release},
    {"release-before-undo", Bug::release_before_undo},
    {"undo-first-call-first", Bug::undo_first_call_first},
    {"undo-forgets-value", Bug::undo_forgets_value},
};

// Each of these is a whole transaction but for its begin. False if the attempt was undone.

bool ask(Transaction& transaction) {
    if (!transaction.contains(5)) return false;
    transaction.commit();
    return true;
}

bool look(Transaction& transaction) {
    if (!transaction.get(5)) return false;
    transaction.commit();
    return true;
}

bool put(Transaction& transaction, Value value) {
    if (!transaction.put(5, value)) return false;
    transaction.commit();
    return true;
}

// The schedules run in one thread, so nothing but their text orders the calls. A call that finds its lock taken undoes its attempt at once.
// In the correct form the code of such an attempt runs again when the other transaction has ended.

// Both ask for 5 before the first adds it.
void check_then_add(Transaction& first, Transaction& second) {
    first.begin();
    first.contains(5);
    second.begin();
    const bool is_asked = second.contains(5).has_value();
    if (first.add(5)) first.commit();
    if (is_asked) second.commit();
    else ask(second);
}

// The second asks for 5 when the first has added it, and the first aborts.
void ask_then_abort(Transaction& first, Transaction& second) {
    first.begin();
    first.add(5);
    second.begin();
    const bool is_done = ask(second);
    first.abort();
    if (!is_done) ask(second);
}

// The second replaces the value that the first has read, and the first reads it again.
void put_between_reads(Transaction& first, Transaction& second) {
    first.begin();
    first.get(5);
    second.begin();
    const bool is_done = put(second, 1);
    first.get(5);
    first.commit();
    if (!is_done) put(second, 1);
}

// The second reads the value that the first has put and not yet committed.
void read_before_commit(Transaction& first, Transaction& second) {
    first.begin();
    first.put(5, 1);
    second.begin();
    const bool is_done = look(second);
    first.commit();
    if (!is_done) look(second);
}

// The second reads while the first takes back what it has put.
void read_in_undo(Transaction& first, Transaction& second) {
    bool is_done = false;
    second.begin();
    first.begin();
    first.put(5, 1);
    first.between_release_and_undo = [&] { is_done = look(second); };
    first.abort();
    if (!is_done) look(second);
}

// The first adds 5, removes it and aborts.
void add_remove_abort(Transaction& first, Transaction& second) {
    first.begin();
    first.add(5);
    first.remove(5);
    first.abort();
    second.begin();
    ask(second);
}

// The first replaces a value and aborts.
void replace_abort(Transaction& first, Transaction& second) {
    second.begin();
    put(second, 1);
    first.begin();
    first.put(5, 2);
    first.abort();
    second.begin();
    look(second);
}

using Schedule = void (*)(Transaction& first, Transaction& second);

const std::map<std::string, Schedule> schedules = {
    {"random", nullptr},  // threads that choose
    {"check-then-add", check_then_add},
    {"ask-then-abort", ask_then_abort},
    {"put-between-reads", put_between_reads},
    {"read-before-commit", read_before_commit},
    {"read-in-undo", read_in_undo},
    {"add-remove-abort", add_remove_abort},
    {"replace-abort", replace_abort},
};

// As the report of an accepted run has it.
void print_end(const Collections& collections) {
    std::fprintf(stderr, "committed %u\nstate s", collections.committed.load());
    for (const Key key : collections.set.keys()) std::fprintf(stderr, " %lld", static_cast<long long>(key));
    std::fprintf(stderr, "\nstate m");
    for (const auto& [key, value] : collections.map.values()) {
        std::fprintf(stderr, " %lld=%lld", static_cast<long long>(key), static_cast<long long>(value));
    }
    std::fprintf(stderr, "\n");
}

void run_schedule(Schedule schedule, Collections& collections, pozhiqas::Recorder& recorder) {
    Transaction first(collections, recorder.add_thread());
    Transaction second(collections, recorder.add_thread());
    first.looks = 1;
    second.looks = 1;
    schedule(first, second);
}

// One call of the random threads, the same in each attempt of its transaction.
struct Step {
    std::uint32_t call;
    Key key;
    Value value;  // written nowhere else
};

bool make(Transaction& transaction, const Step& step) {
    switch (step.call) {
        case 0: return transaction.add(step.key).has_value();
        case 1: return transaction.remove(step.key).has_value();
        case 2: return transaction.contains(step.key).has_value();
        case 3: return transaction.get(step.key).has_value();
        case 4: return transaction.erase(step.key).has_value();
        default: return transaction.put(step.key, step.value).has_value();
    }
}

bool attempt(Transaction& transaction, const std::vector<Step>& steps, bool gives_up, program::Choices& choices) {
    for (const Step& step : steps) {
        if (!make(transaction, step)) return false;
        program::maybe_yield(choices);
    }
    if (gives_up) transaction.abort();
    else transaction.commit();
    return true;
}

void run_random(const program::Options& options, Collections& collections, pozhiqas::Recorder& recorder) {
    std::vector<pozhiqas::Thread*> lines;
    for (unsigned index = 0; index < options.threads; ++index) lines.push_back(&recorder.add_thread());
    program::run_threads(options.threads, [&](unsigned index) {
        program::Choices choices(options.seed, index);
        Transaction transaction(collections, *lines[index]);
        transaction.between_release_and_undo = [&] { program::maybe_yield(choices); };
        for (unsigned count = 0; count < options.transactions; ++count) {
            std::vector<Step> steps(2 + choices.below(3));
            for (std::size_t place = 0; place < steps.size(); ++place) {
                const Value number = Value{count} * options.threads + index;
                steps[place] = {choices.below(6), choices.below(Collections::key_count), 1 + 4 * number + static_cast<Value>(place)};
            }
            const bool gives_up = choices.below(6) == 0;
            program::Backoff backoff;
            transaction.begin();
            while (!attempt(transaction, steps, gives_up, choices)) backoff.wait();
        }
    });
    // A lost effect that no call sees is in no record, so the last transaction reads all.
    Transaction last(collections, recorder.add_thread());
    last.begin();
    for (Key key = 0; key < static_cast<Key>(Collections::key_count); ++key) {
        last.contains(key);
        last.get(key);
    }
    last.commit();
}

void run(const program::Options& options) {
    const Bug bug = program::chosen(bugs, "--bug", options.bug);
    const Schedule schedule = program::chosen(schedules, "--schedule", options.schedule);
    pozhiqas::Recorder recorder(options.output, pozhiqas::Style::boosted);
    Collections collections(recorder, bug);
    if (schedule == nullptr) run_random(options, collections, recorder);
    else run_schedule(schedule, collections, recorder);
    print_end(collections);
    recorder.close();
}

}  // namespace

int main(int count, char** arguments) {
    return program::guarded(count, arguments, run);
}
