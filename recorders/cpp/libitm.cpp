// Runs GCC's own transactional memory, libitm, which a program cannot change, and writes down what it did in style optimistic.
// Compile it with -fgnu-tm.
//
//     libitm --schedule overlap --bug no-transactions --output run.jsonl   two transactions that overlap
//     libitm --seed 7 --threads 4 --transactions 25 --output run.jsonl     threads that choose by the seed
//
// Standard error has the number of commits that were counted beside the recorder, and what the cells hold at the end.
//
// Each atomic block raises a counter that the memory guards like any other cell. So the memory itself puts the blocks in one order, and all
// lines of a block take its number. Notes are taken in functions that the memory does not see (transaction_pure). It does not roll them
// back, so each attempt begins by dropping the notes of the one before it.
#include "program.hpp"

#include <atomic>
#include <chrono>
#include <condition_variable>
#include <cstdio>
#include <cstdlib>
#include <mutex>

namespace {

using Value = long;

enum class Bug {
    none,
    no_transactions,  // the atomic blocks are taken out
    two_blocks,       // a transaction reads in one block and writes in another
    early_read,       // a transaction reads before its block
};

const std::map<std::string, Bug> bugs = {
    {"none", Bug::none},
    {"no-transactions", Bug::no_transactions},
    {"two-blocks", Bug::two_blocks},
    {"early-read", Bug::early_read},
};

constexpr std::uint32_t cell_count = 6;

// The memory guards these, and nothing else does.
Value cells[cell_count];
Value next_number = 1;

std::atomic<unsigned> committed{0};

enum class Moment { between_reads, reads_done, between_writes };

struct Notes {
    pozhiqas::Thread& lines;
    const std::vector<pozhiqas::Memory>& recorded;  // one for each cell, which is at its address 0
    std::function<void(Moment)> pause;
};

[[gnu::transaction_pure, gnu::noinline]] void drop_attempt(Notes* notes) {
    notes->lines.drop_attempt();
}

[[gnu::transaction_pure, gnu::noinline]] void note_read(Notes* notes, std::uint32_t cell, Value value) {
    notes->lines.call(notes->recorded[cell].read(0, value));
}

[[gnu::transaction_pure, gnu::noinline]] void note_write(Notes* notes, std::uint32_t cell, Value value) {
    notes->lines.call(notes->recorded[cell].write(0, value));
}

[[gnu::transaction_pure, gnu::noinline]] void pause(Notes* notes, Moment moment) {
    notes->pause(moment);
}

// A transaction reads two cells, and then writes both or none.
struct Plan {
    std::uint32_t first;
    std::uint32_t second;
    bool writes;
    Value value;  // this and the next one are written nowhere else
};

struct Seen {
    Value first;
    Value second;
};

[[gnu::transaction_safe]] Seen read_cells(Notes* notes, const Plan& plan) {
    Seen seen;
    seen.first = cells[plan.first];
    pause(notes, Moment::between_reads);
    seen.second = cells[plan.second];
    return seen;
}

// Notes what was read, then writes, and returns the number of the transaction.
[[gnu::transaction_safe]] Value write_cells(Notes* notes, const Plan& plan, const Seen& seen) {
    drop_attempt(notes);
    note_read(notes, plan.first, seen.first);
    note_read(notes, plan.second, seen.second);
    if (plan.writes) {
        cells[plan.first] = plan.value;
        note_write(notes, plan.first, plan.value);
        pause(notes, Moment::between_writes);
        cells[plan.second] = plan.value + 1;
        note_write(notes, plan.second, plan.value + 1);
    }
    const Value number = next_number;  // the last accesses of the block
    next_number = number + 1;
    return number;
}

Value run_blocks(Notes* notes, const Plan& plan, Bug bug) {
    Seen seen{};
    Value number = 0;
    switch (bug) {
        case Bug::none:
            __transaction_atomic {
                seen = read_cells(notes, plan);
                pause(notes, Moment::reads_done);
                number = write_cells(notes, plan, seen);
            }
            break;
        case Bug::no_transactions:
            seen = read_cells(notes, plan);
            pause(notes, Moment::reads_done);
            number = write_cells(notes, plan, seen);
            break;
        case Bug::two_blocks:
            __transaction_atomic { seen = read_cells(notes, plan); }
            pause(notes, Moment::reads_done);
            __transaction_atomic { number = write_cells(notes, plan, seen); }
            break;
        case Bug::early_read:
            seen = read_cells(notes, plan);
            pause(notes, Moment::reads_done);
            __transaction_atomic { number = write_cells(notes, plan, seen); }
            break;
    }
    return number;
}

pozhiqas::Place place_of(Value number) {
    return {static_cast<std::uint64_t>(number), 0};
}

void run_transaction(Notes& notes, const Plan& plan, Bug bug) {
    notes.lines.begin();
    notes.lines.commit(place_of(run_blocks(&notes, plan, bug)));
    ++committed;
}

// libitm runs blocks one at a time until a second thread has run one.
void warm_up() {
    static Value unused = 0;
    __transaction_atomic { unused = unused + 1; }
}

// Something that a thread waits for, though not for ever: a right memory may keep it from happening while this thread is in its block.
class Event {
public:
    void happen() {
        const std::lock_guard<std::mutex> guard(mutex_);
        has_happened_ = true;
        changed_.notify_all();
    }
    void wait_a_while() {
        std::unique_lock<std::mutex> lock(mutex_);
        changed_.wait_for(lock, std::chrono::milliseconds(200), [this] { return has_happened_; });
    }

private:
    std::mutex mutex_;
    std::condition_variable changed_;
    bool has_happened_ = false;
};

// Both read both cells before either writes, and the first ends before the second writes.
void run_overlap(Bug bug, pozhiqas::Thread* const lines[2], const std::vector<pozhiqas::Memory>& recorded) {
    Event second_has_read;
    Event first_has_ended;
    program::Barrier both_warm(2);
    program::run_threads(2, [&](unsigned index) {
        const auto pause = [&](Moment moment) {
            if (moment != Moment::reads_done) return;
            if (index == 0) {
                second_has_read.wait_a_while();
            } else {
                second_has_read.happen();
                first_has_ended.wait_a_while();
            }
        };
        Notes notes{*lines[index], recorded, pause};
        warm_up();
        both_warm.wait();
        run_transaction(notes, {0, 1, true, 1 + 2 * Value{index}}, bug);
        if (index == 0) first_has_ended.happen();
    });
}

void run_random(const program::Options& options, Bug bug, const std::vector<pozhiqas::Thread*>& lines,
                const std::vector<pozhiqas::Memory>& recorded) {
    program::Barrier all_warm(options.threads);
    program::run_threads(options.threads, [&](unsigned index) {
        program::Choices choices(options.seed, index);
        Notes notes{*lines[index], recorded, [&](Moment) { program::maybe_yield(choices); }};
        warm_up();
        all_warm.wait();
        for (unsigned count = 0; count < options.transactions; ++count) {
            const std::uint32_t first = choices.below(cell_count);
            const std::uint32_t second = (first + 1 + choices.below(cell_count - 1)) % cell_count;
            run_transaction(notes, {first, second, choices.below(3) > 0, 1 + 2 * (Value{count} * options.threads + index)}, bug);
        }
    });
}

// A lost effect that no call sees is in no record, so the last transactions read all.
void read_all(Notes notes, Bug bug) {
    for (std::uint32_t cell = 0; cell + 1 < notes.recorded.size(); cell += 2) run_transaction(notes, {cell, cell + 1, false, 0}, bug);
}

// As the report of an accepted run has it: a cell that holds 0 is left out.
void print_end(std::size_t count) {
    std::fprintf(stderr, "committed %u\n", committed.load());
    for (std::size_t cell = 0; cell < count; ++cell) {
        if (cells[cell] != 0) std::fprintf(stderr, "state a%zu 0=%ld\n", cell, cells[cell]);
        else std::fprintf(stderr, "state a%zu\n", cell);
    }
}

void run(const program::Options& options) {
    const Bug bug = program::chosen(bugs, "--bug", options.bug);
    const bool is_random = program::chosen<bool>({{"random", true}, {"overlap", false}}, "--schedule", options.schedule);
    pozhiqas::Recorder recorder(options.output, pozhiqas::Style::optimistic);
    std::vector<pozhiqas::Memory> recorded;
    for (unsigned cell = 0; cell < (is_random ? cell_count : 2); ++cell) recorded.push_back(recorder.add_memory("a" + std::to_string(cell)));
    std::vector<pozhiqas::Thread*> lines;
    for (unsigned index = 0; index < (is_random ? options.threads : 2); ++index) lines.push_back(&recorder.add_thread());
    if (is_random) {
        run_random(options, bug, lines, recorded);
        read_all({recorder.add_thread(), recorded, [](Moment) {}}, bug);
    } else {
        run_overlap(bug, lines.data(), recorded);
    }
    print_end(recorded.size());
    recorder.close();
}

}  // namespace

int main(int count, char** arguments) {
    return program::guarded(count, arguments, run);
}
