// Runs the memory of tl2.hpp, with a bug or without one, and writes down what it did.
//
//     tl2 --schedule lost-update --bug no-check --output run.jsonl    two transactions, interleaved as the schedule says
//     tl2 --seed 7 --threads 4 --transactions 25 --output run.jsonl   threads that choose by the seed
//
// `--schedule random-extending` is the second with a memory that moves snapshots forward. Standard error has the memory's own count of its
// commits, and what it holds at the end.
#include "program.hpp"
#include "tl2.hpp"

#include <cstdio>
#include <cstdlib>

namespace {

using tl2::Address;
using tl2::Bug;
using tl2::Moment;
using tl2::Transaction;
using tl2::Value;

constexpr std::uint32_t addresses = 6;

const std::map<std::string, Bug> bugs = {
    {"none", Bug::none},
    {"no-check", Bug::no_check},
    {"checks-writes-only", Bug::checks_writes_only},
    {"no-locks", Bug::no_locks},
    {"early-unlock", Bug::early_unlock},
    {"late-clock", Bug::late_clock},
    {"no-version-check", Bug::no_version_check},
    {"no-extension-check", Bug::no_extension_check},
    {"skips-buffer", Bug::skips_buffer},
};

bool update(Transaction& transaction, Address address, Value value) {
    Value seen = 0;
    if (!transaction.read(address, seen)) return false;
    transaction.write(address, value);
    return transaction.commit();
}

bool write_both(Transaction& transaction) {
    transaction.write(1, 1);
    transaction.write(2, 2);
    return transaction.commit();
}

bool read_both(Transaction& transaction) {
    Value seen = 0;
    return transaction.read(1, seen) && transaction.read(2, seen) && transaction.commit();
}

bool read_both_write(Transaction& transaction, Address address, Value value) {
    Value seen = 0;
    if (!transaction.read(1, seen) || !transaction.read(2, seen)) return false;
    transaction.write(address, value);
    return transaction.commit();
}

// The schedules run in one thread, so nothing but their text orders the calls. Each of them ends with all transactions committed.

// Both read 0, and each writes a value of its own.
void lost_update(Transaction& first, Transaction& second) {
    Value seen = 0;
    first.begin();
    second.begin();
    first.read(1, seen);
    second.read(1, seen);
    first.write(1, 1);
    first.commit();
    second.write(1, 2);
    if (!second.commit()) update(second, 1, 2);
}

// Both read both addresses, and each writes another one.
void write_skew(Transaction& first, Transaction& second) {
    Value seen = 0;
    first.begin();
    second.begin();
    for (Transaction* transaction : {&first, &second}) {
        transaction->read(1, seen);
        transaction->read(2, seen);
    }
    first.write(1, 1);
    first.commit();
    second.write(2, 2);
    if (!second.commit()) read_both_write(second, 2, 2);
}

// The second reads both addresses while the first has written back one of them.
void read_in_write_back(Transaction& first, Transaction& second) {
    bool is_done = false;
    first.begin();
    first.pause = [&](Moment moment) {
        if (moment != Moment::half_written_back) return;
        second.begin();
        is_done = read_both(second);
    };
    write_both(first);
    if (!is_done) read_both(second);
}

// The second writes both addresses while the first is in its first read.
void commit_in_first_read(Transaction& first, Transaction& second) {
    bool is_begun = false;
    first.begin();
    first.pause = [&](Moment moment) {
        if (moment != Moment::value_loaded || is_begun) return;
        is_begun = true;
        second.begin();
        write_both(second);
    };
    if (!read_both(first)) read_both(first);
}

// The second writes both addresses between the two reads of the first.
void commit_between_reads(Transaction& first, Transaction& second) {
    Value seen = 0;
    first.begin();
    first.read(1, seen);
    second.begin();
    write_both(second);
    if (!first.read(2, seen) || !first.commit()) read_both(first);
}

// A transaction reads what it has written.
void read_own_write(Transaction& first, Transaction&) {
    first.begin();
    first.write(1, 1);
    update(first, 1, 2);
}

struct Schedule {
    void (*run)(Transaction& first, Transaction& second);  // null: threads that choose
    bool extends;
};

const std::map<std::string, Schedule> schedules = {
    {"random", {nullptr, false}},
    {"random-extending", {nullptr, true}},
    {"lost-update", {lost_update, false}},
    {"write-skew", {write_skew, false}},
    {"read-in-write-back", {read_in_write_back, false}},
    {"commit-in-first-read", {commit_in_first_read, false}},
    {"commit-between-reads", {commit_between_reads, false}},
    {"commit-between-reads-extending", {commit_between_reads, true}},
    {"read-own-write", {read_own_write, false}},
};

// As the report of an accepted run has it: cells that hold 0 are left out.
void print_end(const tl2::Memory& memory) {
    std::fprintf(stderr, "committed %u\nstate m", memory.committed.load());
    for (std::size_t address = 0; address < memory.cells.size(); ++address) {
        const long long value = memory.cells[address].value;
        if (value != 0) std::fprintf(stderr, " %zu=%lld", address, value);
    }
    std::fprintf(stderr, "\n");
}

void run_schedule(const Schedule& schedule, Bug bug, pozhiqas::Recorder& recorder) {
    tl2::Memory memory(recorder.add_memory("m"), 3, schedule.extends, bug);
    Transaction first(memory, recorder.add_thread());
    Transaction second(memory, recorder.add_thread());
    schedule.run(first, second);
    print_end(memory);
}

// What one transaction of the random threads does, the same in each of its attempts.
struct Plan {
    enum class Kind { look, write_one, write_both, abort } kind;
    Address from;
    Address to;
    Value value;  // this and the next one are written nowhere else
};

Plan chosen_plan(program::Choices& choices, Value value) {
    const std::uint32_t from = choices.below(addresses);
    const std::uint32_t to = (from + 1 + choices.below(addresses - 1)) % addresses;
    using Kind = Plan::Kind;
    static constexpr Kind kinds[8] = {Kind::look,       Kind::look,       Kind::write_one,  Kind::write_one,
                                      Kind::write_both, Kind::write_both, Kind::write_both, Kind::abort};
    return {kinds[choices.below(8)], from, to, value};
}

bool attempt(Transaction& transaction, const Plan& plan, program::Choices& choices) {
    Value seen = 0;
    if (!transaction.read(plan.from, seen)) return false;
    program::maybe_yield(choices);
    if (!transaction.read(plan.to, seen)) return false;
    if (plan.kind == Plan::Kind::look) return transaction.read(plan.from, seen) && transaction.commit();
    transaction.write(plan.from, plan.value);
    program::maybe_yield(choices);
    if (!transaction.read(plan.from, seen)) return false;
    if (plan.kind == Plan::Kind::write_one) return transaction.commit();
    transaction.write(plan.to, plan.value + 1);
    if (plan.kind == Plan::Kind::write_both) return transaction.commit();
    transaction.abort();
    return true;
}

void run_random(const program::Options& options, bool extends, Bug bug, pozhiqas::Recorder& recorder) {
    tl2::Memory memory(recorder.add_memory("m"), addresses, extends, bug);
    std::vector<pozhiqas::Thread*> lines;
    for (unsigned index = 0; index < options.threads; ++index) lines.push_back(&recorder.add_thread());
    program::run_threads(options.threads, [&](unsigned index) {
        program::Choices choices(options.seed, index);
        Transaction transaction(memory, *lines[index]);
        transaction.pause = [&](Moment) { program::maybe_yield(choices); };
        for (unsigned count = 0; count < options.transactions; ++count) {
            const Plan plan = chosen_plan(choices, 1 + 2 * (Value{count} * options.threads + index));
            program::Backoff backoff;
            transaction.begin();
            while (!attempt(transaction, plan, choices)) backoff.wait();
        }
    });
    // A lost effect that no call sees is in no record, so the last transaction reads all.
    Transaction last(memory, recorder.add_thread());
    last.begin();
    Value seen = 0;
    for (Address address = 0; address < Address{addresses}; ++address) last.read(address, seen);
    last.commit();
    print_end(memory);
}

void run(const program::Options& options) {
    const Bug bug = program::chosen(bugs, "--bug", options.bug);
    const Schedule schedule = program::chosen(schedules, "--schedule", options.schedule);
    pozhiqas::Recorder recorder(options.output, pozhiqas::Style::optimistic);
    if (schedule.run == nullptr) {
        run_random(options, schedule.extends, bug, recorder);
    } else {
        run_schedule(schedule, bug, recorder);
    }
    recorder.close();
}

}  // namespace

int main(int count, char** arguments) {
    return program::guarded(count, arguments, run);
}
