// A transactional memory after TL2: a clock of versions, reads as of the clock at the begin, writes kept in a buffer, and a check of the
// reads at the commit. It writes its runs down in style optimistic.
#ifndef TL2_HPP
#define TL2_HPP

#include "pozhiqas.hpp"

#include <atomic>
#include <cstddef>
#include <cstdint>
#include <functional>
#include <map>
#include <set>
#include <vector>

namespace tl2 {

using Address = std::int64_t;
using Value = std::int64_t;
using Version = std::uint64_t;

enum class Bug {
    none,
    no_check,             // the commit does not check the reads
    checks_writes_only,   // the commit checks only those reads whose addresses it writes: snapshot isolation
    no_locks,             // the commit does not lock what it writes
    early_unlock,         // the commit releases its locks before it writes back
    late_clock,           // the clock is read after the first read, and not at the begin
    no_version_check,     // a read takes a value that is newer than the snapshot
    no_extension_check,   // the snapshot is moved forward without a look at what was read
    skips_buffer,         // a read does not look into the transaction's own buffer
};

// Moments within a call at which another thread may run.
enum class Moment { value_loaded, committing, half_written_back };

// All accesses are sequentially consistent, so the numbers of the lines are taken in the order of the accesses around them.
struct Cell {
    std::atomic<Value> value{0};
    std::atomic<Version> stamp{0};  // twice the version of the value, and 1 more while the cell is locked
};

inline bool is_locked(Version stamp) { return stamp % 2 == 1; }
inline Version version_of(Version stamp) { return stamp / 2; }

struct Memory {
    // An extending memory moves a snapshot forward when it meets a newer value, if all that was read is unchanged.
    Memory(pozhiqas::Memory recorded_as, std::size_t size, bool extending, Bug present)
        : cells(size), recorded(recorded_as), extends(extending), bug(present) {}

    Cell& at(Address address) { return cells.at(static_cast<std::size_t>(address)); }

    std::atomic<Version> clock{0};
    std::atomic<unsigned> committed{0};
    std::vector<Cell> cells;
    const pozhiqas::Memory recorded;
    const bool extends;
    const Bug bug;
};

// The transactions of one thread, one after another. A call that returns false has undone the attempt: the code runs again from its first
// line, without another `begin`.
class Transaction {
public:
    Transaction(Memory& memory, pozhiqas::Thread& lines) : memory_(memory), lines_(lines) {}

    std::function<void(Moment)> pause = [](Moment) {};

    void begin() {
        clear();
        if (has(Bug::late_clock)) {
            lines_.begin();  // takes its place with the first read
        } else {
            snapshot_ = memory_.clock;
            lines_.begin(as_of_snapshot());
        }
    }

    bool read(Address address, Value& value) {
        const auto own = buffer_.find(address);
        if (own != buffer_.end() && !has(Bug::skips_buffer)) {
            value = own->second;
            // An extending memory records its writes at the commit, so what the buffer answers has no line.
            if (!memory_.extends) lines_.call(memory_.recorded.read(address, value), as_of_snapshot());
            return true;
        }
        if (!load(address, value)) return restart();
        reads_.insert(address);
        lines_.call(memory_.recorded.read(address, value), as_of_snapshot());
        return true;
    }

    void write(Address address, Value value) {
        buffer_[address] = value;
        if (!memory_.extends) lines_.call(memory_.recorded.write(address, value), as_of_snapshot());
    }

    bool commit() {
        if (buffer_.empty()) {
            lines_.commit(as_of_snapshot());  // as of its reads, and not as of now
            ++memory_.committed;
            return true;
        }
        if (!lock_writes()) return restart();
        const Version version = ++memory_.clock;  // after the locks and before the check
        pause(Moment::committing);
        if (!may_commit()) {
            unlock_writes();
            return restart();
        }
        record_commit({version, 0});
        write_back(version);
        ++memory_.committed;
        return true;
    }

    void abort() { lines_.abort(as_of_snapshot()); }

private:
    bool has(Bug bug) const { return memory_.bug == bug; }

    pozhiqas::Place as_of_snapshot() const { return {snapshot_, 1}; }

    void clear() {
        buffer_.clear();
        reads_.clear();
    }

    bool restart() {
        clear();
        snapshot_ = memory_.clock;
        lines_.retry(as_of_snapshot());
        return false;
    }

    bool load(Address address, Value& value) {
        Cell& cell = memory_.at(address);
        const Version stamp = cell.stamp;
        value = cell.value;
        if (is_locked(stamp) || cell.stamp != stamp) return false;
        pause(Moment::value_loaded);
        if (has(Bug::late_clock) && reads_.empty()) snapshot_ = memory_.clock;
        if (version_of(stamp) <= snapshot_ || has(Bug::no_version_check)) return true;
        // The value was loaded before the clock is read again, so it may be older than the new snapshot: it is loaded anew.
        return memory_.extends && extend() && load(address, value);
    }

    bool extend() {
        const Version now = memory_.clock;
        if (!has(Bug::no_extension_check) && !reads_unchanged([](Address) { return true; })) return false;
        snapshot_ = now;
        lines_.refresh(memory_.recorded, as_of_snapshot());
        return true;
    }

    bool may_commit() const {
        if (has(Bug::no_check)) return true;
        return reads_unchanged([this](Address address) { return !has(Bug::checks_writes_only) || buffer_.count(address) == 1; });
    }

    template <class Chosen>
    bool reads_unchanged(Chosen is_checked) const {
        for (const Address address : reads_) {
            const Version stamp = memory_.at(address).stamp;
            const bool is_free = !is_locked(stamp) || locked_.count(address) == 1;
            if (is_checked(address) && (!is_free || version_of(stamp) > snapshot_)) return false;
        }
        return true;
    }

    // The buffer is ordered by address, so two commits cannot each wait for a lock of the other. This one does not wait at all.
    bool lock_writes() {
        if (has(Bug::no_locks)) return true;
        for (const auto& write : buffer_) {
            std::atomic<Version>& stamp = memory_.at(write.first).stamp;
            Version seen = stamp;
            if (is_locked(seen) || !stamp.compare_exchange_strong(seen, seen + 1)) {
                unlock_writes();
                return false;
            }
            locked_.insert(write.first);
        }
        return true;
    }

    void unlock_writes() {
        for (const Address address : locked_) --memory_.at(address).stamp;
        locked_.clear();
    }

    void record_commit(pozhiqas::Place place) {
        if (memory_.extends) {
            for (const auto& [address, value] : buffer_) lines_.call(memory_.recorded.write(address, value), place);
        }
        lines_.commit(place);
    }

    void write_back(Version version) {
        if (has(Bug::early_unlock)) release_writes(version);
        bool is_first = true;
        for (const auto& [address, value] : buffer_) {
            if (!is_first) pause(Moment::half_written_back);
            is_first = false;
            memory_.at(address).value = value;
        }
        if (!has(Bug::early_unlock)) release_writes(version);
    }

    void release_writes(Version version) {
        for (const auto& write : buffer_) memory_.at(write.first).stamp = 2 * version;
        locked_.clear();
    }

    Memory& memory_;
    pozhiqas::Thread& lines_;
    Version snapshot_ = 0;
    std::map<Address, Value> buffer_;
    std::set<Address> reads_;
    std::set<Address> locked_;
};

}  // namespace tl2

#endif
