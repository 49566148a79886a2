// Transactional boosting: a set and a map that many threads may call at once, made transactional by abstract locks on their keys and by
// inverse calls. It writes its runs down in style boosted.
#ifndef BOOSTED_HPP
#define BOOSTED_HPP

#include "pozhiqas.hpp"

#include <algorithm>
#include <array>
#include <atomic>
#include <cstddef>
#include <cstdint>
#include <functional>
#include <map>
#include <mutex>
#include <optional>
#include <set>
#include <thread>
#include <utility>
#include <vector>

namespace boosted {

using Key = std::int64_t;
using Value = std::int64_t;
using Former = std::optional<Value>;

enum class Bug {
    none,
    no_lock_on_contains,   // the question whether a key is there takes no lock
    wrong_key,             // a put takes the lock of another key
    early_release,         // a call releases its lock when it returns, and not at the end of its transaction
    release_before_undo,   // an abort releases the locks and then takes its calls back
    undo_first_call_first, // an abort takes back the first call first
    undo_forgets_value,    // the inverse of a put is to remove the key, also if the put replaced a value
};

// A set that is right for each single call. The abstract locks are about whole transactions.
class ConcurrentSet {
public:
    bool add(Key key) {
        const std::lock_guard<std::mutex> guard(mutex_);
        return keys_.insert(key).second;
    }
    bool remove(Key key) {
        const std::lock_guard<std::mutex> guard(mutex_);
        return keys_.erase(key) == 1;
    }
    bool contains(Key key) const {
        const std::lock_guard<std::mutex> guard(mutex_);
        return keys_.count(key) == 1;
    }
    std::set<Key> keys() const {
        const std::lock_guard<std::mutex> guard(mutex_);
        return keys_;
    }

private:
    mutable std::mutex mutex_;
    std::set<Key> keys_;
};

class ConcurrentMap {
public:
    Former put(Key key, Value value) {
        const std::lock_guard<std::mutex> guard(mutex_);
        const Former former = find(key);
        values_[key] = value;
        return former;
    }
    Former remove(Key key) {
        const std::lock_guard<std::mutex> guard(mutex_);
        const Former former = find(key);
        values_.erase(key);
        return former;
    }
    Former get(Key key) const {
        const std::lock_guard<std::mutex> guard(mutex_);
        return find(key);
    }
    std::map<Key, Value> values() const {
        const std::lock_guard<std::mutex> guard(mutex_);
        return values_;
    }

private:
    Former find(Key key) const {
        const auto found = values_.find(key);
        return found == values_.end() ? std::nullopt : Former(found->second);
    }

    mutable std::mutex mutex_;
    std::map<Key, Value> values_;
};

// An abstract lock. It keeps apart the transactions that call at its key, however short each call is.
class Lock {
public:
    // False after so many looks: an endless wait could be a deadlock.
    bool try_acquire(const void* owner, unsigned looks) {
        for (unsigned look = 0; look < looks; ++look) {
            const void* seen = nullptr;
            if (owner_.compare_exchange_strong(seen, owner) || seen == owner) return true;
            std::this_thread::yield();
        }
        return false;
    }
    void release() { owner_ = nullptr; }

private:
    std::atomic<const void*> owner_{nullptr};
};

struct Collections {
    static constexpr std::size_t key_count = 8;

    Collections(pozhiqas::Recorder& order, Bug present)
        : recorder(order), recorded_set(order.add_set("s")), recorded_map(order.add_map("m")), bug(present) {}

    pozhiqas::Recorder& recorder;
    const pozhiqas::Set recorded_set;
    const pozhiqas::Map recorded_map;
    const Bug bug;
    ConcurrentSet set;
    ConcurrentMap map;
    std::array<Lock, key_count> set_locks;
    std::array<Lock, key_count> map_locks;
    std::atomic<unsigned> committed{0};
};

// The transactions of one thread, one after another. A call that finds its lock taken undoes the attempt and leaves its result unset: the
// code runs again from its first line, without another `begin`.
class Transaction {
public:
    Transaction(Collections& collections, pozhiqas::Thread& lines) : shared_(collections), lines_(lines) {}

    unsigned looks = 100;                                    // at a lock, before the attempt is undone
    std::function<void()> between_release_and_undo = [] {};  // called with the bug release_before_undo only

    // The line of the begin takes its place with the first call.
    void begin() { lines_.begin(); }

    std::optional<bool> add(Key key) {
        if (!acquire(shared_.set_locks, key)) return std::nullopt;
        const bool was_absent = shared_.set.add(key);
        record(shared_.recorded_set.add(key, was_absent));
        if (was_absent) undo_.push_back([this, key] { shared_.set.remove(key); });
        finish_call();
        return was_absent;
    }

    std::optional<bool> remove(Key key) {
        if (!acquire(shared_.set_locks, key)) return std::nullopt;
        const bool was_present = shared_.set.remove(key);
        record(shared_.recorded_set.remove(key, was_present));
        if (was_present) undo_.push_back([this, key] { shared_.set.add(key); });
        finish_call();
        return was_present;
    }

    std::optional<bool> contains(Key key) {
        if (!has(Bug::no_lock_on_contains) && !acquire(shared_.set_locks, key)) return std::nullopt;
        const bool is_present = shared_.set.contains(key);
        record(shared_.recorded_set.contains(key, is_present));
        finish_call();
        return is_present;
    }

    // The result of a call on the map is unset if the attempt was undone; else it has the value, if there is one.
    std::optional<Former> put(Key key, Value value) {
        if (!acquire(shared_.map_locks, has(Bug::wrong_key) ? other_key(key) : key)) return std::nullopt;
        const Former former = shared_.map.put(key, value);
        record(shared_.recorded_map.put(key, value, former));
        undo_.push_back([this, key, former] { restore(key, has(Bug::undo_forgets_value) ? std::nullopt : former); });
        finish_call();
        return std::optional<Former>(former);
    }

    std::optional<Former> erase(Key key) {
        if (!acquire(shared_.map_locks, key)) return std::nullopt;
        const Former former = shared_.map.remove(key);
        record(shared_.recorded_map.remove(key, former));
        if (former) undo_.push_back([this, key, former] { shared_.map.put(key, *former); });
        finish_call();
        return std::optional<Former>(former);
    }

    std::optional<Former> get(Key key) {
        if (!acquire(shared_.map_locks, key)) return std::nullopt;
        const Former value = shared_.map.get(key);
        record(shared_.recorded_map.get(key, value));
        finish_call();
        return std::optional<Former>(value);
    }

    void commit() {
        lines_.commit(shared_.recorder.next());  // before the first lock is released
        undo_.clear();
        release_all();
        ++shared_.committed;
    }

    void abort() {
        undo_attempt([this] { lines_.abort(shared_.recorder.next()); });
    }

private:
    using Locks = std::array<Lock, Collections::key_count>;

    bool has(Bug bug) const { return shared_.bug == bug; }

    static Key other_key(Key key) { return (key + 1) % static_cast<Key>(Collections::key_count); }

    // Its number is taken while the lock is held, so no other call at this key has a number between the effect and this line.
    void record(const pozhiqas::Call& call) { lines_.call(call, shared_.recorder.next()); }

    bool acquire(Locks& locks, Key key) {
        Lock& lock = locks.at(static_cast<std::size_t>(key));
        if (!lock.try_acquire(this, looks)) {
            undo_attempt([this] { lines_.retry(shared_.recorder.next()); });
            return false;
        }
        if (std::find(held_.begin(), held_.end(), &lock) == held_.end()) held_.push_back(&lock);
        return true;
    }

    void finish_call() {
        if (has(Bug::early_release)) release_all();
    }

    void restore(Key key, Former former) {
        if (former) shared_.map.put(key, *former);
        else shared_.map.remove(key);
    }

    // The inverse calls have no lines of their own: the line of the abort or of the retry means all of them. It is recorded when they are
    // made and the locks are still held.
    template <class Record>
    void undo_attempt(Record record_end) {
        if (has(Bug::release_before_undo)) {
            release_all();
            between_release_and_undo();
        }
        if (!has(Bug::undo_first_call_first)) std::reverse(undo_.begin(), undo_.end());
        for (const auto& inverse : undo_) inverse();
        undo_.clear();
        record_end();
        release_all();
    }

    void release_all() {
        for (Lock* lock : held_) lock->release();
        held_.clear();
    }

    Collections& shared_;
    pozhiqas::Thread& lines_;
    std::vector<std::function<void()>> undo_;
    std::vector<Lock*> held_;
};

}  // namespace boosted

#endif
