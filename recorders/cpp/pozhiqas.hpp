// Records a run of a transactional memory as the lines that Pozhiqas certifies. One header, C++17, no dependency.
//
//     pozhiqas::Recorder recorder("run.jsonl", pozhiqas::Style::boosted);
//     pozhiqas::Set set = recorder.add_set("s");
//     pozhiqas::Thread& thread = recorder.add_thread();   // one for each thread of the program
//     thread.begin();
//     thread.call(set.add(5, true), recorder.next());     // the memory's add(5) returned true; the lock of 5 is still held
//     thread.commit(recorder.next());                     // before the first lock is released
//     recorder.close();                                   // when all threads have ended: sorts and writes the lines
//
// Who owns what, and who may call what:
//
// - The Recorder owns its Threads. It must outlive their last use.
// - One thread adds the objects and the start, before anything is recorded.
// - Any thread may call `add_thread` and `next` at any time.
// - A Thread is used by one thread of the program at a time. Nothing in it is locked or atomic.
// - `write` and `close` are called while no thread records: after a join, or after a barrier.
//
// Recording never throws, so a memory can call it inside its commit. A mistake that is found there (a call outside a transaction, no
// memory for a line) is kept, and the next `write` or `close` throws it as an Error.
#ifndef POZHIQAS_HPP
#define POZHIQAS_HPP

#include <algorithm>
#include <array>
#include <atomic>
#include <cerrno>
#include <cstddef>
#include <cstdint>
#include <cstdio>
#include <cstring>
#include <filesystem>
#include <initializer_list>
#include <limits>
#include <memory>
#include <mutex>
#include <new>
#include <optional>
#include <stdexcept>
#include <string>
#include <system_error>
#include <utility>
#include <vector>

namespace pozhiqas {

// The run cannot be written: its file fails, a line is out of order, or this header was used wrongly.
class Error : public std::runtime_error {
public:
    using std::runtime_error::runtime_error;
};

enum class Style : std::uint8_t { boosted, optimistic };

// Lines are sorted by version and then by rank. Lines of one place keep the order in which their thread recorded them.
// A memory with a clock of versions uses {v, 0} for the commit that makes version v, and {v, 1} for what is done as of version v.
struct Place {
    std::uint64_t version;
    std::uint32_t rank;
};

constexpr bool operator==(Place left, Place right) noexcept {
    return left.version == right.version && left.rank == right.rank;
}

constexpr bool operator<(Place left, Place right) noexcept {
    return left.version != right.version ? left.version < right.version : left.rank < right.rank;
}

// A line with this place takes the place of the next line of its thread. So a commit can place its whole attempt.
inline constexpr Place later{std::numeric_limits<std::uint64_t>::max(), std::numeric_limits<std::uint32_t>::max()};

enum class Form : std::uint8_t { none, boolean, number };

// One call with its result. The objects below make them.
struct Call {
    const char* name = "";  // a literal
    std::array<std::int64_t, 3> arguments{};
    std::int64_t result = 0;
    std::uint16_t object = 0;
    std::uint8_t argument_count = 0;
    Form form = Form::none;
};

// A shared object of the run. Each kind has the calls of its kind in the format, from arguments and result.
class Object {
public:
    std::uint16_t index() const noexcept { return index_; }

protected:
    friend class Recorder;
    using Number = std::int64_t;
    using Numbers = std::initializer_list<Number>;

    explicit Object(std::uint16_t index) noexcept : index_(index) {}

    Call make(const char* name, Numbers arguments) const noexcept {
        Call call;
        call.name = name;
        std::copy(arguments.begin(), arguments.end(), call.arguments.begin());
        call.argument_count = static_cast<std::uint8_t>(arguments.size());
        call.object = index_;
        return call;
    }
    Call make_boolean(const char* name, Numbers arguments, bool result) const noexcept {
        Call call = make(name, arguments);
        call.result = result ? 1 : 0;
        call.form = Form::boolean;
        return call;
    }
    Call make_number(const char* name, Numbers arguments, std::optional<Number> result) const noexcept {
        Call call = make(name, arguments);
        if (result) {
            call.result = *result;
            call.form = Form::number;
        }
        return call;
    }

private:
    std::uint16_t index_;
};

// Numbered cells, each 0 at first.
class Memory : public Object {
public:
    using Object::Object;
    static constexpr const char* kind = "mem";
    Call read(Number address, Number value) const noexcept { return make_number("read", {address}, value); }
    Call write(Number address, Number value) const noexcept { return make("write", {address, value}); }
    Call cas(Number address, Number expected, Number value, bool done) const noexcept {
        return make_boolean("cas", {address, expected, value}, done);
    }
};

class Set : public Object {
public:
    using Object::Object;
    static constexpr const char* kind = "set";
    Call add(Number key, bool was_absent) const noexcept { return make_boolean("add", {key}, was_absent); }
    Call remove(Number key, bool was_present) const noexcept { return make_boolean("remove", {key}, was_present); }
    Call contains(Number key, bool is_present) const noexcept { return make_boolean("contains", {key}, is_present); }
};

class Map : public Object {
public:
    using Object::Object;
    using Value = std::optional<Number>;
    static constexpr const char* kind = "map";
    Call put(Number key, Number value, Value former) const noexcept { return make_number("put", {key, value}, former); }
    Call get(Number key, Value value) const noexcept { return make_number("get", {key}, value); }
    Call remove(Number key, Value former) const noexcept { return make_number("remove", {key}, former); }
};

class Counter : public Object {
public:
    using Object::Object;
    static constexpr const char* kind = "counter";
    Call add(Number number) const noexcept { return make("add", {number}); }
    Call get(Number value) const noexcept { return make_number("get", {}, value); }
    Call fetch_add(Number number, Number former) const noexcept { return make_number("fetch_add", {number}, former); }
};

class Queue : public Object {
public:
    using Object::Object;
    static constexpr const char* kind = "queue";
    Call enq(Number value) const noexcept { return make("enq", {value}); }
    Call deq(std::optional<Number> value) const noexcept { return make_number("deq", {}, value); }
};

class Stack : public Object {
public:
    using Object::Object;
    static constexpr const char* kind = "stack";
    Call push(Number value) const noexcept { return make("push", {value}); }
    Call pop(std::optional<Number> value) const noexcept { return make_number("pop", {}, value); }
};

class PriorityQueue : public Object {
public:
    using Object::Object;
    static constexpr const char* kind = "prio";
    Call insert(Number value) const noexcept { return make("insert", {value}); }
    Call take(std::optional<Number> value) const noexcept { return make_number("take", {}, value); }
    Call least(std::optional<Number> value) const noexcept { return make_number("least", {}, value); }
};

namespace detail {

enum class Step : std::uint8_t { begin, call, refresh, retry, commit, abort };

// 64 bytes, a line of the processor's cache.
struct Line {
    std::uint64_t version;
    std::uint32_t rank;
    Step step;
    Call call;

    Place place() const noexcept { return {version, rank}; }
    void put_at(Place place) noexcept {
        version = place.version;
        rank = place.rank;
    }
};

}  // namespace detail

// The lines of one thread, which has one open transaction at a time. Within a transaction places never go back.
class alignas(64) Thread {
public:
    Thread(const Thread&) = delete;
    Thread& operator=(const Thread&) = delete;

    void begin(Place place = later) noexcept {
        if (!require(!open_, "a begin while a transaction is open")) return;
        open_ = true;
        transaction_ = lines_.size();
        append(place, detail::Step::begin);
        attempt_ = lines_.size();
    }

    void call(const Call& call, Place place = later) noexcept {
        if (require(open_, "a call outside a transaction")) append(place, detail::Step::call, call);
    }

    // The snapshot of this object was moved forward to this place. Style optimistic only.
    void refresh(const Object& object, Place place = later) noexcept {
        if (!require(open_, "a refresh outside a transaction")) return;
        Call call;
        call.object = object.index();
        append(place, detail::Step::refresh, call);
    }

    // The attempt is undone, and the transaction runs its code again.
    void retry(Place place = later) noexcept {
        if (!require(open_, "a retry outside a transaction")) return;
        append(place, detail::Step::retry);
        attempt_ = lines_.size();
    }

    void commit(Place place) noexcept { end(place, detail::Step::commit, "a commit outside a transaction"); }

    // The attempt is undone, and the transaction ends.
    void abort(Place place) noexcept { end(place, detail::Step::abort, "an abort outside a transaction"); }

    // Leaves out the lines of an attempt of which nobody could see anything. The transaction stays open.
    void drop_attempt() noexcept {
        if (require(open_, "drop_attempt outside a transaction")) cut(attempt_);
    }

    // Leaves out the whole transaction, its begin too.
    void drop_transaction() noexcept {
        if (!require(open_, "drop_transaction outside a transaction")) return;
        cut(transaction_);
        open_ = false;
    }

private:
    friend class Recorder;

    Thread() = default;

    bool require(bool met, const char* mistake) noexcept {
        if (!met && mistake_ == nullptr) mistake_ = mistake;
        return met;
    }

    void append(Place place, detail::Step step, const Call& call = {}) noexcept {
        try {
            lines_.push_back({place.version, place.rank, step, call});
        } catch (const std::bad_alloc&) {
            require(false, "no memory for a line");
        }
    }

    void end(Place place, detail::Step step, const char* mistake) noexcept {
        if (!require(open_, mistake) || !require(!(place == later), "an end of a transaction without a place")) return;
        append(place, step);
        open_ = false;
    }

    void cut(std::size_t length) noexcept { lines_.erase(lines_.begin() + static_cast<std::ptrdiff_t>(length), lines_.end()); }

    std::vector<detail::Line> lines_;
    std::size_t transaction_ = 0;    // where the lines of the transaction begin
    std::size_t attempt_ = 0;        // where the lines of the attempt begin
    std::size_t begun_ = 0;          // the transactions among the lines that were written
    const char* mistake_ = nullptr;  // the first one, since it may cause those after it
    bool open_ = false;
};

namespace detail {

// The text of a run, line by line.
class Text {
public:
    void header(Style style, const std::vector<std::pair<std::string, const char*>>& objects, const std::vector<Call>& start) {
        text_ += start.empty() ? R"({"run":1,"style":")" : R"({"run":2,"style":")";
        text_ += style == Style::boosted ? "boosted" : "optimistic";
        text_ += R"(","objects":[)";
        for (std::size_t index = 0; index < objects.size(); ++index) {
            const auto& [name, kind] = objects[index];
            names_.push_back(name);
            text_ += (index == 0 ? R"({"name":")" : R"(,{"name":")") + name + R"(","kind":")" + kind + R"("})";
        }
        text_ += ']';
        if (!start.empty()) add_start(start);
        text_ += "}\n";
    }

    void line(const std::string& transaction, const std::string& thread, const Line& line) {
        text_ += R"({"step":")";
        text_ += word(line.step);
        text_ += R"(","tx":")" + transaction + '"';
        if (line.step == Step::begin) text_ += R"(,"thread":")" + thread + '"';
        if (line.step == Step::refresh) add_object(line.call);
        if (line.step == Step::call) {
            text_ += ',';
            add_call(line.call);
        }
        text_ += "}\n";
    }

    const std::string& get() const noexcept { return text_; }
    void clear() noexcept { text_.clear(); }

private:
    static const char* word(Step step) noexcept {
        switch (step) {
            case Step::begin: return "begin";
            case Step::call: return "op";
            case Step::refresh: return "refresh";
            case Step::retry: return "retry";
            case Step::commit: return "commit";
            case Step::abort: return "abort";
        }
        return "";
    }

    void add_start(const std::vector<Call>& calls) {
        text_ += R"(,"start":{"tx":"start","ops":[)";
        for (std::size_t index = 0; index < calls.size(); ++index) {
            text_ += index == 0 ? "{" : ",{";
            add_call(calls[index]);
            text_ += '}';
        }
        text_ += "]}";
    }

    void add_object(const Call& call) { text_ += R"(,"on":")" + names_.at(call.object) + '"'; }

    // Ids are given in the order of the lines: ids that are close together are looked up fastest.
    void add_call(const Call& call) {
        text_ += R"("id":)" + std::to_string(next_id_++);
        add_object(call);
        text_ += R"(,"call":")";
        text_ += call.name;
        text_ += R"(","args":[)";
        for (std::size_t index = 0; index < call.argument_count; ++index) {
            if (index > 0) text_ += ',';
            add_number(call.arguments.at(index), call);
        }
        text_ += R"(],"result":)";
        switch (call.form) {
            case Form::none: text_ += "null"; break;
            case Form::boolean: text_ += call.result != 0 ? "true" : "false"; break;
            case Form::number: add_number(call.result, call); break;
        }
    }

    void add_number(std::int64_t number, const Call& call) {
        constexpr std::int64_t greatest = 1'000'000'000'000'000'000;
        if (number < -greatest || number > greatest) {
            throw Error(std::to_string(number) + ", in a call of " + call.name + ", is not between -10^18 and 10^18");
        }
        text_ += std::to_string(number);
    }

    std::string text_;
    std::vector<std::string> names_;
    std::uint64_t next_id_ = 0;
};

// The file of a run. Its name ends with `.part` until it is whole, so a run that lost its last lines is never taken for a whole one.
// Standard output, pipes and devices are written directly.
class File {
public:
    explicit File(std::string path) : path_(std::move(path)) {
        std::error_code ignored;
        const auto status = std::filesystem::status(path_, ignored);
        if (path_ == "-") {
            file_ = stdout;
        } else if (std::filesystem::exists(status) && !std::filesystem::is_regular_file(status)) {
            file_ = std::fopen(path_.c_str(), "w");
        } else {
            part_ = path_ + ".part";
            file_ = std::fopen(part_.c_str(), "w");
        }
        if (file_ == nullptr) throw failed();
    }
    File(const File&) = delete;
    File& operator=(const File&) = delete;
    ~File() { discard(); }

    const std::string& path() const noexcept { return path_; }
    bool is_open() const noexcept { return file_ != nullptr; }

    void write(const std::string& text) {
        if (std::fwrite(text.data(), 1, text.size(), file_) != text.size()) throw failed();
    }

    void close() {
        std::FILE* const file = std::exchange(file_, nullptr);
        const bool is_written = file == stdout ? std::fflush(file) == 0 : std::fclose(file) == 0;
        if (is_written && (part_.empty() || std::rename(part_.c_str(), path_.c_str()) == 0)) return;
        const Error error = failed();
        remove_part();
        throw error;
    }

    void discard() noexcept {
        std::FILE* const file = std::exchange(file_, nullptr);
        if (file == nullptr) return;
        if (file != stdout) std::fclose(file);
        remove_part();
    }

private:
    void remove_part() const noexcept {
        if (!part_.empty()) std::remove(part_.c_str());
    }
    Error failed() const { return Error((path_ == "-" ? "standard output" : path_) + ": " + std::strerror(errno)); }

    std::string path_;
    std::string part_;
    std::FILE* file_ = nullptr;
};

}  // namespace detail

class Recorder {
public:
    // The run goes to the file of this path, or to standard output for "-".
    Recorder(std::string path, Style style) : file_(std::move(path)), style_(style) {}

    Recorder(const Recorder&) = delete;
    Recorder& operator=(const Recorder&) = delete;

    // A destructor cannot throw, so a run that was never closed is reported here.
    ~Recorder() {
        if (file_.is_open()) std::fprintf(stderr, "pozhiqas: %s: never closed, so there is no run\n", file_.path().c_str());
    }

    Memory add_memory(const std::string& name) { return add<Memory>(name); }
    Set add_set(const std::string& name) { return add<Set>(name); }
    Map add_map(const std::string& name) { return add<Map>(name); }
    Counter add_counter(const std::string& name) { return add<Counter>(name); }
    Queue add_queue(const std::string& name) { return add<Queue>(name); }
    Stack add_stack(const std::string& name) { return add<Stack>(name); }
    PriorityQueue add_priority_queue(const std::string& name) { return add<PriorityQueue>(name); }

    // What is there before the run, as the calls that make it. It counts as one committed transaction, of the name `start`.
    void start(std::vector<Call> calls) {
        require_no_header();
        start_ = std::move(calls);
    }

    // Threads have the names p0, p1 and so on, and their transactions p0_1, p0_2 and so on. The memory for the expected lines, 64 bytes
    // each, is touched here, so that recording them meets no page that is not there yet. More lines than expected only take longer.
    Thread& add_thread(std::size_t expected_lines = 8'192) {
        std::unique_ptr<Thread> thread(new Thread());
        thread->lines_.resize(expected_lines);
        thread->lines_.clear();
        const std::lock_guard<std::mutex> guard(threads_lock_);
        threads_.push_back(std::move(thread));
        return *threads_.back();
    }

    // The next number of a counter that all threads share, as a place.
    Place next() noexcept { return {counter_.fetch_add(1), 0}; }

    // Writes all lines so far, and uses their memory for the next ones. Only at a quiet point: no transaction is open, and no later line
    // has a place before one that is written. After an Error there is no run.
    void write() { write_lines(true, false); }

    // Writes the rest, and names the file. A transaction may still be open: those of its lines that have no place are left out. After an
    // Error there is no run.
    void close() { write_lines(false, true); }

private:
    struct Placed {
        const detail::Line* line;
        std::size_t thread;
        std::size_t transaction;
    };

    static std::string name_of(std::size_t thread) { return "p" + std::to_string(thread); }

    static std::string text_of(Place place) {
        return "(" + std::to_string(place.version) + ", " + std::to_string(place.rank) + ")";
    }

    template <class Kind>
    Kind add(const std::string& name) {
        require_no_header();
        if (!is_name(name)) throw Error("'" + name + "' is not 1 to 24 of the characters A-Z a-z 0-9 _ . -");
        const bool is_taken = std::any_of(objects_.begin(), objects_.end(), [&](const auto& object) { return object.first == name; });
        if (is_taken) throw Error("two objects have the name " + name);
        if (objects_.size() == 256) throw Error("a run has at most 256 objects");
        objects_.emplace_back(name, Kind::kind);
        return Kind(static_cast<std::uint16_t>(objects_.size() - 1));
    }

    static bool is_name(const std::string& text) {
        static const char* const letters = "ABCDEFGHIJKLMNOPQRSTUVWXYZabcdefghijklmnopqrstuvwxyz0123456789_.-";
        return !text.empty() && text.size() <= 24 && text.find_first_not_of(letters) == std::string::npos;
    }

    void require_no_header() const {
        if (has_header_) throw Error("objects and the start are added before the first line is written");
    }

    void write_lines(bool is_quiet_point, bool is_end) {
        const std::lock_guard<std::mutex> guard(threads_lock_);
        if (!file_.is_open()) throw Error(file_.path() + ": the run was closed, or it failed");
        try {
            if (!has_header_) text_.header(style_, objects_, start_);
            has_header_ = true;
            for (const Placed& placed : sorted_lines(is_quiet_point)) write_line(placed);
            file_.write(text_.get());
            if (is_end) file_.close();
        } catch (...) {
            file_.discard();
            throw;
        }
        text_.clear();
        for (const auto& thread : threads_) thread->lines_.clear();
    }

    void write_line(const Placed& placed) {
        if (placed.line->place() < written_) {
            throw Error("a line of " + name_of(placed.thread) + " has the place " + text_of(placed.line->place()) + ", and lines up to " +
                        text_of(written_) + " were written at a quiet point");
        }
        written_ = placed.line->place();
        const std::string thread = name_of(placed.thread);
        text_.line(thread + '_' + std::to_string(placed.transaction), thread, *placed.line);
    }

    std::vector<Placed> sorted_lines(bool is_quiet_point) {
        std::vector<Placed> all;
        for (std::size_t index = 0; index < threads_.size(); ++index) {
            Thread& thread = *threads_[index];
            check(thread, name_of(index), is_quiet_point);
            give_places(thread, name_of(index));
            for (const detail::Line& line : thread.lines_) {
                if (line.step == detail::Step::begin) ++thread.begun_;
                all.push_back({&line, index, thread.begun_});
            }
        }
        std::stable_sort(all.begin(), all.end(),
                         [](const Placed& left, const Placed& right) { return left.line->place() < right.line->place(); });
        return all;
    }

    static void check(const Thread& thread, const std::string& name, bool is_quiet_point) {
        if (thread.mistake_ != nullptr) throw Error("thread " + name + ": " + thread.mistake_);
        if (is_quiet_point && thread.open_) throw Error("thread " + name + " has an open transaction at a quiet point");
    }

    // A line without a place takes that of the next line. Lines after the last one with a place are left out. A transaction whose places
    // go back would be sorted into another order than its own, so that is an error.
    static void give_places(Thread& thread, const std::string& name) {
        while (!thread.lines_.empty() && thread.lines_.back().place() == later) thread.lines_.pop_back();
        Place next = later;
        for (auto line = thread.lines_.rbegin(); line != thread.lines_.rend(); ++line) {
            if (line->place() == later) line->put_at(next);
            if (next < line->place()) {
                throw Error("a transaction of " + name + " goes back from the place " + text_of(line->place()) + " to " + text_of(next));
            }
            next = line->step == detail::Step::begin ? later : line->place();
        }
    }

    detail::File file_;
    Style style_;
    std::vector<std::pair<std::string, const char*>> objects_;  // name and kind
    std::vector<Call> start_;
    detail::Text text_;
    bool has_header_ = false;
    Place written_{0, 0};  // the greatest place of the lines that are written
    std::mutex threads_lock_;
    std::vector<std::unique_ptr<Thread>> threads_;
    alignas(64) std::atomic<std::uint64_t> counter_{1};
};

}  // namespace pozhiqas

#endif
