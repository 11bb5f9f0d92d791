// fanquber.hpp: a safe face of fanquber.h for C++17. Copy it into a project.
#ifndef FANQUBER_HPP
#define FANQUBER_HPP

#include <fanquber.h>

#include <cstddef>
#include <new>
#include <optional>
#include <stdexcept>
#include <string>
#include <string_view>
#include <utility>
#include <vector>

namespace fanquber {

/// What a run wrote on both outputs, and its status.
struct reply {
    std::string out, err;
    int status;
};

enum class tool { peg, abnf };

/// A grammar, and the settings of its runs.
class grammar {
public:
    grammar(tool which, std::string text) : which_(which), text_(std::move(text)) {}

    /// Names the start rule, or the rule that judges lines.
    grammar &start(std::string name) {
        name_ = std::move(name);
        settings_.named = true;
        return *this;
    }

    /// The settings, as fanquber(3) lists them.
    fanquber_settings &settings() { return settings_; }

    /// Runs the grammar on an input. Throws std::bad_alloc where an allocation fails, and std::invalid_argument where the
    /// settings are out of range, the library is older than fanquber.h, or the name is not UTF-8.
    reply run(std::string_view input) const {
        std::string out(4096, '\0'), err(1024, '\0');
        for (;;) {
            const fanquber_result got = (which_ == tool::peg ? fanquber_peg : fanquber_abnf)(
                &settings_, text_.data(), text_.size(), name_.data(), name_.size(), input.data() ? input.data() : "",
                input.size(), &out[0], out.size(), &err[0], err.size());
            if (got.status == FANQUBER_BAD_SETTINGS) throw std::invalid_argument("fanquber: settings out of range");
            if (got.status == FANQUBER_FAULT || got.status == FANQUBER_NO_MEMORY) throw std::bad_alloc();
            const bool is_whole = got.out_len <= out.size() && got.err_len <= err.size();
            if (is_whole || got.out_len > out.size()) out.resize(got.out_len);
            if (is_whole || got.err_len > err.size()) err.resize(got.err_len);
            if (is_whole) return {std::move(out), std::move(err), got.status};
        }
    }

    /// Runs the grammar of a peg on each of some inputs by itself: each reply is that of run. The grammar is read and checked
    /// once. Throws as run does, and std::invalid_argument for a grammar in ABNF.
    std::vector<reply> run_each(const std::vector<std::string_view> &inputs) const {
        if (which_ != tool::peg) throw std::invalid_argument("fanquber: run_each is for tool::peg");
        std::string input, out(4096, '\0'), err(1024, '\0');
        std::vector<fanquber_window> windows;
        for (const std::string_view it : inputs) {
            windows.push_back({input.size(), it.size()});
            input += it;
        }
        std::vector<fanquber_result> results(inputs.size() + 1); // one more than needed: data() is not null
        windows.push_back({});
        for (;;) {
            const fanquber_result got = fanquber_peg_windows(
                &settings_, text_.data(), text_.size(), name_.data(), name_.size(), input.data(), input.size(),
                windows.data(), inputs.size(), results.data(), inputs.size(), &out[0], out.size(), &err[0], err.size());
            if (got.status == FANQUBER_BAD_SETTINGS) throw std::invalid_argument("fanquber: settings out of range");
            if (got.out_len <= out.size() && got.err_len <= err.size()) return replies(results, got, out, err);
            if (got.out_len > out.size()) out.resize(got.out_len);
            if (got.err_len > err.size()) err.resize(got.err_len);
        }
    }

private:
    friend class judge;
    friend class runner;
    friend struct comparison;
    friend class lines;

    /// Cuts what the runs wrote into their replies. The messages on the grammar stand once, before those of the runs.
    static std::vector<reply> replies(const std::vector<fanquber_result> &results, const fanquber_result &all,
                                      const std::string &out, const std::string &err) {
        const std::size_t count = results.size() - 1;
        std::size_t out_at = 0, err_at = all.err_len;
        for (std::size_t at = 0; at < count; at++) err_at -= results[at].err_len;
        const std::string of_grammar = err.substr(0, err_at);
        std::vector<reply> found;
        for (std::size_t at = 0; at < count; at++) {
            const fanquber_result &it = results[at];
            if (it.status == FANQUBER_FAULT || it.status == FANQUBER_NO_MEMORY) throw std::bad_alloc();
            found.push_back({out.substr(out_at, it.out_len), of_grammar + err.substr(err_at, it.err_len), it.status});
            out_at += it.out_len;
            err_at += it.err_len;
        }
        return found;
    }

    tool which_;
    std::string text_, name_;
    fanquber_settings settings_ = FANQUBER_SETTINGS;
};

/// The answer to a line: whether it is derived, and if not, how many letters its longest viable prefix has, if that is asked
/// for.
struct answer {
    bool derived;
    std::size_t reached;
};

/// A grammar in ABNF that is read once, and judges line after line. It stays on the thread that opens it.
class judge {
public:
    /// Throws std::bad_alloc where an allocation fails, and std::invalid_argument, which says why, where the grammar is
    /// rejected, the settings are out of range, the library is older than fanquber.h, or the name is not UTF-8.
    explicit judge(const grammar &of) : notes_(1024, '\0') {
        for (;;) {
            const fanquber_result got =
                fanquber_abnf_open(&of.settings_, of.text_.data(), of.text_.size(), of.name_.data(), of.name_.size(), &own_,
                                   &notes_[0], notes_.size());
            const bool is_whole = got.err_len <= notes_.size();
            if (!is_whole) fanquber_abnf_close(&own_);
            notes_.resize(got.err_len);
            if (!is_whole) continue;
            if (got.status == FANQUBER_NO_MEMORY) throw std::bad_alloc();
            if (got.status == FANQUBER_BAD_SETTINGS) throw std::invalid_argument("fanquber: settings out of range");
            if (got.status != FANQUBER_DONE) throw std::invalid_argument(notes_);
            return;
        }
    }
    judge(judge &&other) noexcept : own_(other.own_), notes_(std::move(other.notes_)) { other.own_ = fanquber_judge FANQUBER_JUDGE; }
    judge &operator=(judge &&other) noexcept {
        std::swap(own_, other.own_);
        std::swap(notes_, other.notes_);
        return *this;
    }
    ~judge() { fanquber_abnf_close(&own_); }

    /// The notes on the grammar.
    const std::string &notes() const { return notes_; }

    /// Judges a line. Throws std::bad_alloc where an allocation fails, std::length_error for a line above the limit or the
    /// budget, and std::logic_error if the judge was moved from.
    answer operator()(std::string_view line) {
        const fanquber_answer got = fanquber_abnf_judge(&own_, line.data() ? line.data() : "", line.size());
        if (got.status == FANQUBER_OVERLONG) throw std::length_error("fanquber: line longer than the limit");
        if (got.status == FANQUBER_COSTLY) throw std::length_error("fanquber: line needs more than the budget");
        if (got.status == FANQUBER_NO_MEMORY) throw std::bad_alloc();
        if (got.status == FANQUBER_BAD_SETTINGS) throw std::logic_error("fanquber: the judge was moved from");
        return {got.status == FANQUBER_DONE, got.reached};
    }

private:
    fanquber_judge own_ = FANQUBER_JUDGE;
    std::string notes_;
};

/// A grammar of a peg that is read once, and runs on input after input. It stays on the thread that opens it.
class runner {
public:
    /// Throws as the constructor of judge does.
    explicit runner(const grammar &of) : notes_(1024, '\0') {
        for (;;) {
            const fanquber_result got =
                fanquber_peg_open(&of.settings_, of.text_.data(), of.text_.size(), of.name_.data(), of.name_.size(), &own_,
                                  &notes_[0], notes_.size());
            const bool is_whole = got.err_len <= notes_.size();
            if (!is_whole) fanquber_peg_close(&own_);
            notes_.resize(got.err_len);
            if (!is_whole) continue;
            if (got.status == FANQUBER_NO_MEMORY) throw std::bad_alloc();
            if (got.status == FANQUBER_BAD_SETTINGS) throw std::invalid_argument("fanquber: settings out of range");
            if (got.status != FANQUBER_DONE) throw std::invalid_argument(notes_);
            return;
        }
    }
    runner(runner &&other) noexcept : own_(other.own_), notes_(std::move(other.notes_)) { other.own_ = fanquber_runner FANQUBER_RUNNER; }
    runner &operator=(runner &&other) noexcept {
        std::swap(own_, other.own_);
        std::swap(notes_, other.notes_);
        return *this;
    }
    ~runner() { fanquber_peg_close(&own_); }

    /// The notes on the grammar.
    const std::string &notes() const { return notes_; }

    /// Runs the grammar on an input: the reply is that of grammar::run without the notes. Throws std::bad_alloc where an
    /// allocation fails, and std::logic_error if the runner was moved from.
    reply operator()(std::string_view input) {
        std::string out(4096, '\0'), err(1024, '\0');
        for (;;) {
            const fanquber_result got = fanquber_peg_run(&own_, input.data() ? input.data() : "", input.size(), &out[0],
                                                         out.size(), &err[0], err.size());
            if (got.status == FANQUBER_BAD_SETTINGS) throw std::logic_error("fanquber: the runner was moved from");
            if (got.status == FANQUBER_FAULT || got.status == FANQUBER_NO_MEMORY) throw std::bad_alloc();
            const bool is_whole = got.out_len <= out.size() && got.err_len <= err.size();
            if (is_whole || got.out_len > out.size()) out.resize(got.out_len);
            if (is_whole || got.err_len > err.size()) err.resize(got.err_len);
            if (is_whole) return {std::move(out), std::move(err), got.status};
        }
    }

private:
    fanquber_runner own_ = FANQUBER_RUNNER;
    std::string notes_;
};

/// What is known of the lines that one of two rules derives and the other does not.
struct alone {
    int known;           ///< FANQUBER_UNKNOWN, FANQUBER_NEVER, FANQUBER_NEVER_UP_TO or FANQUBER_FIRST
    std::size_t letters; ///< FANQUBER_NEVER_UP_TO: there is none of at most so many
    std::string line;    ///< FANQUBER_FIRST: the first of them
};

/// What is found of two grammars in ABNF.
struct comparison {
    alone old_alone, new_alone;
    std::string old_notes, new_notes;
    int status;

    /// Compares the rules of two grammars, of which each has a name or is the first, by the settings of the old one. Throws
    /// std::bad_alloc where an allocation fails, and std::invalid_argument where the settings are out of range, the library
    /// is older than fanquber.h, or a name is not UTF-8.
    static comparison of(const grammar &old_one, const grammar &new_one, std::size_t budget = FANQUBER_DEFAULT_BUDGET) {
        fanquber_settings settings = old_one.settings_;
        settings.named = true; // an empty name is none
        std::string old_line(256, '\0'), new_line(256, '\0'), err(1024, '\0');
        for (;;) {
            const fanquber_comparison got = fanquber_compare(
                &settings, budget, old_one.text_.data(), old_one.text_.size(), old_one.name_.data(), old_one.name_.size(),
                new_one.text_.data(), new_one.text_.size(), new_one.name_.data(), new_one.name_.size(), &old_line[0],
                old_line.size(), &new_line[0], new_line.size(), &err[0], err.size());
            if (got.status == FANQUBER_BAD_SETTINGS) throw std::invalid_argument("fanquber: settings out of range");
            if (got.status == FANQUBER_NO_MEMORY) throw std::bad_alloc();
            const bool is_whole = has_room(got.old_alone, old_line) & has_room(got.new_alone, new_line);
            if (is_whole && got.err_len <= err.size())
                return {known_of(got.old_alone, old_line), known_of(got.new_alone, new_line), err.substr(0, got.old_err_len),
                        err.substr(got.old_err_len, got.err_len - got.old_err_len), got.status};
            if (got.err_len > err.size()) err.resize(got.err_len);
        }
    }

private:
    /// Returns whether the buffer has room for the line, and makes room.
    static bool has_room(const fanquber_alone &found, std::string &line) {
        const bool fits = found.known != FANQUBER_FIRST || found.len <= line.size();
        if (!fits) line.resize(found.len);
        return fits;
    }

    static alone known_of(const fanquber_alone &found, const std::string &line) {
        const bool is_first = found.known == FANQUBER_FIRST;
        return {found.known, is_first ? 0 : found.len, line.substr(0, is_first ? found.len : 0)};
    }
};

/// Lines of a grammar in ABNF, one after another. They stay on the thread that opens them.
class lines {
public:
    /// `which` is FANQUBER_DERIVED, FANQUBER_MISSED, FANQUBER_EDGES, FANQUBER_RANDOM, FANQUBER_SAMPLES or FANQUBER_COVER.
    /// Throws as the constructor of judge does.
    explicit lines(const grammar &of, int which = FANQUBER_DERIVED)
        : notes_(1024, '\0'), line_(of.settings_.limit * (of.settings_.letters == FANQUBER_UTF8 ? 4 : 1), '\0') {
        for (;;) {
            const fanquber_result got =
                fanquber_lines_open(&of.settings_, static_cast<uint8_t>(which), of.text_.data(), of.text_.size(),
                                    of.name_.data(), of.name_.size(), &own_, &notes_[0], notes_.size());
            const bool is_whole = got.err_len <= notes_.size();
            if (!is_whole) fanquber_lines_close(&own_);
            notes_.resize(got.err_len);
            if (!is_whole) continue;
            if (got.status == FANQUBER_NO_MEMORY) throw std::bad_alloc();
            if (got.status == FANQUBER_BAD_SETTINGS) throw std::invalid_argument("fanquber: settings out of range");
            if (got.status != FANQUBER_DONE) throw std::invalid_argument(notes_);
            return;
        }
    }
    lines(const lines &) = delete;
    lines &operator=(const lines &) = delete;
    ~lines() { fanquber_lines_close(&own_); }

    /// The notes on the grammar.
    const std::string &notes() const { return notes_; }

    /// Returns the next line, if there is one. Throws std::bad_alloc where an allocation fails, and std::length_error where
    /// the grammar has too many states.
    std::optional<std::string> next() {
        const fanquber_line got = fanquber_lines_next(&own_, &line_[0], line_.size());
        if (got.status == FANQUBER_NO_MATCH) return std::nullopt;
        if (got.status == FANQUBER_NO_MEMORY) throw std::bad_alloc();
        if (got.status != FANQUBER_DONE) throw std::length_error("fanquber: too many states");
        return line_.substr(0, got.len);
    }

private:
    fanquber_lines own_ = FANQUBER_LINES;
    std::string notes_, line_;
};

} // namespace fanquber

#endif
