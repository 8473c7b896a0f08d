// darbexum.hpp - an engine of libdarbexum with an owner, for C++20. Include it after `-I` of darbexum.h, link with -ldarbexum.
//
//     Darbexum::Engine engine(config);               // throws Darbexum::Error
//     engine.turn(now, [&](std::span<const std::uint8_t> datagram) { send(datagram); });
//     engine.arrive(0, 1, octets);                   // judged at the reading before
//     engine.close([&](auto datagram) { send(datagram); });
//
// An Engine can be moved, not copied. One thread at a time may call it. What darbexum.h says of units and of the order of
// calls holds here too, but for one thing: `turn` and `close` call `give` with each datagram, so no turn stays unfinished.
#pragma once
#include "darbexum.h"

#include <array>
#include <cstddef>
#include <cstdint>
#include <optional>
#include <span>
#include <stdexcept>
#include <string>
#include <string_view>
#include <utility>
#include <vector>

namespace Darbexum {

using Octets = std::span<const std::uint8_t>;
using Samples = std::span<const std::int32_t>;
using Outcome = ::darbexum_outcome;
using Counts = ::darbexum_counts_t;
using PathCounts = ::darbexum_path_counts_t;
using Output = ::darbexum_output_t;
using Stream = ::darbexum_stream_t;

// The streams that are missing in a block.
struct Missing {
    std::size_t streams; // those of which, at some time of the block, a gain is not 0 and no packet came
    bool is_empty;       // streams are missing, and no stream with a gain other than 0 has a packet in the block

    bool operator==(const Missing &) const = default;
};

// A failed call. Nothing has changed.
class Error : public std::runtime_error {
public:
    Error(std::int32_t code, const std::string &text) : std::runtime_error(text), code_(code) {}
    explicit Error(std::int32_t code) : Error(code, text_of(code)) {}
    std::int32_t code() const noexcept { return code_; }

private:
    static std::string text_of(std::int32_t code) {
        std::array<std::uint8_t, 128> room;
        darbexum_fault_text(code, room.data(), room.size());
        return reinterpret_cast<const char *>(room.data());
    }
    std::int32_t code_;
};

class Engine {
public:
    // Makes the engine of a configuration (TOML).
    explicit Engine(std::string_view config) {
        std::array<std::uint8_t, 256> text;
        // An empty view may have a null pointer, which no call takes.
        const char *begin = config.empty() ? "" : config.data();
        if (auto code = darbexum_open(&handle_, reinterpret_cast<const std::uint8_t *>(begin), config.size(), text.data(), text.size()))
            throw Error(code, reinterpret_cast<const char *>(text.data()));
    }
    ~Engine() { darbexum_free(&handle_); }
    Engine(Engine &&other) noexcept
        : handle_(std::exchange(other.handle_, ::darbexum{nullptr})), inputs_(std::move(other.inputs_)) {}
    Engine &operator=(Engine &&other) noexcept {
        std::swap(handle_, other.handle_);
        std::swap(inputs_, other.inputs_);
        return *this;
    }
    Engine(const Engine &) = delete;
    Engine &operator=(const Engine &) = delete;

    // Takes a datagram of a stream that came in on a path, and returns its outcome.
    Outcome arrive(std::size_t stream, std::uint8_t path, Octets octets) {
        const std::uint8_t none = 0;
        return Outcome(checked(darbexum_arrive(&handle_, stream, path, octets.empty() ? &none : octets.data(), octets.size())));
    }

    // Moves all streams on to a clock reading, and calls `give` with each datagram. If `give` throws, call `turn` again.
    template <class Give> void turn(std::int64_t now, Give &&give) {
        while (auto len = checked(darbexum_turn(&handle_, now, out_.data(), out_.size())))
            give(Octets(out_.data(), std::size_t(len)));
    }

    // Closes all streams, and calls `give` with each datagram that is left.
    template <class Give> void close(Give &&give) {
        checked(darbexum_close(&handle_));
        while (auto len = checked(darbexum_drain(&handle_, out_.data(), out_.size())))
            give(Octets(out_.data(), std::size_t(len)));
    }

    // Returns the clock reading before which no datagram comes if nothing arrives, if there is one.
    std::optional<std::int64_t> next_deadline() {
        std::int64_t reading = 0;
        auto code = darbexum_next_deadline(&handle_, &reading);
        if (code == DARBEXUM_NONE) return std::nullopt;
        checked(code);
        return reading;
    }

    // Returns the last clock reading, or the opening time.
    std::int64_t time() {
        std::int64_t time = 0;
        checked(darbexum_time(&handle_, &time));
        return time;
    }

    // Returns the media time at which the next block begins: the first time whose gains can still change.
    std::int64_t next_block_start() {
        std::int64_t start = 0;
        checked(darbexum_next_block_start(&handle_, &start));
        return start;
    }

    // From `at` on these gains are in force, in units of 1/65,536, row by row: a row for each output channel. They replace
    // all that was to change from then on.
    void change_gains(std::int64_t at, const std::vector<std::int32_t> &gains) {
        const std::int32_t none = 0;
        checked(darbexum_change_gains(&handle_, at, gains.empty() ? &none : gains.data(), gains.size()));
    }

    bool settled() { return checked(darbexum_settled(&handle_)) == 1; }
    std::size_t streams() { return darbexum_streams(&handle_); }
    Output output() { return filled<Output>(darbexum_output); }
    Stream stream(std::size_t stream) { return filled<Stream>(darbexum_stream, stream); }
    Counts counts(std::size_t stream) { return filled<Counts>(darbexum_counts, stream); }
    PathCounts path_counts(std::size_t stream, std::uint8_t path) { return filled<PathCounts>(darbexum_path_counts, stream, path); }

    // Returns the number of saturated samples of an output channel so far.
    std::uint64_t saturated(std::size_t channel) {
        std::uint64_t count = 0;
        checked(darbexum_saturated(&handle_, channel, &count));
        return count;
    }

    // Returns the samples of all channels of all streams in the block of the last datagram, before any gain: frame by
    // frame, in each frame stream after stream. Call it in `give`, for each datagram. The samples are valid until the
    // next call of `inputs`. Only the first call allocates.
    Samples inputs() {
        if (inputs_.empty()) {
            std::size_t channels = 0;
            for (std::size_t at = 0; at < streams(); at++) channels += stream(at).channels;
            inputs_.resize(output().frames * channels);
        }
        auto len = checked(darbexum_inputs(&handle_, inputs_.data(), inputs_.size()));
        return Samples(inputs_.data(), std::size_t(len));
    }

    // Returns the streams that are missing in the block of the last datagram. Call it in `give` too.
    Missing missing() {
        std::size_t count = 0;
        bool is_empty = checked(darbexum_missing(&handle_, &count)) == 1;
        return Missing{count, is_empty};
    }

private:
    template <class Code> static Code checked(Code code) {
        if (code < 0) throw Error(std::int32_t(code));
        return code;
    }
    template <class Struct, class Call, class... Words> Struct filled(Call call, Words... words) {
        Struct found{};
        found.size = sizeof found;
        checked(call(&handle_, words..., &found));
        return found;
    }

    ::darbexum handle_ = DARBEXUM_EMPTY;
    std::array<std::uint8_t, DARBEXUM_MAX_OCTETS> out_;
    std::vector<std::int32_t> inputs_;
};

// Returns the version of the library: an octet each for the three numbers.
inline std::uint32_t version() { return darbexum_version(); }

} // namespace Darbexum
