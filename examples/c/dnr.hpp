// The engine for C++: an engine that ends itself. The header `dnr.h` says what is called when.
#ifndef DNR_HPP
#define DNR_HPP

#include "dnr.h"
#include <algorithm>
#include <stdexcept>
#include <string>
#include <string_view>
#include <utility>
#include <vector>

namespace dnr {

// An engine is not opened, or a line is not answered.
struct refused : std::runtime_error {
    uint32_t code;

    refused(uint32_t code, const std::string &line) : std::runtime_error(line.empty() ? "dnr: code " + std::to_string(code) : line), code(code) {}
};

// A file in memory, by its name.
struct file {
    std::string_view name, bytes;
};

class engine {
public:
    // Opens an engine over these files, as the words say that follow the name of the program `dnr`.
    engine(const std::vector<std::string_view> &words, const std::vector<file> &files) : out(1 << 16, '\0') {
        std::vector<dnr_text> texts{dnr_text{bytes_of(""), 0}};
        std::vector<dnr_file> given{dnr_file{bytes_of(""), 0, bytes_of(""), 0}};
        texts.pop_back(), given.pop_back();
        for (auto word : words) texts.push_back({bytes_of(word), word.size()});
        for (auto &it : files) given.push_back({bytes_of(it.name), it.name.size(), bytes_of(it.bytes), it.bytes.size()});
        size_t length = 0;
        uint32_t code = dnr_open(texts.data(), texts.size(), given.data(), given.size(), &seat, room(), out.size(), &length);
        if (code != DNR_DONE) throw refused(code, code == DNR_REFUSED && length <= out.size() ? out.substr(0, length) : "");
    }

    engine(engine &&other) noexcept : seat(std::exchange(other.seat, dnr_engine{})), out(std::move(other.out)) {}
    engine(const engine &) = delete;
    engine &operator=(engine other) noexcept {
        std::swap(seat, other.seat);
        std::swap(out, other.out);
        return *this;
    }
    ~engine() { dnr_close(&seat); }

    // The answer to a line of a script. It is valid until the next call.
    std::string_view ask(std::string_view line, uint32_t number = 1) {
        for (;;) {
            size_t length = 0;
            uint32_t code = dnr_ask(&seat, number, bytes_of(line), line.size(), room(), out.size(), &length);
            if (code == DNR_DONE) return std::string_view(out).substr(0, length);
            if (code != DNR_NO_ROOM) throw refused(code, "");
            out.resize(length);
        }
    }

    // What becomes of a request that is given by its parts. It, its changes and its texts are valid until the next call.
    const dnr_verdict &decide(const dnr_request &request) {
        for (;;) {
            uint32_t code = dnr_decide(&seat, &request, &verdict, changes.data(), changes.size(), room(), out.size());
            if (code == DNR_DONE) return verdict;
            if (code != DNR_NO_ROOM) throw refused(code, "");
            out.resize(std::max(out.size(), verdict.bytes));
            changes.resize(std::max(changes.size(), verdict.changes));
        }
    }
    const dnr_change &change(size_t place) const { return changes[place]; }
    std::string_view text(dnr_span span) const { return std::string_view(out).substr(span.from, span.length); }

    // A second engine on the state as it stands, for another thread.
    engine share() {
        engine other;
        uint32_t code = dnr_share(&seat, &other.seat);
        if (code != DNR_DONE) throw refused(code, "");
        return other;
    }

private:
    engine() : out(1 << 16, '\0') {}

    static const uint8_t *bytes_of(std::string_view text) { return reinterpret_cast<const uint8_t *>(text.data() ? text.data() : ""); }
    uint8_t *room() { return reinterpret_cast<uint8_t *>(&out[0]); }

    dnr_engine seat = {};
    std::string out;
    dnr_verdict verdict = {};
    std::vector<dnr_change> changes = std::vector<dnr_change>(64);
};

}  // namespace dnr

#endif
