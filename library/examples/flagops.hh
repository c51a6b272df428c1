// What a program in C++17 can take of flagops.h: a seat that closes itself, and answers as values.
#ifndef FLAGOPS_HH
#define FLAGOPS_HH
#include "flagops.h"
#include <optional>
#include <stdexcept>
#include <string>
#include <string_view>
#include <utility>

namespace flagops {

struct Refused : std::runtime_error {
    std::uint32_t number;
    explicit Refused(std::uint32_t n) : std::runtime_error("flagops: refused with " + std::to_string(n)), number(n) {}
};

struct Answer {
    std::string value;
    std::optional<std::string> variant;
    std::uint32_t reason, code;
};

// A seat, which is moved and never copied. One thread at a time calls it.
class Seat {
public:
    Seat() { must(flagops_new(&seat)); }
    Seat(Seat &&other) noexcept : seat(std::exchange(other.seat, FLAGOPS_NONE)) {}
    Seat &operator=(Seat &&other) noexcept {
        if (this != &other) { flagops_close(&seat); seat = std::exchange(other.seat, FLAGOPS_NONE); }
        return *this;
    }
    Seat(const Seat &) = delete;
    Seat &operator=(const Seat &) = delete;
    ~Seat() { flagops_close(&seat); }

    void open(std::string_view document) { must(flagops_open(&seat, bytes(document), document.size())); }

    Answer resolve(std::string_view key, std::uint32_t kind, std::string_view fallback, std::string_view context, std::uint64_t moment = 0) {
        std::string out(256, '\0');
        std::size_t written;
        flagops_details details;
        for (;;) {
            auto number = flagops_resolve(&seat, bytes(key), key.size(), kind, bytes(fallback), fallback.size(), bytes(context), context.size(), moment,
                                          reinterpret_cast<std::uint8_t *>(out.data()), out.size(), &written, &details);
            if (number != FLAGOPS_ROOM) { must(number); break; }
            out.resize(written);
        }
        std::optional<std::string> variant;
        if (details.has_variant) variant = out.substr(details.value, written - details.value);
        return { out.substr(0, details.value), variant, details.reason, details.code };
    }

private:
    flagops_seat seat = FLAGOPS_NONE;
    static const std::uint8_t *bytes(std::string_view text) { return reinterpret_cast<const std::uint8_t *>(text.empty() ? "" : text.data()); }
    static void must(std::uint32_t number) { if (number != FLAGOPS_OK) throw Refused(number); }
};

} // namespace flagops
#endif
