// libroman for C++17: a shelf and a session that release their memory themselves. roman.h describes the calls.
#ifndef ROMAN_HPP
#define ROMAN_HPP

#include "roman.h"

#include <algorithm>
#include <cstddef>
#include <new>
#include <stdexcept>
#include <string>
#include <string_view>
#include <utility>

namespace roman {

namespace detail {

// The bytes of a text. The pointer is never null.
inline const std::uint8_t *bytes(std::string_view text) {
    return reinterpret_cast<const std::uint8_t *>(text.empty() ? "" : text.data());
}

// A handle that can be moved, but not copied.
template <class Handle, void (*Free)(Handle *)>
class Owner {
  public:
    Owner() = default;
    Owner(Owner &&other) noexcept : handle_(std::exchange(other.handle_, Handle ROMAN_NONE)) {}
    Owner &operator=(Owner &&other) noexcept {
        std::swap(handle_, other.handle_);
        return *this;
    }
    ~Owner() { Free(&handle_); }

  protected:
    Handle handle_ = ROMAN_NONE;
};

}  // namespace detail

// A reply and its status: ROMAN_OK, ROMAN_QUIT, ROMAN_NO or a refusal.
struct Reply {
    std::uint32_t status;
    std::string text;
    explicit operator bool() const { return status == ROMAN_OK; }
};

class Shelf;
Reply synth(Shelf &shelf, std::string_view name);
Reply check(Shelf &shelf, std::string_view name, std::string_view certificate);

// A document that can't be opened. what() is the program's line, if there is one.
class Refused : public std::runtime_error {
  public:
    Refused(std::uint32_t status, const std::string &why) : std::runtime_error(why), status(status) {}
    const std::uint32_t status;
};

// Texts by their names.
class Shelf : public detail::Owner<roman_shelf, roman_clear> {
  public:
    // Adds a text. Throws std::bad_alloc, or std::invalid_argument if the name isn't UTF-8.
    void add(std::string_view name, std::string_view text) {
        const auto status = roman_add(&handle_, detail::bytes(name), name.size(), detail::bytes(text), text.size());
        if (status == ROMAN_MEMORY) throw std::bad_alloc();
        if (status != ROMAN_OK) throw std::invalid_argument("a name isn't UTF-8");
    }

  private:
    friend class Session;
    friend Reply synth(Shelf &shelf, std::string_view name);
    friend Reply check(Shelf &shelf, std::string_view name, std::string_view certificate);
};

// A session of a document.
class Session : public detail::Owner<roman_session, roman_close> {
  public:
    // Opens the document of that name on the shelf. Throws Refused or std::bad_alloc.
    Session(Shelf &shelf, std::string_view name) {
        succeed(roman_open(&handle_, &shelf.handle_, detail::bytes(name), name.size()));
    }

    // Answers a line. Throws std::bad_alloc, or std::logic_error if the session was moved elsewhere.
    Reply answer(std::string_view line) {
        const auto status = roman_answer(&handle_, detail::bytes(line), line.size());
        if (status == ROMAN_MEMORY) throw std::bad_alloc();
        if (status == ROMAN_CLOSED) throw std::logic_error("no session is open");
        return {status, reply()};
    }

  private:
    friend Reply synth(Shelf &shelf, std::string_view name);
    friend Reply check(Shelf &shelf, std::string_view name, std::string_view certificate);

    Session() = default;

    // Throws the error of a call on a document if the status is one.
    void succeed(std::uint32_t status) {
        if (status == ROMAN_MEMORY) throw std::bad_alloc();
        if (status == ROMAN_MISSING) throw Refused(status, "a text is missing");
        if (status == ROMAN_NOT_UTF8) throw Refused(status, "a name isn't UTF-8");
        if (status == ROMAN_TOO_LONG) throw Refused(status, "the certificate is too long");
        if (status == ROMAN_REFUSED || status == ROMAN_LIMIT) throw Refused(status, reply());
    }

    std::string reply() {
        std::uint8_t first[256];
        const auto length = roman_reply(&handle_, 0, first, sizeof first);
        std::string text(length, '\0');
        text.replace(0, sizeof first, reinterpret_cast<const char *>(first), std::min(length, sizeof first));
        if (length > sizeof first)
            roman_reply(&handle_, sizeof first, reinterpret_cast<std::uint8_t *>(&text[sizeof first]), length - sizeof first);
        return text;
    }
};

// The report on the document of that name, as `roman synth` writes it, with ROMAN_OK or ROMAN_NO. Throws Refused or
// std::bad_alloc.
inline Reply synth(Shelf &shelf, std::string_view name) {
    Session none;
    const auto status = roman_synth(&none.handle_, &shelf.handle_, detail::bytes(name), name.size());
    none.succeed(status);
    return {status, none.reply()};
}

// The verdict on the certificate of that name, as `roman check` writes it, with ROMAN_OK or ROMAN_NO. Throws Refused or
// std::bad_alloc.
inline Reply check(Shelf &shelf, std::string_view name, std::string_view certificate) {
    Session none;
    const auto status = roman_check(&none.handle_, &shelf.handle_, detail::bytes(name), name.size(),
                                    detail::bytes(certificate), certificate.size());
    none.succeed(status);
    return {status, none.reply()};
}

}  // namespace roman

#endif
