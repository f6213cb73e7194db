// jskw for C++17, over jskw.h: a schema that frees itself, texts as strings, and an exception for what is no verdict.
#ifndef JSKW_HPP
#define JSKW_HPP

#include <new>
#include <stdexcept>
#include <string>
#include <string_view>
#include <utility>
#include <vector>

#include "jskw.h"

namespace jskw {

// Why there is no verdict: the status, and the text that jskw.h names for it. If memory runs out, it is std::bad_alloc.
class Failure : public std::runtime_error {
public:
    Failure(uint32_t why, const std::string &words)
        : std::runtime_error(jskw_status_name(why) + (words.empty() ? words : ": " + words)), status(why),
          text(words) {}

    uint32_t status;
    std::string text;
};

// An error: the words that jskw.h has for jskw_first_error.
struct Error {
    std::string keyword, instance_location, keyword_location, message, expected;
};

namespace detail {

inline const uint8_t *bytes(std::string_view text) {
    return reinterpret_cast<const uint8_t *>(text.empty() ? "" : text.data());
}

// The text of a call, which gets a buffer that is large enough. Any status but these two is an exception.
template <class Call> std::pair<uint32_t, std::string> text_of(Call call) {
    std::string text(256, '\0');
    for (;;) {
        size_t length = 0;
        uint32_t status = call(reinterpret_cast<uint8_t *>(&text[0]), text.size(), &length);
        if (status == JSKW_NO_MEMORY) throw std::bad_alloc();
        if (status != JSKW_TOO_SMALL) text.resize(length);
        if (status == JSKW_VALID || status == JSKW_INVALID) return {status, std::move(text)};
        if (status != JSKW_TOO_SMALL) throw Failure(status, text);
        text.resize(length);
    }
}

// The lines of a text, each as its words.
inline std::vector<std::vector<std::string>> lines(const std::string &text) {
    std::vector<std::vector<std::string>> found;
    std::vector<std::string> words(1);
    for (size_t at = 0; at < text.size(); at++) {
        if (text[at] == '\n') found.push_back(std::exchange(words, std::vector<std::string>(1)));
        else if (text[at] == '\t') words.emplace_back();
        else if (text[at] != '\\') words.back() += text[at];
        else words.back() += text[++at] == 't' ? '\t' : text[at] == 'n' ? '\n' : '\\';
    }
    return found;
}

} // namespace detail

// A compiled schema. It is in one call at a time; `share` makes another one for another thread, without a compile.
class Schema {
public:
    explicit Schema(std::string_view schema, uint32_t draft = 2020, uint32_t vocabularies = JSKW_ALL,
                    std::string_view overridden = "[]") {
        detail::text_of([&](uint8_t *buffer, size_t size, size_t *length) {
            return jskw_compile(draft, vocabularies, detail::bytes(overridden), overridden.size(),
                                detail::bytes(schema), schema.size(), &handle, buffer, size, length);
        });
    }
    Schema(Schema &&other) noexcept : handle(std::exchange(other.handle, empty())) {}
    Schema &operator=(Schema &&other) noexcept {
        std::swap(handle, other.handle);
        return *this;
    }
    ~Schema() { jskw_free(&handle); }

    Schema share() {
        Schema other;
        uint32_t status = jskw_share(&handle, &other.handle);
        if (status == JSKW_NO_MEMORY) throw std::bad_alloc();
        if (status != JSKW_VALID) throw Failure(status, "");
        return other;
    }

    bool is_valid(std::string_view instance) {
        uint32_t status = jskw_is_valid(&handle, detail::bytes(instance), instance.size());
        if (status == JSKW_NO_MEMORY) throw std::bad_alloc();
        // with the text that says where
        return status == JSKW_VALID || (status != JSKW_INVALID && errors(instance, 1).empty());
    }

    // All errors, or the first ones if `limit` is not 0.
    std::vector<Error> errors(std::string_view instance, uint64_t limit = 0) {
        auto text = detail::text_of([&](uint8_t *buffer, size_t size, size_t *length) {
            return jskw_errors(&handle, detail::bytes(instance), instance.size(), limit, buffer, size, length);
        });
        std::vector<Error> found;
        for (auto &words : detail::lines(text.second)) {
            // a later version may add words
            words.resize(5);
            found.push_back({words[0], words[1], words[2], words[3], words[4]});
        }
        return found;
    }

    // The evaluation tree, as JSON.
    std::string evaluate(std::string_view instance) {
        return detail::text_of([&](uint8_t *buffer, size_t size, size_t *length) {
            return jskw_evaluate(&handle, detail::bytes(instance), instance.size(), buffer, size, length);
        }).second;
    }

private:
    Schema() = default;
    static jskw_schema empty() { return JSKW_SCHEMA_EMPTY; }
    jskw_schema handle = JSKW_SCHEMA_EMPTY;
};

} // namespace jskw

#endif
