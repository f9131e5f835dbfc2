/* Unicode locale identifiers for C++17: a thin header over icu_locale.h, whose library is proved. This header is not.
 *
 *     std::string normal = icu_locale::normalize("EN-us-u-ca-Buddhist");  // "en-US-u-ca-buddhist"
 *     if (auto made = icu_locale::try_normalize("en-"); !made)
 *         std::cerr << icu_locale::words(made.status());                  // "Invalid subtag"
 *     for (const std::string &it : icu_locale::normalize_many(std::vector{"EN-us", "DE"}))
 *         std::cout << it;                                                // "en-US", then "de"
 *
 *     icu_locale::locale locale("en-US");
 *     locale.set_region("GB");
 *     locale.set_keyword("ca", "buddhist");
 *     std::cout << locale;                                                // "en-GB-u-ca-buddhist"
 *
 * Functions whose names begin with try_ throw nothing but std::bad_alloc. The others throw icu_locale::error for a
 * refused text, and for a number that is no mode and no priority. Out of memory is std::bad_alloc in both. What threw
 * has changed nothing.
 *
 * Before main, or as it is loaded, a program asks once whether the library was made for this header. If it was not, the
 * program says so and ends, by std::abort: no other call is made.
 *
 * Functions on texts may be called from any number of threads. So may the const members of a locale, as of any class of
 * the standard library: many threads may read one locale at the same time, while none changes it.
 *
 * A program without exceptions (-fno-exceptions) ends, by std::abort, where another one would see one thrown. */
#ifndef ICU_LOCALE_HPP
#define ICU_LOCALE_HPP

#if __cplusplus < 201703L && (!defined(_MSVC_LANG) || _MSVC_LANG < 201703L)
#error "icu_locale.hpp needs C++17: compile with -std=c++17, or include icu_locale.h"
#endif

#include "icu_locale.h"

#if __cplusplus >= 202002L
#include <compare>
#endif
#include <cstdint>
#include <cstdio>
#include <cstdlib>
#if __cplusplus >= 202002L && __has_include(<format>)
#include <format>
#endif
#include <functional>
#include <memory>
#include <new>
#include <optional>
#include <ostream>
#include <stdexcept>
#include <string>
#include <string_view>
#include <utility>
#include <vector>

namespace icu_locale {

/* Whether the library that is linked or loaded was made for this header. */
inline bool is_of_this_version() noexcept
{
    return icu_locale_version() == ICU_LOCALE_VERSION;
}

#if defined(__clang__)
#pragma clang diagnostic push
#pragma clang diagnostic ignored "-Wglobal-constructors" // it is to be asked before main
#endif

namespace detail {

inline const bool is_asked = [] {
    if (!is_of_this_version()) {
        std::fputs("icu_locale.hpp: libicu_locale was made for another header\n", stderr);
        std::abort();
    }
    return true;
}();

} // namespace detail

#if defined(__clang__)
#pragma clang diagnostic pop
#endif

/* How a text is parsed. */
enum class mode : icu_locale_mode {
    identifier = ICU_LOCALE_IDENTIFIER,
    locale = ICU_LOCALE_LOCALE,
    data_locale = ICU_LOCALE_DATA_LOCALE
};

/* Which region a data locale has: as icu_locale_priority. */
enum class priority : icu_locale_priority { language = ICU_LOCALE_BY_LANGUAGE, region = ICU_LOCALE_BY_REGION };

/* How a call ends: the numbers of icu_locale.h. */
enum class status : icu_locale_status {
    done = ICU_LOCALE_DONE,
    invalid_language = ICU_LOCALE_INVALID_LANGUAGE,
    invalid_subtag = ICU_LOCALE_INVALID_SUBTAG,
    invalid_extension = ICU_LOCALE_INVALID_EXTENSION,
    duplicated_extension = ICU_LOCALE_DUPLICATED_EXTENSION,
    out_of_memory = ICU_LOCALE_OUT_OF_MEMORY,
    buffer_too_small = ICU_LOCALE_BUFFER_TOO_SMALL,
    unknown_number = ICU_LOCALE_UNKNOWN_NUMBER,
    not_found = ICU_LOCALE_NOT_FOUND
};

/* What a piece of a text is, or the end of the text: the bits of icu_locale.h. */
enum class kind : icu_locale_kinds {
    language = ICU_LOCALE_KIND_LANGUAGE,
    script = ICU_LOCALE_KIND_SCRIPT,
    region = ICU_LOCALE_KIND_REGION,
    variant = ICU_LOCALE_KIND_VARIANT,
    singleton = ICU_LOCALE_KIND_SINGLETON,
    attribute = ICU_LOCALE_KIND_ATTRIBUTE,
    key = ICU_LOCALE_KIND_KEY,
    value = ICU_LOCALE_KIND_VALUE,
    field = ICU_LOCALE_KIND_FIELD,
    other = ICU_LOCALE_KIND_OTHER,
    private_subtag = ICU_LOCALE_KIND_PRIVATE,
    field_value = ICU_LOCALE_KIND_FIELD_VALUE,
    end = ICU_LOCALE_KIND_END
};

/* A set of kinds. */
class kinds {
public:
    constexpr kinds() noexcept = default;
    constexpr explicit kinds(icu_locale_kinds bits) noexcept : bits_(bits) {}
    constexpr icu_locale_kinds bits() const noexcept { return bits_; }
    constexpr bool empty() const noexcept { return bits_ == 0; }
    constexpr bool contains(kind it) const noexcept { return (bits_ & static_cast<icu_locale_kinds>(it)) != 0; }
    friend constexpr bool operator==(kinds one, kinds other) noexcept { return one.bits_ == other.bits_; }
    friend constexpr bool operator!=(kinds one, kinds other) noexcept { return one.bits_ != other.bits_; }

private:
    icu_locale_kinds bits_ = 0;
};

/* What is usually meant by a refused text: the numbers of icu_locale.h, which says more. */
enum class hint : icu_locale_hint_number {
    none = ICU_LOCALE_NO_HINT,
    mark = ICU_LOCALE_HINT_MARK,
    blanks = ICU_LOCALE_HINT_BLANKS,
    system = ICU_LOCALE_HINT_SYSTEM,
    codeset = ICU_LOCALE_HINT_CODESET,
    underscores = ICU_LOCALE_HINT_UNDERSCORES
};

namespace detail {

/* The words that a call has of a number; these others if it has none. */
template <class Call> std::string words_by(Call call, std::uint32_t number, const char *others)
{
    std::uint8_t bytes[192];
    std::size_t length = 0;
    if (call(number, bytes, sizeof bytes, &length) != ICU_LOCALE_DONE)
        return others;
    return std::string(reinterpret_cast<const char *>(bytes), length);
}

} // namespace detail

/* The words of a status, such as "Invalid subtag". */
inline std::string words(status told)
{
    return detail::words_by(icu_locale_words, static_cast<icu_locale_status>(told), "Unknown status");
}

/* The words of a set of kinds, such as "a script, a region, a variant or an extension". */
inline std::string words(kinds set)
{
    return detail::words_by(icu_locale_expected_words, set.bits(), "Unknown kinds");
}

/* The words of a hint, such as "use hyphens in place of underscores". Those of hint::none are empty. */
inline std::string words(hint meant)
{
    return detail::words_by(icu_locale_hint_words, static_cast<icu_locale_hint_number>(meant), "");
}

namespace detail {

/* Throws it; ends a program that has no exceptions. */
template <class Thrown> [[noreturn]] inline void raise(const Thrown &it)
{
#if defined(__cpp_exceptions)
    throw it;
#else
    static_cast<void>(it);
    std::abort();
#endif
}

/* What an error says: the words of the status; the text in quotes, at most 64 bytes of it, and what is no printable
 * ASCII as \xNN; where its fault stands, unless all of it is at fault; what may stand there; and what to do. */
inline std::string message(
    status told, std::string_view text, std::size_t start, std::size_t end, kinds may_stand, hint meant)
{
    const char digits[] = "0123456789abcdef";
    std::string said = words(told) + ": '";
    for (const char it : text.substr(0, 64)) {
        const auto byte = static_cast<unsigned char>(it);
        if (byte >= 32 && byte < 127 && it != '\'' && it != '\\')
            said += it;
        else
            said.append("\\x").append(1, digits[byte >> 4]).append(1, digits[byte & 15]);
    }
    said += text.size() > 64 ? "'..." : "'";
    if (end - start != text.size())
        said += " at " + std::to_string(start) + ".." + std::to_string(end);
    if (!may_stand.empty())
        said += ": " + words(may_stand) + " may stand here";
    if (meant != hint::none)
        said += "; " + words(meant);
    return said;
}

} // namespace detail

#if defined(__clang__)
#pragma clang diagnostic push
#pragma clang diagnostic ignored "-Wweak-vtables" // a header has no other file for its table
#endif

/* A refused text, or a refused number. what() has the words of the status, the text, the place of the fault unless all of
 * it is at fault, what may stand there, and what is usually meant, if that is known. Of en-US-foo it is
 *
 *     Invalid subtag: 'en-US-foo' at 6..9: a variant or an extension may stand here
 *
 * The fault goes from byte start() to before byte end(), as find_fault says. expected() is the set of kinds that may stand
 * at start(), and hint() what is usually meant. A part that is refused is all at fault, and has neither. */
class error : public std::invalid_argument {
public:
    explicit error(icu_locale::status told)
        : std::invalid_argument(words(told)), told_(told), hint_(icu_locale::hint::none), start_(0), end_(0)
    {
    }
    error(icu_locale::status told, std::string_view text) : error(told, text, 0, text.size()) {}
    error(icu_locale::status told, std::string_view text, std::size_t start, std::size_t end, kinds may_stand = {},
        icu_locale::hint meant = icu_locale::hint::none)
        : std::invalid_argument(detail::message(told, text, start, end, may_stand, meant)), told_(told),
          expected_(may_stand), hint_(meant), start_(start), end_(end)
    {
    }
    icu_locale::status status() const noexcept { return told_; }
    std::size_t start() const noexcept { return start_; }
    std::size_t end() const noexcept { return end_; }
    kinds expected() const noexcept { return expected_; }
    icu_locale::hint hint() const noexcept { return hint_; }

private:
    icu_locale::status told_;
    kinds expected_;
    icu_locale::hint hint_;
    std::size_t start_, end_;
};

#if defined(__clang__)
#pragma clang diagnostic pop
#endif

/* A value, or why there is none. value() and * throw icu_locale::error if there is none. Of a temporary result they give
 * the value itself, which outlives it. */
template <class T> class [[nodiscard]] result {
public:
    result(T value) : value_(std::move(value)), told_(icu_locale::status::done) {}
    result(icu_locale::status told) : value_(), told_(told) {}
    explicit operator bool() const noexcept { return told_ == icu_locale::status::done; }
    icu_locale::status status() const noexcept { return told_; }
    const T &value() const &
    {
        if (!*this)
            detail::raise(error(told_));
        return value_;
    }
    T value() &&
    {
        if (!*this)
            detail::raise(error(told_));
        return std::move(value_);
    }
    const T &operator*() const & { return value(); }
    T operator*() && { return std::move(*this).value(); }
    const T *operator->() const { return &value(); }

private:
    T value_;
    icu_locale::status told_;
};

namespace detail {

inline const std::uint8_t *bytes(std::string_view text) noexcept
{
    return reinterpret_cast<const std::uint8_t *>(text.data());
}

/* The status of a call, out of memory as std::bad_alloc. */
inline status told(icu_locale_status number)
{
    if (number == ICU_LOCALE_OUT_OF_MEMORY)
        raise(std::bad_alloc());
    return static_cast<status>(number);
}

} // namespace detail

/* Why a text is refused, and where: the piece at fault goes from byte start to before byte end. */
struct fault {
    icu_locale::status status;
    std::size_t start, end;
};

/* The fault of the text, or nothing if the text has a meaning. It stands at the first piece that no text with a meaning
 * has right after the pieces before it, or at the end of a text that ends too early: icu_locale.h says more. */
[[nodiscard]] inline std::optional<fault> find_fault(std::string_view text, mode as = mode::locale) noexcept
{
    fault found = {status::done, 0, text.size()};
    found.status = static_cast<status>(icu_locale_find_fault(
        static_cast<icu_locale_mode>(as), detail::bytes(text), text.size(), &found.start, &found.end));
    return found.status == status::done ? std::nullopt : std::optional<fault>(found);
}

/* Which kinds of pieces may stand at this byte of the text, such as the start of its fault. None if there is no such
 * mode. */
[[nodiscard]] inline kinds expected(std::string_view text, std::size_t place, mode as = mode::locale) noexcept
{
    icu_locale_kinds found = 0;
    const icu_locale_status told =
        icu_locale_expected(static_cast<icu_locale_mode>(as), detail::bytes(text), text.size(), place, &found);
    return told == ICU_LOCALE_DONE ? kinds(found) : kinds();
}

/* What is usually meant by a refused text, such as en_US; hint::none of a text that has a meaning. */
[[nodiscard]] inline hint find_hint(std::string_view text, mode as = mode::locale) noexcept
{
    icu_locale_hint_number found = ICU_LOCALE_NO_HINT;
    const icu_locale_status told =
        icu_locale_hint(static_cast<icu_locale_mode>(as), detail::bytes(text), text.size(), &found);
    return told == ICU_LOCALE_DONE ? static_cast<hint>(found) : hint::none;
}

namespace detail {

/* Throws the error of a text that was refused in the mode. */
[[noreturn]] inline void refuse(status told, std::string_view text, mode as)
{
    const auto found = find_fault(text, as);
    if (!found)
        raise(error(told, text));
    const kinds may_stand = expected(text, found->start, as);
    raise(error(told, text, found->start, found->end, may_stand, find_hint(text, as)));
}

/* The value, or the error with the text that was refused. */
template <class T> T value_of(result<T> made, std::string_view text, mode as)
{
    if (!made)
        refuse(made.status(), text, as);
    return std::move(made).value();
}

} // namespace detail

/* The normal form of the text, or why it has none. */
inline result<std::string> try_normalize(std::string_view text, mode as = mode::locale)
{
    std::string normal(text.size() + 4, '\0');
    std::size_t needed = 0;
    const status told = detail::told(icu_locale_normalize(static_cast<icu_locale_mode>(as), detail::bytes(text),
        text.size(), reinterpret_cast<std::uint8_t *>(normal.data()), normal.size(), &needed));
    if (told != status::done)
        return told;
    normal.resize(needed);
    return normal;
}

inline std::string normalize(std::string_view text, mode as = mode::locale)
{
    return detail::value_of(try_normalize(text, as), text, as);
}

/* status::done if the text has a meaning; otherwise why it has none. */
[[nodiscard]] inline status check(std::string_view text, mode as = mode::locale)
{
    return detail::told(icu_locale_check(static_cast<icu_locale_mode>(as), detail::bytes(text), text.size()));
}

namespace detail {

/* The first line, without the newline that it ends with; what is left begins behind that. */
inline std::string_view next_line(std::string_view &left)
{
    const std::size_t end = left.find('\n');
    const std::string_view line = left.substr(0, end);
    left.remove_prefix(end + 1);
    return line;
}

/* Many texts, which are given to the library as lines of one text, some thousands at once. */
class column {
public:
    explicit column(mode as) : as_(as) {}
    void add(std::string_view text)
    {
        if (text.find('\n') != std::string_view::npos) { // it cannot be a line
            answer();
            made_.push_back(try_normalize(text, as_));
            return;
        }
        if (lines_.size() >= 65536)
            answer();
        lines_.append(text).append(1, '\n');
        count_++;
    }
    std::vector<result<std::string>> made()
    {
        answer();
        return std::move(made_);
    }

private:
    /* Adds the normal form of each line, or why it has none, and forgets the lines. An answer has at most 39 bytes more
     * than its line. */
    void answer()
    {
        const std::size_t room = lines_.size() + 39 * count_;
        const std::unique_ptr<char[]> answers(new char[room]);
        std::size_t needed = 0;
        const status ended = told(icu_locale_normalize_lines(static_cast<icu_locale_mode>(as_), bytes(lines_),
            lines_.size(), reinterpret_cast<std::uint8_t *>(answers.get()), room, &needed));
        std::string_view lines = lines_, normals(answers.get(), needed);
        for (; count_ > 0; count_--) {
            const std::string_view line = next_line(lines), normal = next_line(normals);
            if (normal.empty() || normal.front() == '!')
                made_.push_back(ended == status::done ? check(line, as_) : ended);
            else
                made_.push_back(std::string(normal));
        }
        lines_.clear();
    }

    mode as_;
    std::string lines_;
    std::size_t count_ = 0;
    std::vector<result<std::string>> made_;
};

} // namespace detail

/* The normal form of each text, or why it has none: what try_normalize gives of each, in a part of its time. The texts are a
 * container, or another range that can be gone through twice, of what a string_view can be made of. */
template <class Texts> std::vector<result<std::string>> try_normalize_many(const Texts &texts, mode as = mode::locale)
{
    detail::column made(as);
    for (const auto &text : texts)
        made.add(text);
    return made.made();
}

/* The same; it throws the error of the first text that is refused. */
template <class Texts> std::vector<std::string> normalize_many(const Texts &texts, mode as = mode::locale)
{
    std::vector<result<std::string>> made = try_normalize_many(texts, as);
    std::vector<std::string> normals;
    normals.reserve(made.size());
    for (const auto &text : texts)
        normals.push_back(detail::value_of(std::move(made[normals.size()]), text, as));
    return normals;
}

/* The byte order of the text's normal form against other bytes, which are not normalized: -1, 0 or 1. */
inline result<int> try_strict_cmp(std::string_view text, std::string_view other, mode as = mode::locale)
{
    std::int8_t order = 0;
    const status told = detail::told(icu_locale_strict_cmp(static_cast<icu_locale_mode>(as), detail::bytes(text),
        text.size(), detail::bytes(other), other.size(), &order));
    return told == status::done ? result<int>(static_cast<int>(order)) : result<int>(told);
}

inline int strict_cmp(std::string_view text, std::string_view other, mode as = mode::locale)
{
    return detail::value_of(try_strict_cmp(text, other, as), text, as);
}

/* Whether both texts have the same meaning. */
inline result<bool> try_normalizing_eq(std::string_view text, std::string_view other, mode as = mode::locale)
{
    std::uint8_t same = 0;
    const status told = detail::told(icu_locale_normalizing_eq(static_cast<icu_locale_mode>(as), detail::bytes(text),
        text.size(), detail::bytes(other), other.size(), &same));
    return told == status::done ? result<bool>(same == 1) : result<bool>(told);
}

inline bool normalizing_eq(std::string_view text, std::string_view other, mode as = mode::locale)
{
    return detail::value_of(try_normalizing_eq(text, other, as), text, as);
}

/* The byte order of the normal forms of both texts: -1, 0 or 1. */
inline result<int> try_compare(std::string_view text, std::string_view other, mode as = mode::locale)
{
    std::int8_t order = 0;
    const status told = detail::told(icu_locale_compare(static_cast<icu_locale_mode>(as), detail::bytes(text),
        text.size(), detail::bytes(other), other.size(), &order));
    return told == status::done ? result<int>(static_cast<int>(order)) : result<int>(told);
}

inline int compare(std::string_view text, std::string_view other, mode as = mode::locale)
{
    const auto order = try_compare(text, other, as);
    return order ? *order : detail::value_of(order, check(text, as) == status::done ? other : text, as);
}

namespace detail {

/* What a call writes into a room of so many bytes, or its status. */
template <class Call> result<std::string> written(std::size_t room, const Call &call)
{
    std::string text(room, '\0');
    std::size_t needed = 0;
    const status ended = told(call(reinterpret_cast<std::uint8_t *>(text.data()), room, &needed));
    if (ended != status::done)
        return ended;
    text.resize(needed);
    return text;
}

/* The part that a call gives of a text. It is at most four bytes longer than the text. */
template <class Call> result<std::string> part_of(Call call, std::string_view text, mode as)
{
    return written(text.size() + 4, [&](std::uint8_t *at, std::size_t room, std::size_t *needed) {
        return call(static_cast<icu_locale_mode>(as), bytes(text), text.size(), at, room, needed);
    });
}

/* The part, if there is one; it throws the error of a text that is refused. */
inline std::optional<std::string> found(result<std::string> made, std::string_view text, mode as)
{
    if (made.status() == status::not_found)
        return std::nullopt;
    return value_of(std::move(made), text, as);
}

inline std::optional<std::string> unless_empty(std::string part)
{
    return part.empty() ? std::nullopt : std::optional<std::string>(std::move(part));
}

} // namespace detail

/* Parts of what a text means, without a locale in memory. The language is und if it is unknown; variants are joined by
 * hyphens. */
inline std::string base_name_of(std::string_view text, mode as = mode::locale)
{
    return detail::value_of(detail::part_of(icu_locale_base_name_of, text, as), text, as);
}

inline std::string language_of(std::string_view text, mode as = mode::locale)
{
    return detail::value_of(detail::part_of(icu_locale_language_of, text, as), text, as);
}

inline std::optional<std::string> script_of(std::string_view text, mode as = mode::locale)
{
    return detail::unless_empty(detail::value_of(detail::part_of(icu_locale_script_of, text, as), text, as));
}

inline std::optional<std::string> region_of(std::string_view text, mode as = mode::locale)
{
    return detail::unless_empty(detail::value_of(detail::part_of(icu_locale_region_of, text, as), text, as));
}

inline std::string variants_of(std::string_view text, mode as = mode::locale)
{
    return detail::value_of(detail::part_of(icu_locale_variants_of, text, as), text, as);
}

/* The value of the keyword with this key, in any case, if there is one. */
inline std::optional<std::string> keyword_of(std::string_view text, std::string_view key, mode as = mode::locale)
{
    auto call = [&](std::uint8_t *at, std::size_t room, std::size_t *needed) {
        return icu_locale_keyword_of(static_cast<icu_locale_mode>(as), detail::bytes(text), text.size(),
            detail::bytes(key), key.size(), at, room, needed);
    };
    return detail::found(detail::written(text.size() + 4, call), text, as);
}

/* The parent: without extensions; or else without the last variant, the region, the script; or und, which has none. */
inline std::optional<std::string> parent(std::string_view text, mode as = mode::locale)
{
    return detail::found(detail::part_of(icu_locale_parent, text, as), text, as);
}

/* Whether the range stands for the locale, both in any spelling: RFC 4647, section 3.3.2, with und for its wildcard. */
inline result<bool> try_matches(std::string_view text, std::string_view range)
{
    std::uint8_t same = 0;
    const status told = detail::told(
        icu_locale_matches(detail::bytes(text), text.size(), detail::bytes(range), range.size(), &same));
    return told == status::done ? result<bool>(same == 1) : result<bool>(told);
}

inline bool matches(std::string_view text, std::string_view range)
{
    const auto same = try_matches(text, range);
    return same ? *same : detail::value_of(same, check(text) == status::done ? range : text, mode::locale);
}

/* What the name of a locale, as files and systems write it, is in the form of UTS #35: sr-Latn-RS of sr_RS@latin. */
inline std::string clean(std::string_view name)
{
    auto call = [&](std::uint8_t *at, std::size_t room, std::size_t *needed) {
        return icu_locale_clean(detail::bytes(name), name.size(), at, room, needed);
    };
    return detail::written(name.size() + 9, call).value();
}

/* A locale, with parts to read and to change. It starts as und, the unknown locale, and is und once it was moved from.
 * icu_locale.h says more of each call, at the call of that name. Texts may be in any case; parts are in their normal
 * form. An object owns memory unless it is und. */
class locale {
public:
    locale() noexcept = default;

    /* What the text means. */
    explicit locale(std::string_view text) { accept(try_assign(text), text, mode::locale); }

    static result<locale> try_parse(std::string_view text)
    {
        locale made;
        const icu_locale::status told = made.try_assign(text);
        return told == icu_locale::status::done ? result<locale>(std::move(made)) : result<locale>(told);
    }

    locale(const locale &from) { detail::told(icu_locale_copy(&held_, &from.held_)); }
    locale(locale &&from) noexcept : held_(from.held_) { from.held_.at = nullptr; }

    locale &operator=(const locale &from)
    {
        if (this != &from)
            detail::told(icu_locale_copy(&held_, &from.held_));
        return *this;
    }

    locale &operator=(locale &&from) noexcept
    {
        if (this != &from) {
            icu_locale_free(&held_);
            held_ = from.held_;
            from.held_.at = nullptr;
        }
        return *this;
    }

    ~locale() { icu_locale_free(&held_); }

    void swap(locale &other) noexcept { std::swap(held_.at, other.held_.at); }

    /* The locale becomes what the text means. */
    [[nodiscard]] icu_locale::status try_assign(std::string_view text)
    {
        return detail::told(icu_locale_parse(&held_, detail::bytes(text), text.size()));
    }

    locale &assign(std::string_view text)
    {
        accept(try_assign(text), text, mode::locale);
        return *this;
    }

    /* The whole. base_name is the identifier alone, without extensions. */
    bool is_und() const noexcept { return icu_locale_is_und(&held_); }
    bool is_well_formed() const noexcept { return icu_locale_is_well_formed(&held_); }
    std::uint64_t hash() const noexcept { return icu_locale_hash(&held_); }
    std::string to_string() const { return *read(icu_locale_to_string); }
    std::string base_name() const { return *read(icu_locale_get_base_name); }

    /* The language is und if it is unknown. An empty text clears a part. */
    std::string language() const { return *read(icu_locale_get_language); }
    std::optional<std::string> script() const { return unless_empty(read(icu_locale_get_script)); }
    std::optional<std::string> region() const { return unless_empty(read(icu_locale_get_region)); }
    [[nodiscard]] icu_locale::status try_set_language(std::string_view text)
    {
        return set(icu_locale_set_language, text);
    }
    void set_language(std::string_view text) { accept(try_set_language(text), text); }
    [[nodiscard]] icu_locale::status try_set_script(std::string_view text) { return set(icu_locale_set_script, text); }
    void set_script(std::string_view text) { accept(try_set_script(text), text); }
    [[nodiscard]] icu_locale::status try_set_region(std::string_view text) { return set(icu_locale_set_region, text); }
    void set_region(std::string_view text) { accept(try_set_region(text), text); }

    /* Variants, ascending. Removing tells whether there was one. */
    std::vector<std::string> variants() const { return list(icu_locale_variant_count, icu_locale_get_variant); }
    bool has_variant(std::string_view text) const noexcept
    {
        return icu_locale_has_variant(&held_, detail::bytes(text), text.size());
    }
    [[nodiscard]] icu_locale::status try_add_variant(std::string_view text)
    {
        return set(icu_locale_add_variant, text);
    }
    void add_variant(std::string_view text) { accept(try_add_variant(text), text); }
    bool remove_variant(std::string_view text) { return is_done(set(icu_locale_remove_variant, text)); }
    void clear_variants() { accept(detail::told(icu_locale_clear_variants(&held_))); }

    /* Keywords of the extension u, as pairs of key and value, by ascending key. The value of kn in en-u-kn is empty. */
    std::vector<std::pair<std::string, std::string>> keywords() const
    {
        return pairs(icu_locale_keyword_count, icu_locale_get_keyword_key, icu_locale_get_keyword_value);
    }

    /* The value of the keyword with this key, if there is one. */
    std::optional<std::string> keyword(std::string_view key) const { return read_by(icu_locale_get_keyword, key); }
    [[nodiscard]] icu_locale::status try_set_keyword(std::string_view key, std::string_view value = {})
    {
        return set(icu_locale_set_keyword, key, value);
    }
    void set_keyword(std::string_view key, std::string_view value = {})
    {
        accept(try_set_keyword(key, value), key, value);
    }
    bool remove_keyword(std::string_view key) { return is_done(set(icu_locale_remove_keyword, key)); }
    void clear_keywords() { accept(detail::told(icu_locale_clear_keywords(&held_))); }

    /* Attributes of the extension u, ascending. The calls are those of variants. */
    std::vector<std::string> attributes() const { return list(icu_locale_attribute_count, icu_locale_get_attribute); }
    bool has_attribute(std::string_view text) const noexcept
    {
        return icu_locale_has_attribute(&held_, detail::bytes(text), text.size());
    }
    [[nodiscard]] icu_locale::status try_add_attribute(std::string_view text)
    {
        return set(icu_locale_add_attribute, text);
    }
    void add_attribute(std::string_view text) { accept(try_add_attribute(text), text); }
    bool remove_attribute(std::string_view text) { return is_done(set(icu_locale_remove_attribute, text)); }
    void clear_attributes() { accept(detail::told(icu_locale_clear_attributes(&held_))); }

    /* The identifier of the extension t, such as de-Latn in en-t-de-latn, if there is one. An empty text removes it. */
    std::optional<std::string> transform_language() const { return read(icu_locale_get_transform_language); }
    [[nodiscard]] icu_locale::status try_set_transform_language(std::string_view text)
    {
        return set(icu_locale_set_transform_language, text);
    }
    void set_transform_language(std::string_view text)
    {
        accept(try_set_transform_language(text), text, mode::identifier);
    }

    /* Fields of the extension t, as pairs of key and value, by ascending key. */
    std::vector<std::pair<std::string, std::string>> fields() const
    {
        return pairs(icu_locale_field_count, icu_locale_get_field_key, icu_locale_get_field_value);
    }

    /* The value of the field with this key, if there is one. */
    std::optional<std::string> field(std::string_view key) const { return read_by(icu_locale_get_field, key); }
    [[nodiscard]] icu_locale::status try_set_field(std::string_view key, std::string_view value)
    {
        return set(icu_locale_set_field, key, value);
    }
    void set_field(std::string_view key, std::string_view value) { accept(try_set_field(key, value), key, value); }
    bool remove_field(std::string_view key) { return is_done(set(icu_locale_remove_field, key)); }
    void clear_fields() { accept(detail::told(icu_locale_clear_fields(&held_))); }

    /* The private extension with its x, such as x-a-b; empty if there is none. An empty text removes it. */
    std::string private_extension() const { return *read(icu_locale_get_private); }
    [[nodiscard]] icu_locale::status try_set_private_extension(std::string_view text)
    {
        return set(icu_locale_set_private, text);
    }
    void set_private_extension(std::string_view text) { accept(try_set_private_extension(text), text); }

    /* What formatters take from the keywords ca, hc and nu: islamic-civil from en-u-ca-islamicc. */
    std::optional<std::string> calendar_algorithm() const { return read(icu_locale_get_calendar_algorithm); }
    std::optional<std::string> hour_cycle() const { return read(icu_locale_get_hour_cycle); }
    std::optional<std::string> numbering_system() const { return read(icu_locale_get_numbering_system); }

    /* The order by parts, which is that of <: -1, 0 or 1. */
    int compare(const locale &other) const noexcept
    {
        return icu_locale_cmp(&held_, &other.held_);
    }

    /* The byte order of the normal form against other bytes, which are not normalized: -1, 0 or 1. */
    int strict_cmp(std::string_view other) const noexcept
    {
        return icu_locale_cmp_bytes(&held_, detail::bytes(other), other.size());
    }

    /* Whether the text means this locale. */
    bool normalizing_eq(std::string_view text) const
    {
        std::uint8_t same = 0;
        detail::told(icu_locale_eq_text(&held_, detail::bytes(text), text.size(), &same));
        return same == 1;
    }

    /* Other extensions, such as a-foo of en-a-foo, by their singleton, in either case. set_other takes the whole text,
     * which begins with the singleton. */
    bool has_other(char singleton) const noexcept
    {
        return icu_locale_has_other(&held_, static_cast<std::uint8_t>(singleton));
    }

    std::optional<std::string> other(char singleton) const
    {
        return read([singleton](const icu_locale_t *held, std::uint8_t *buffer, std::size_t room, std::size_t *needed) {
            return icu_locale_get_other(held, static_cast<std::uint8_t>(singleton), buffer, room, needed);
        });
    }

    [[nodiscard]] icu_locale::status try_set_other(std::string_view text) { return set(icu_locale_set_other, text); }
    void set_other(std::string_view text) { accept(try_set_other(text), text); }
    bool remove_other(char singleton)
    {
        return is_done(detail::told(icu_locale_remove_other(&held_, static_cast<std::uint8_t>(singleton))));
    }

    /* Adds the attributes and keywords of the other locale. At a key of both, the other's value wins. */
    void extend_unicode(const locale &from)
    {
        if (this != &from)
            accept(detail::told(icu_locale_extend_unicode(&held_, &from.held_)));
    }

    /* The locale without its extensions; if it has none, without its last variant, region, script or language. Nothing if
     * it is und. So the parents of en-US-u-ca-roc are en-US, en and und. */
    std::optional<locale> parent() const
    {
        if (is_und())
            return std::nullopt;
        const std::string base = base_name();
        const bool is_base = strict_cmp(base) == 0;
        const std::size_t end = is_base ? base.rfind('-') : base.size();
        return end == std::string::npos ? locale() : locale(std::string_view(base).substr(0, end));
    }

    /* The text of the data locale, by which data is looked up: en-US of en-GB-u-rg-uszzzz, by region. */
    std::string data_locale(priority by = priority::language) const
    {
        return *read([by](const icu_locale_t *held, std::uint8_t *buffer, std::size_t room, std::size_t *needed) {
            return icu_locale_get_data_locale(held, static_cast<icu_locale_priority>(by), buffer, room, needed);
        });
    }

    /* The byte order of that text against other bytes, which are not normalized: -1, 0 or 1. */
    int data_strict_cmp(std::string_view other, priority by = priority::language) const
    {
        std::int8_t order = 0;
        accept(detail::told(icu_locale_data_cmp_bytes(
            &held_, static_cast<icu_locale_priority>(by), detail::bytes(other), other.size(), &order)));
        return order;
    }

    /* The order of the data locales of two locales by language, script, region part and variant: -1, 0 or 1. */
    int data_compare(const locale &other, priority by = priority::language) const
    {
        std::int8_t order = 0;
        accept(detail::told(icu_locale_data_cmp(&held_, &other.held_, static_cast<icu_locale_priority>(by), &order)));
        return order;
    }

    friend bool operator==(const locale &one, const locale &other) noexcept
    {
        return icu_locale_eq(&one.held_, &other.held_);
    }
    friend bool operator!=(const locale &one, const locale &other) noexcept { return !(one == other); }

    /* Whether the normal form is this text as it stands: en-US is equal to "en-US", and not to "EN-us". normalizing_eq
     * tells whether a text means the locale. */
    friend bool operator==(const locale &one, std::string_view text) noexcept { return one.strict_cmp(text) == 0; }
    friend bool operator==(std::string_view text, const locale &one) noexcept { return one == text; }
    friend bool operator!=(const locale &one, std::string_view text) noexcept { return !(one == text); }
    friend bool operator!=(std::string_view text, const locale &one) noexcept { return !(one == text); }

    /* The order by parts. */
#if defined(__cpp_impl_three_way_comparison) && defined(__cpp_lib_three_way_comparison)
    friend std::strong_ordering operator<=>(const locale &one, const locale &other) noexcept
    {
        return one.compare(other) <=> 0;
    }
#else
    friend bool operator<(const locale &one, const locale &other) noexcept { return one.compare(other) < 0; }
    friend bool operator>(const locale &one, const locale &other) noexcept { return one.compare(other) > 0; }
    friend bool operator<=(const locale &one, const locale &other) noexcept { return one.compare(other) <= 0; }
    friend bool operator>=(const locale &one, const locale &other) noexcept { return one.compare(other) >= 0; }
#endif
    friend void swap(locale &one, locale &other) noexcept { one.swap(other); }
    friend std::ostream &operator<<(std::ostream &out, const locale &it) { return out << it.to_string(); }

private:
    static void accept(icu_locale::status told)
    {
        if (told != icu_locale::status::done)
            detail::raise(error(told));
    }

    static void accept(icu_locale::status told, std::string_view text)
    {
        if (told != icu_locale::status::done)
            detail::raise(error(told, text));
    }

    static void accept(icu_locale::status told, std::string_view text, mode as)
    {
        if (told != icu_locale::status::done)
            detail::refuse(told, text, as);
    }

    static void accept(icu_locale::status told, std::string_view key, std::string_view value)
    {
        if (told != icu_locale::status::done)
            detail::raise(error(told, std::string(key) + (value.empty() ? "" : "-") + std::string(value)));
    }

    static bool is_done(icu_locale::status told) noexcept { return told == icu_locale::status::done; }

    static std::optional<std::string> unless_empty(std::optional<std::string> text)
    {
        return text && !text->empty() ? std::move(text) : std::nullopt;
    }

    /* What a call writes to a buffer: at once if it is short, as subtags are. Nothing if there is no such part. */
    template <class Call> std::optional<std::string> read(Call call) const
    {
        std::uint8_t small[64];
        std::size_t needed = 0;
        icu_locale_status told = call(&held_, small, sizeof small, &needed);
        if (told == ICU_LOCALE_DONE)
            return std::string(reinterpret_cast<const char *>(small), needed);
        if (told == ICU_LOCALE_NOT_FOUND)
            return std::nullopt;
        if (told != ICU_LOCALE_BUFFER_TOO_SMALL)
            detail::raise(error(static_cast<icu_locale::status>(told)));
        std::string text(needed, '\0');
        accept(detail::told(call(&held_, reinterpret_cast<std::uint8_t *>(text.data()), text.size(), &needed)));
        return text;
    }

    template <class Call> std::optional<std::string> read_at(Call call, std::size_t at) const
    {
        return read([call, at](const icu_locale_t *held, std::uint8_t *buffer, std::size_t room, std::size_t *needed) {
            return call(held, at, buffer, room, needed);
        });
    }

    template <class Call> std::optional<std::string> read_by(Call call, std::string_view key) const
    {
        return read([call, key](const icu_locale_t *held, std::uint8_t *buffer, std::size_t room, std::size_t *needed) {
            return call(held, detail::bytes(key), key.size(), buffer, room, needed);
        });
    }

    template <class Count, class Key, class Value>
    std::vector<std::pair<std::string, std::string>> pairs(Count count, Key key, Value value) const
    {
        std::vector<std::pair<std::string, std::string>> found;
        const std::size_t number = count(&held_);
        found.reserve(number);
        for (std::size_t at = 0; at < number; at++)
            found.emplace_back(*read_at(key, at), *read_at(value, at));
        return found;
    }

    template <class Count, class Call> std::vector<std::string> list(Count count, Call call) const
    {
        std::vector<std::string> found;
        const std::size_t number = count(&held_);
        found.reserve(number);
        for (std::size_t at = 0; at < number; at++)
            found.push_back(*read_at(call, at));
        return found;
    }

    template <class Call> icu_locale::status set(Call call, std::string_view text)
    {
        return detail::told(call(&held_, detail::bytes(text), text.size()));
    }

    template <class Call> icu_locale::status set(Call call, std::string_view key, std::string_view value)
    {
        return detail::told(call(&held_, detail::bytes(key), key.size(), detail::bytes(value), value.size()));
    }

    icu_locale_t held_ = ICU_LOCALE_UND;
};

} // namespace icu_locale

template <> struct std::hash<icu_locale::locale> {
    std::size_t operator()(const icu_locale::locale &it) const noexcept { return static_cast<std::size_t>(it.hash()); }
};

#if defined(__cpp_lib_format)
/* std::format("{:>8}", locale): the normal form, in the forms that a text has. */
template <> struct std::formatter<icu_locale::locale> : std::formatter<std::string_view> {
    template <class Context> auto format(const icu_locale::locale &it, Context &context) const
    {
        return std::formatter<std::string_view>::format(it.to_string(), context);
    }
};
#endif

#endif
