/* Answers each line of standard input, for tools/try_bindings, as bindings/c/answers.c does, without its buffers. Where
 * a fault stands is asked of the error that is thrown, too.
 *
 * answers lines-MODE    the same as MODE, by one call for all lines
 * answers objects       all parts of the locale that the line means, or "! " and the words of the refusal
 * answers two-objects   of each two lines the order of both locales, whether they are equal and are hashed alike, the byte
 *                       order of the first against the second line, and whether that line means it
 * answers script        what each step on one of four locales gives, and the text of the locale after it
 *
 * Fields stand between tabs. tools/object_model.py says what is wanted. */
#include "icu_locale.hpp"

#include <algorithm>
#include <array>
#include <cctype>
#include <cstdio>
#include <cstdlib>
#include <iostream>
#include <string>
#include <type_traits>
#include <unordered_set>
#include <vector>

using icu_locale::mode;

static std::string refusal(icu_locale::status why)
{
    return "! " + icu_locale::words(why);
}

static std::string answer(const std::string &line, mode as)
{
    const auto normal = icu_locale::try_normalize(line, as);
    if (icu_locale::check(line, as) != normal.status())
        std::abort();
    return normal ? *normal : refusal(normal.status());
}

static std::string fault_of(const std::string &line, mode as)
{
    const auto found = icu_locale::find_fault(line, as);
    try {
        icu_locale::normalize(line, as);
    } catch (const icu_locale::error &refused) {
        if (!found || found->status != refused.status() || found->start != refused.start() || found->end != refused.end())
            std::abort();
        const std::string start = std::to_string(found->start), end = std::to_string(found->end), what = refused.what();
        const icu_locale::kinds kinds = icu_locale::expected(line, found->start, as);
        const icu_locale::hint hint = icu_locale::find_hint(line, as);
        const bool is_part = found->end - found->start != line.size();
        const std::string told = (is_part ? "' at " + start + ".." + end : "'") + ": " + words(kinds) + " may stand here"
            + (hint == icu_locale::hint::none ? "" : "; " + words(hint));
        const bool is_said = what.size() > told.size() && what.substr(what.size() - told.size()) == told;
        if (kinds != refused.expected() || hint != refused.hint() || (line.size() <= 64 && !is_said))
            std::abort();
        return start + " " + end + " " + std::to_string(kinds.bits()) + " "
            + std::to_string(static_cast<icu_locale_hint_number>(hint));
    }
    return found ? "a fault of no refused text" : "-";
}

static std::string compare(const std::string &first, const std::string &second, mode as)
{
    const auto order = icu_locale::try_strict_cmp(first, second, as);
    if (!order)
        return refusal(order.status());
    const bool same = icu_locale::normalizing_eq(first, second, as);
    const auto both = icu_locale::try_compare(first, second, as);
    return std::to_string(*order) + (same ? " 1 " : " 0 ") + (both ? std::to_string(*both) : refusal(both.status()));
}

static mode mode_of(const std::string &word)
{
    if (word == "langid")
        return mode::identifier;
    if (word == "locale")
        return mode::locale;
    if (word == "data")
        return mode::data_locale;
    std::cerr << "usage: answers [lines-|pairs-|faults-]langid|locale|data, or answers objects|two-objects|script\n";
    std::exit(2);
}

using icu_locale::locale;

static std::string joined(const std::vector<std::string> &words)
{
    std::string text;
    for (const auto &word : words)
        text += (text.empty() ? "" : ",") + word;
    return text;
}

/* The functions on texts give the parts that the locale has, which the text means. */
static void see_texts(const locale &it)
{
    std::string text = it.to_string(), variants;
    for (char &byte : text)
        byte = static_cast<char>(std::toupper(static_cast<unsigned char>(byte)));
    for (const auto &variant : it.variants())
        variants += (variants.empty() ? "" : "-") + variant;
    bool agree = icu_locale::base_name_of(text) == it.base_name() && icu_locale::language_of(text) == it.language()
        && icu_locale::script_of(text) == it.script() && icu_locale::region_of(text) == it.region()
        && icu_locale::variants_of(text) == variants && icu_locale::keyword_of(text, "zz") == it.keyword("zz");
    for (const auto &[key, value] : it.keywords())
        agree = agree && icu_locale::keyword_of(text, key) == value;
    const auto above = icu_locale::parent(text);
    agree = agree && (above ? icu_locale::matches(text, *above) && *above != it.to_string() : it.is_und());
    if (!agree)
        std::abort();
}

static std::string parts(const locale &it)
{
    if (it.is_well_formed())
        see_texts(it);
    const auto joined_pairs = [](const std::vector<std::pair<std::string, std::string>> &pairs) {
        std::vector<std::string> words;
        for (const auto &[key, value] : pairs)
            words.push_back(key + "=" + value);
        return joined(words);
    };
    char hash[17];
    std::snprintf(hash, sizeof hash, "%016llx", static_cast<unsigned long long>(it.hash()));
    std::vector<std::string> others;
    for (const char singleton : std::string("0123456789abcdefghijklmnopqrstuvwxyz"))
        if (const auto other = it.other(singleton))
            others.push_back(*other);
    const std::vector<std::string> fields = {it.to_string(), it.base_name(), it.language(), it.script().value_or(""),
        it.region().value_or(""), joined(it.variants()), joined(it.attributes()), joined_pairs(it.keywords()),
        it.transform_language().value_or(""), joined_pairs(it.fields()), it.private_extension(),
        joined(others), it.data_locale(), it.data_locale(icu_locale::priority::region),
        it.calendar_algorithm().value_or("-"), it.hour_cycle().value_or("-"), it.numbering_system().value_or("-"),
        std::string(it.is_und() ? "1" : "0") + (it.is_well_formed() ? "1" : "0"), hash};
    std::string text;
    for (const auto &field : fields)
        text += (text.empty() ? "" : "\t") + field;
    return text;
}

static std::string object(const std::string &line)
{
    const auto made = locale::try_parse(line);
    return made ? parts(*made) : refusal(made.status());
}

static std::string bit(bool it)
{
    return it ? "1" : "0";
}

/* The comparison of two locales, of which all operators are to agree. */
static std::string compare_objects(const locale &one, const locale &other)
{
    const int order = one.compare(other);
    const bool agree = (order < 0) == (one < other) && (order > 0) == (one > other) && (order <= 0) == (one <= other)
        && (order >= 0) == (one >= other) && (one == other) != (one != other) && order == -other.compare(one);
    if (!agree)
        std::abort();
    const std::hash<locale> hash;
    return std::to_string(order) + " " + bit(one == other) + " " + bit(hash(one) == hash(other));
}

/* The order of the data locales of both, by each priority, and of that of the first against the text of the other's. */
static std::string compare_data(const locale &one, const locale &other)
{
    std::string orders;
    for (const auto by : {icu_locale::priority::language, icu_locale::priority::region}) {
        const int order = one.data_compare(other, by), against = one.data_strict_cmp(other.data_locale(by), by);
        if (other.data_compare(one, by) != -order)
            std::abort();
        orders += (orders.empty() ? "" : " ") + std::to_string(order) + " " + std::to_string(against);
    }
    return orders;
}

static std::string two_objects(const std::string &first, const std::string &second)
{
    const auto one = locale::try_parse(first);
    if (!one)
        return refusal(one.status());
    const auto other = locale::try_parse(second);
    return (other ? compare_objects(*one, *other) : "- - -") + " " + std::to_string(one->strict_cmp(second)) + " "
        + bit(one->normalizing_eq(second));
}

static std::vector<std::string> split(const std::string &line)
{
    std::vector<std::string> words;
    for (std::size_t from = 0, to; from <= line.size(); from = to + 1) {
        to = std::min(line.find('\t', from), line.size());
        words.push_back(line.substr(from, to - from));
    }
    return words;
}

/* What a call that throws gives. */
template <class Call> static std::string given(Call call)
{
    try {
        call();
        return "ok";
    } catch (const icu_locale::error &refused) {
        return refusal(refused.status());
    }
}

static std::string take_step(std::array<locale, 4> &slots, const std::vector<std::string> &words)
{
    const std::string &call = words.at(0), argument = words.size() > 2 ? words[2] : "";
    locale &it = slots.at(std::stoul(words.at(1)));
    const auto other = [&]() -> locale & { return slots.at(std::stoul(argument)); };
    const auto found = [](bool is_found) { return std::string(is_found ? "ok" : "none"); };
    const auto told = [](const std::optional<std::string> &value) { return value ? "=" + *value : "none"; };
    if (call == "parse")
        return given([&] { it.assign(argument); });
    if (call == "language")
        return given([&] { it.set_language(argument); });
    if (call == "script")
        return given([&] { it.set_script(argument); });
    if (call == "region")
        return given([&] { it.set_region(argument); });
    if (call == "add-variant")
        return given([&] { it.add_variant(argument); });
    if (call == "remove-variant")
        return found(it.remove_variant(argument));
    if (call == "has-variant")
        return bit(it.has_variant(argument));
    if (call == "clear-variants")
        return given([&] { it.clear_variants(); });
    if (call == "add-attribute")
        return given([&] { it.add_attribute(argument); });
    if (call == "remove-attribute")
        return found(it.remove_attribute(argument));
    if (call == "has-attribute")
        return bit(it.has_attribute(argument));
    if (call == "clear-attributes")
        return given([&] { it.clear_attributes(); });
    if (call == "transform-language")
        return given([&] { it.set_transform_language(argument); });
    if (call == "private")
        return given([&] { it.set_private_extension(argument); });
    if (call == "set-field")
        return given([&] { it.set_field(argument, words.at(3)); });
    if (call == "get-field")
        return told(it.field(argument));
    if (call == "remove-field")
        return found(it.remove_field(argument));
    if (call == "set-other")
        return given([&] { it.set_other(argument); });
    if (call == "get-other") {
        const auto value = it.other(argument.at(0));
        if (value.has_value() != it.has_other(argument.at(0)))
            std::abort();
        return told(value);
    }
    if (call == "remove-other")
        return found(it.remove_other(argument.at(0)));
    if (call == "extend")
        return given([&] { it.extend_unicode(other()); });
    if (call == "compare-data")
        return compare_data(it, other());
    if (call == "clear-fields")
        return given([&] { it.clear_fields(); });
    if (call == "set-keyword")
        return given([&] { it.set_keyword(argument, words.at(3)); });
    if (call == "get-keyword")
        return told(it.keyword(argument));
    if (call == "remove-keyword")
        return found(it.remove_keyword(argument));
    if (call == "clear-keywords")
        return given([&] { it.clear_keywords(); });
    if (call == "copy")
        return given([&] { it = other(); });
    if (call == "move")
        return given([&] { it = std::move(other()); });
    if (call == "compare")
        return compare_objects(it, other());
    if (call == "against")
        return std::to_string(it.strict_cmp(argument)) + " " + bit(it.normalizing_eq(argument));
    if (call == "parts")
        return parts(it);
    std::cerr << "answers: no step " << call << '\n';
    std::exit(2);
}

static int answer_script()
{
    std::array<locale, 4> slots;
    std::string line;
    while (std::getline(std::cin, line)) {
        const auto words = split(line);
        std::cout << take_step(slots, words) << '\t' << slots.at(std::stoul(words.at(1))) << '\n';
    }
    return std::cout.flush() ? 0 : 1;
}

/* Objects live in containers, are moved and swapped. */
static void try_objects()
{
    locale one("EN-us"), two(std::move(one)), three;
    three = two;
    swap(one, three);
    std::vector<locale> many(3, two);
    many.resize(50);
    const std::unordered_set<locale> set(many.begin(), many.end());
    const auto parsed = locale::try_parse("e");
    if (!three.is_und() || one.to_string() != "en-US" || set.size() != 2 || set.count(two) != 1)
        std::abort();
    if (parsed || parsed.status() != icu_locale::status::invalid_language)
        std::abort();
    const locale plain("en");
    if (plain.script() || plain.region() || plain.keyword("ca") || plain.transform_language() || plain.field("m0"))
        std::abort();
    static_assert(std::is_nothrow_move_constructible_v<locale> && !std::is_nothrow_copy_constructible_v<locale>);
    static_assert(std::is_nothrow_move_assignable_v<locale> && std::is_nothrow_default_constructible_v<locale>);
}

/* What the error of a call says, which is to throw one. */
template <class Call> static std::string said(Call call)
{
    try {
        call();
    } catch (const icu_locale::error &refused) {
        const std::string what = refused.what(), words = icu_locale::words(refused.status());
        return what.compare(0, words.size(), words) == 0 ? what.substr(words.size()) : what;
    }
    std::abort();
}

/* An error says why, of which text, of which it shows 64 bytes, and where, unless all is at fault. An empty view may be
 * of a null pointer. */
static void try_errors()
{
    locale held("en");
    const std::string long_text(65, 'a');
    /* What may stand at the beginning, after a language, and after one in t: UTS #35, sections 3.1 and 3.2. */
    const std::string first = ": a language may stand here", in_transform = ": a script, a region or a variant may stand here",
                      next = ": a script, a region, a variant or an extension may stand here";
    const std::pair<std::string, std::string> cases[] = {
        {said([] { icu_locale::normalize(std::string_view()); }), ": ''" + first},
        {said([] { icu_locale::strict_cmp("e", "en"); }), ": 'e'" + first},
        {said([] { icu_locale::normalizing_eq("e\n'", "en"); }), ": 'e\\x0a\\x27'" + first + "; leave out the blanks"},
        {said([] { icu_locale::compare("e", "x"); }), ": 'e'" + first},
        {said([] { icu_locale::compare("en", "x"); }), ": 'x'" + first},
        {said([&] { locale made(long_text); }), ": '" + long_text.substr(1) + "'..." + first},
        {said([&] { locale made("en-" + long_text); }), ": 'en-" + long_text.substr(4) + "'... at 3..68" + next},
        {said([] { icu_locale::normalize("e-US"); }), ": 'e-US' at 0..1" + first},
        {said([] { icu_locale::normalize("en-toolonggg-US"); }), ": 'en-toolonggg-US' at 3..12" + next},
        {said([] { icu_locale::normalize("en-US-foo"); }), ": 'en-US-foo' at 6..9: a variant or an extension may stand here"},
        {said([] { icu_locale::normalize("en-u"); }), ": 'en-u' at 4..4: an attribute or a key may stand here"},
        {said([] { icu_locale::normalize("en_US"); }), ": 'en_US'" + first + "; use hyphens in place of underscores"},
        {said([] { icu_locale::normalize("en_!"); }), ": 'en_!'" + first},
        {said([] { icu_locale::compare("en", "en-\xff"); }), ": 'en-\\xff' at 3..4" + next},
        {said([&] { held.assign("en-"); }), ": 'en-' at 3..3" + next},
        {said([&] { held.set_transform_language("de-a"); }), ": 'de-a' at 3..4" + in_transform},
        {said([&] { held.set_region("USA"); }), ": 'USA'"},
        {said([&] { held.add_variant("pos"); }), ": 'pos'"},
        {said([&] { held.set_keyword("ca", "r"); }), ": 'ca-r'"},
        {said([&] { held.set_keyword("c1"); }), ": 'c1'"},
        {said([&] { held.set_field("m", "din"); }), ": 'm-din'"},
        {said([] { icu_locale::try_normalize("e").value(); }), ""},
    };
    for (const auto &[got, wanted] : cases)
        if (got != wanted)
            std::abort();
}

/* Where the error of a call says that the fault stands. */
template <class Call> static std::pair<std::size_t, std::size_t> at(Call call)
{
    try {
        call();
    } catch (const icu_locale::error &refused) {
        return {refused.start(), refused.end()};
    }
    std::abort();
}

/* Faults of each kind in each mode, by hand: docs/BINDINGS.md has the rule. */
static void try_places()
{
    using place = std::pair<std::size_t, std::size_t>;
    const mode as[] = {mode::identifier, mode::locale, mode::data_locale};
    const std::string zero("en-US-\0\xff-posix", 14);
    locale held("en");
    for (const mode it : as) {
        const bool is_locale = it == mode::locale;
        const std::pair<place, place> cases[] = {
            {at([&] { icu_locale::normalize("", it); }), {0, 0}},
            {at([&] { icu_locale::normalize("e-US", it); }), {0, 1}},
            {at([&] { icu_locale::normalize("en-", it); }), {3, 3}},
            {at([&] { icu_locale::normalize("en-US-toolonggg-posix", it); }), {6, 15}},
            {at([&] { icu_locale::normalize(zero, it); }), {6, 8}},
            {at([&] { icu_locale::normalize("en-u-a8-foo", it); }), is_locale ? place{5, 7} : it == as[0] ? place{3, 4} : place{5, 7}},
            {at([&] { icu_locale::normalize("en-a-foo-A-bar", it); }), is_locale ? place{9, 10} : place{3, 4}},
            {at([&] { icu_locale::strict_cmp("en-!", "en", it); }), {3, 4}},
            {at([&] { icu_locale::normalizing_eq("en-!", "en", it); }), {3, 4}},
            {at([&] { icu_locale::compare("en-!", "e", it); }), {3, 4}},
            {at([&] { icu_locale::compare("en", "en-US-!", it); }), {6, 7}},
        };
        for (const auto &[got, wanted] : cases)
            if (got != wanted)
                std::abort();
    }
    const std::pair<place, place> more[] = {
        {at([] { icu_locale::normalize("en-u"); }), {4, 4}},
        {at([] { icu_locale::normalize("en-t-de-posix-posix"); }), {14, 19}},
        {at([] { icu_locale::normalize("en-u-sd-", mode::data_locale); }), {8, 8}},
        {at([] { locale made("en-US-x"); }), {7, 7}},
        {at([&] { held.assign("en-US-x-"); }), {8, 8}},
        {at([&] { held.set_transform_language("de-u-foo"); }), {3, 4}},
        {at([&] { held.set_region("USA"); }), {0, 3}},
        {at([&] { held.set_keyword("ca", "r"); }), {0, 4}},
        {at([] { icu_locale::try_normalize("e").value(); }), {0, 0}},
        {at([] { icu_locale::normalize("en", static_cast<mode>(3)); }), {0, 2}},
    };
    for (const auto &[got, wanted] : more)
        if (got != wanted)
            std::abort();
    if (icu_locale::find_fault("en-US") || icu_locale::find_fault("en-u", mode::identifier)->start != 3)
        std::abort();
}

/* Answers all lines by the calls for many texts. The one that throws does so of the first that is refused. */
static int answer_all(mode as)
{
    std::vector<std::string> lines;
    for (std::string line; std::getline(std::cin, line);)
        lines.push_back(line);
    const auto made = icu_locale::try_normalize_many(lines, as);
    std::vector<std::string> normals;
    std::string first;
    for (std::size_t at = 0; at < lines.size(); at++) {
        std::cout << (made.at(at) ? *made[at] : refusal(made[at].status())) << '\n';
        if (made[at])
            normals.push_back(lines[at]);
        else if (first.empty())
            first = said([&] { icu_locale::normalize(lines[at], as); });
    }
    const bool is_first = first.empty() || said([&] { icu_locale::normalize_many(lines, as); }) == first;
    if (!is_first || made.size() != lines.size() || icu_locale::normalize_many(normals, as).size() != normals.size())
        std::abort();
    return std::cout.flush() ? 0 : 1;
}

int main(int count, char **words)
{
    std::ios::sync_with_stdio(false);
    const std::string word = count == 2 ? words[1] : "";
    const bool is_object = word == "objects", are_objects = word == "two-objects";
    const bool pairs = word.rfind("pairs-", 0) == 0, faults = word.rfind("faults-", 0) == 0;
    std::string first, second;
    try_errors();
    try_places();
    try_objects();
    if (word == "script")
        return answer_script();
    if (word.rfind("lines-", 0) == 0)
        return answer_all(mode_of(word.substr(6)));
    const mode as = is_object || are_objects ? mode::locale : mode_of(word.substr(pairs ? 6 : faults ? 7 : 0));
    while (std::getline(std::cin, first)) {
        if ((pairs || are_objects) && !std::getline(std::cin, second))
            break;
        if (is_object || are_objects)
            std::cout << (is_object ? object(first) : two_objects(first, second)) << '\n';
        else
            std::cout << (pairs ? compare(first, second, as) : faults ? fault_of(first, as) : answer(first, as)) << '\n';
    }
    return std::cout.flush() ? 0 : 1;
}
