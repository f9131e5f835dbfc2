/* What the extensions of SQLite and PostgreSQL share: words, pieces of texts, and the keywords of normal texts.
 *
 * Parts, parents and ranges are those of the library: its calls of a text are proved. What is cut here are the pieces of
 * variants, and keywords one after the other. In a normal text (that icu_locale_normalize wrote) they stand in one order,
 * in one case, each once. So each is a part of the bytes, and no function here allocates, or can fail. */
#ifndef ICU_LOCALE_SQL_H
#define ICU_LOCALE_SQL_H

#include "icu_locale.h"

#include <string.h>

/* The most bytes of a refused text that a message shows. */
#define SQL_SHOWN 64

typedef struct {
    const uint8_t *at;
    size_t length;
} sql_text;

static inline bool sql_is_same(sql_text one, sql_text other)
{
    return one.length == other.length && memcmp(one.at, other.at, one.length) == 0;
}

/* The order of bytes: below, at or above 0. */
static inline int sql_order(sql_text one, sql_text other)
{
    int order = memcmp(one.at, other.at, one.length < other.length ? one.length : other.length);
    return order ? order : (one.length > other.length) - (one.length < other.length);
}

/* Words of the library, such as Invalid subtag, with a zero at the end. */
typedef struct {
    char text[193];
} sql_words;

/* The words that a call has of a number; none if it has none. */
static inline sql_words sql_said(icu_locale_status (*call)(uint32_t, uint8_t *, size_t, size_t *), uint32_t number)
{
    sql_words words;
    size_t needed;
    (void)call(number, (uint8_t *)words.text, sizeof words.text - 1, &needed);
    words.text[needed] = 0;
    return words;
}

/* The words of a status. */
static inline sql_words sql_words_of(icu_locale_status status)
{
    return sql_said(icu_locale_words, status);
}

/* What may stand at this byte of a text: a script, a region, a variant or an extension. */
static inline sql_words sql_expected_at(icu_locale_mode mode, sql_text text, size_t place)
{
    icu_locale_kinds kinds = 0;
    (void)!icu_locale_expected(mode, text.at, text.length, place, &kinds);
    return sql_said(icu_locale_expected_words, kinds);
}

/* What is to be done with a refused text such as en_US: use hyphens in place of underscores. No words if it has no hint. */
static inline sql_words sql_hint_of(icu_locale_mode mode, sql_text text)
{
    icu_locale_hint_number hint = ICU_LOCALE_NO_HINT;
    (void)!icu_locale_hint(mode, text.at, text.length, &hint);
    return sql_said(icu_locale_hint_words, hint);
}

/* The piece that begins at this place: up to the next hyphen, or the end. */
static inline sql_text sql_piece_at(sql_text text, size_t start)
{
    const uint8_t *from = text.at + start;
    const uint8_t *hyphen = memchr(from, '-', text.length - start);
    return (sql_text){from, hyphen ? (size_t)(hyphen - from) : text.length - start};
}

/* The text from this place to before that one. */
static inline sql_text sql_between(sql_text text, size_t start, size_t end)
{
    return (sql_text){text.at + start, end - start};
}

static inline bool sql_is_und(sql_text piece)
{
    return sql_is_same(piece, (sql_text){(const uint8_t *)"und", 3});
}

/* A call of the library that writes a part of a text: icu_locale_language_of and its like. */
typedef icu_locale_status sql_part(
    icu_locale_mode mode, const uint8_t *text, size_t length, uint8_t *buffer, size_t room, size_t *needed);

/* The room that a part of a text needs at most: und, the parent of en, is longer than en. */
static inline size_t sql_room_of(sql_text text)
{
    return text.length + 4;
}

/* The keywords as they stand in the text: ca-islamic-civil-kn. Only a key has two characters, so they can be told
 * apart. They follow the singleton u and attributes, which have three characters or more. */
static inline sql_text sql_keywords(sql_text normal)
{
    size_t at = 0, start = normal.length + 1;
    bool is_within = false;
    for (; at < normal.length; at += sql_piece_at(normal, at).length + 1) {
        sql_text piece = sql_piece_at(normal, at);
        if (piece.length == 1 && (is_within || piece.at[0] == 'x'))
            break;
        is_within = is_within || (piece.length == 1 && piece.at[0] == 'u');
        if (is_within && piece.length == 2 && start > normal.length)
            start = at;
    }
    return start < at ? sql_between(normal, start, at - 1) : (sql_text){normal.at, 0};
}

/* A keyword, and where the next one begins. */
typedef struct {
    sql_text key, value;
    size_t next;
} sql_keyword;

/* The keyword that begins at this place of the keywords. The value of a key that stands alone is empty. */
static inline sql_keyword sql_keyword_at(sql_text keywords, size_t start)
{
    sql_keyword it = {sql_piece_at(keywords, start), {keywords.at, 0}, start};
    size_t from = start + it.key.length + 1;
    for (it.next = from; it.next < keywords.length; it.next += sql_piece_at(keywords, it.next).length + 1)
        if (sql_piece_at(keywords, it.next).length == 2)
            break;
    if (it.next > from)
        it.value = sql_between(keywords, from, it.next - 1);
    return it;
}

#endif
