/* Unicode locale identifiers in SQLite: a loadable extension over the proved C library.
 *
 *     .load ./icu_locale_sqlite
 *     SELECT locale_normalize('EN-us-u-ca-Buddhist');     -- en-US-u-ca-buddhist
 *
 * docs/DATABASES.md lists the functions. All are deterministic and innocuous, so indices, CHECK constraints,
 * generated columns and views may use them. NULL in gives NULL out. A refused text is an SQL error that names the
 * reason and the place; locale_is_valid and locale_fault answer instead. A mode is 'locale' (also if none is given),
 * 'identifier' or 'data'.
 *
 * Memory: what a call of the library allocates is freed before a function here returns, and SQLite leaves none by a
 * jump. */
#include "icu_locale_sqlite.h"

SQLITE_EXTENSION_INIT1

#define FLAGS (SQLITE_UTF8 | SQLITE_DETERMINISTIC | SQLITE_INNOCUOUS)
#define SMALL 128 /* most locales are shorter: they need no block */

/* Takes the text of a value. False after an answer was given: NULL for NULL, or out of memory. */
static bool take(sqlite3_context *context, sqlite3_value *value, sql_text *text)
{
    if (sqlite3_value_type(value) == SQLITE_NULL)
        return false;
    text->at = sqlite3_value_text(value);
    if (text->at == NULL) {
        sqlite3_result_error_nomem(context);
        return false;
    }
    text->length = (size_t)sqlite3_value_bytes(value);
    return true;
}

/* How many characters these bytes of UTF-8 have. */
static sqlite3_int64 characters(const uint8_t *at, size_t length)
{
    sqlite3_int64 number = 0;
    for (size_t i = 0; i < length; i++)
        number += (at[i] & 0xC0) != 0x80;
    return number;
}

/* The bytes of the text that a message shows: whole characters. */
static size_t shown_of(sql_text text)
{
    size_t shown = SQL_SHOWN;
    if (text.length <= SQL_SHOWN)
        return text.length;
    while (shown > 0 && (text.at[shown] & 0xC0) == 0x80)
        shown--;
    return shown;
}

char *locale_message(icu_locale_mode mode, sql_text text, icu_locale_status status)
{
    size_t start = 0, end = 0, shown = shown_of(text);
    if (status == ICU_LOCALE_OUT_OF_MEMORY || icu_locale_find_fault(mode, text.at, text.length, &start, &end) != status)
        return NULL;
    const sql_words expected = sql_expected_at(mode, text, start), hint = sql_hint_of(mode, text);
    return sqlite3_mprintf("%s: '%.*s%s' at %lld..%lld: %s may stand here%s%s", sql_words_of(status).text, (int)shown,
        text.at, shown < text.length ? "..." : "", characters(text.at, start), characters(text.at, end), expected.text,
        hint.text[0] ? "; " : "", hint.text);
}

static void refuse(sqlite3_context *context, icu_locale_mode mode, sql_text text, icu_locale_status status)
{
    char *message = locale_message(mode, text, status);
    if (message == NULL)
        sqlite3_result_error_nomem(context);
    else
        sqlite3_result_error(context, message, -1);
    sqlite3_free(message);
}

/* Takes the mode that the second argument names, if there is one. False after an answer was given. */
static bool take_mode(sqlite3_context *context, int count, sqlite3_value **values, icu_locale_mode *mode)
{
    static const char *const names[] = {"identifier", "locale", "data"};
    sql_text word;
    *mode = ICU_LOCALE_LOCALE;
    if (count < 2)
        return true;
    if (!take(context, values[1], &word))
        return false;
    for (*mode = ICU_LOCALE_IDENTIFIER; *mode <= ICU_LOCALE_DATA_LOCALE; ++*mode)
        if (sqlite3_stricmp((const char *)word.at, names[*mode]) == 0)
            return true;
    sqlite3_result_error(context, "a mode is 'locale', 'identifier' or 'data'", -1);
    return false;
}

/* Room for an answer: in the struct itself, or in a block if more is wanted. */
typedef struct {
    uint8_t *at, small[SMALL];
    size_t length;
} answer;

static bool make_room(answer *made, size_t room)
{
    made->at = room > SMALL ? sqlite3_malloc64(room) : made->small;
    return made->at != NULL;
}

static void drop_room(answer *made)
{
    if (made->at != made->small)
        sqlite3_free(made->at);
}

static void give(sqlite3_context *context, sql_text it)
{
    sqlite3_result_text(context, (const char *)it.at, (int)it.length, SQLITE_TRANSIENT);
}

static sql_text text_of(const answer *made)
{
    return (sql_text){made->at, made->length};
}

/* Makes the normal form of the text. The answer is to be dropped, however this ends. */
static icu_locale_status normalize(answer *made, icu_locale_mode mode, sql_text text)
{
    size_t room = text.length + 4; /* (a data locale can be longer than its text, by 4 bytes) */
    if (!make_room(made, room))
        return ICU_LOCALE_OUT_OF_MEMORY;
    return icu_locale_normalize(mode, text.at, text.length, made->at, room, &made->length);
}

/* locale_normalize(text [, mode]) */
static void call_normalize(sqlite3_context *context, int count, sqlite3_value **values)
{
    icu_locale_mode mode;
    sql_text text;
    answer normal;
    if (!take_mode(context, count, values, &mode) || !take(context, values[0], &text))
        return;
    icu_locale_status status = normalize(&normal, mode, text);
    if (status == ICU_LOCALE_DONE)
        give(context, text_of(&normal));
    else
        refuse(context, mode, text, status);
    drop_room(&normal);
}

/* locale_is_valid(text [, mode]) */
static void call_is_valid(sqlite3_context *context, int count, sqlite3_value **values)
{
    icu_locale_mode mode;
    sql_text text;
    if (!take_mode(context, count, values, &mode) || !take(context, values[0], &text))
        return;
    icu_locale_status status = icu_locale_check(mode, text.at, text.length);
    if (status == ICU_LOCALE_OUT_OF_MEMORY)
        sqlite3_result_error_nomem(context);
    else
        sqlite3_result_int(context, status == ICU_LOCALE_DONE);
}

/* locale_fault(text [, mode]): NULL, or for -> and ->> the reason, the place in characters, what may stand there, and what
 * is to be done: {"reason":"Invalid subtag","start":6,"end":9,"expected":"a variant or an extension","hint":null}. */
static void call_fault(sqlite3_context *context, int count, sqlite3_value **values)
{
    icu_locale_mode mode;
    size_t start, end;
    sql_text text;
    if (!take_mode(context, count, values, &mode) || !take(context, values[0], &text))
        return;
    icu_locale_status status = icu_locale_find_fault(mode, text.at, text.length, &start, &end);
    if (status == ICU_LOCALE_DONE)
        return;
    const sql_words expected = sql_expected_at(mode, text, start), hint = sql_hint_of(mode, text);
    const char *quote = hint.text[0] ? "\"" : "";
    char *json = sqlite3_mprintf("{\"reason\":\"%s\",\"start\":%lld,\"end\":%lld,\"expected\":\"%s\",\"hint\":%s%s%s}",
        sql_words_of(status).text, characters(text.at, start), characters(text.at, end), expected.text, quote,
        hint.text[0] ? hint.text : "null", quote);
    if (json == NULL) {
        sqlite3_result_error_nomem(context);
        return;
    }
    sqlite3_result_text(context, json, -1, sqlite3_free);
    sqlite3_result_subtype(context, 'J');
}

/* Answers with the part that a call wrote, or NULL if the locale has none. */
static void give_part(sqlite3_context *context, sql_text text, icu_locale_status status, const answer *part)
{
    if (status == ICU_LOCALE_DONE)
        give(context, text_of(part));
    else if (status != ICU_LOCALE_NOT_FOUND)
        refuse(context, ICU_LOCALE_LOCALE, text, status);
}

/* A function of one text that gives a part; if that is empty, NULL. */
typedef struct {
    const char *name;
    sql_part *part;
} part_function;

static void call_part(sqlite3_context *context, int count, sqlite3_value **values)
{
    const part_function *it = sqlite3_user_data(context);
    sql_text text;
    answer part;
    (void)count;
    if (!take(context, values[0], &text))
        return;
    icu_locale_status status = ICU_LOCALE_OUT_OF_MEMORY;
    if (make_room(&part, sql_room_of(text)))
        status = it->part(ICU_LOCALE_LOCALE, text.at, text.length, part.at, sql_room_of(text), &part.length);
    if (status != ICU_LOCALE_DONE || part.length > 0)
        give_part(context, text, status, &part);
    drop_room(&part);
}

/* locale_keyword(text, key): '' for a key that stands alone */
static void call_keyword(sqlite3_context *context, int count, sqlite3_value **values)
{
    sql_text text, key;
    answer value;
    (void)count;
    if (!take(context, values[0], &text) || !take(context, values[1], &key))
        return;
    icu_locale_status status = ICU_LOCALE_OUT_OF_MEMORY;
    if (make_room(&value, sql_room_of(text)))
        status = icu_locale_keyword_of(ICU_LOCALE_LOCALE, text.at, text.length, key.at, key.length, value.at,
            sql_room_of(text), &value.length);
    give_part(context, text, status, &value);
    drop_room(&value);
}

/* locale_matches(text, range): extended filtering of RFC 4647, with und for * */
static void call_matches(sqlite3_context *context, int count, sqlite3_value **values)
{
    sql_text text, range;
    uint8_t is_match;
    (void)count;
    if (!take(context, values[0], &text) || !take(context, values[1], &range))
        return;
    icu_locale_status status = icu_locale_matches(text.at, text.length, range.at, range.length, &is_match);
    if (status == ICU_LOCALE_DONE)
        sqlite3_result_int(context, is_match);
    else /* the text is refused first */
        refuse(context, ICU_LOCALE_LOCALE,
            icu_locale_check(ICU_LOCALE_LOCALE, text.at, text.length) == status ? text : range, status);
}

/* COLLATE LOCALE: locales by the bytes of their normal forms; then texts that are no locale, by their bytes. It is
 * total. SQLite gives a collation no way to fail. If memory is out, this one interrupts its statement, which SQLite
 * may see too late. So make an index of locale_normalize(text), which can fail. */
static int collate(void *db, int length, const void *one, int other_length, const void *other)
{
    const sql_text texts[2] = {{one, (size_t)length}, {other, (size_t)other_length}};
    icu_locale_status status[2];
    answer normal[2];
    int order;
    if (sql_is_same(texts[0], texts[1]))
        return 0;
    for (int i = 0; i < 2; i++) {
        status[i] = normalize(&normal[i], ICU_LOCALE_LOCALE, texts[i]);
        if (status[i] == ICU_LOCALE_OUT_OF_MEMORY)
            sqlite3_interrupt(db);
    }
    if (status[0] == ICU_LOCALE_DONE && status[1] == ICU_LOCALE_DONE)
        order = sql_order(text_of(&normal[0]), text_of(&normal[1]));
    else if (status[0] == ICU_LOCALE_DONE || status[1] == ICU_LOCALE_DONE)
        order = status[0] == ICU_LOCALE_DONE ? -1 : 1;
    else
        order = sql_order(texts[0], texts[1]);
    drop_room(&normal[0]);
    drop_room(&normal[1]);
    return order;
}

static int add_functions(sqlite3 *db)
{
    static const struct {
        const char *name;
        int arguments;
        void (*call)(sqlite3_context *, int, sqlite3_value **);
    } functions[] = {{"locale_normalize", 1, call_normalize}, {"locale_normalize", 2, call_normalize},
        {"locale_is_valid", 1, call_is_valid}, {"locale_is_valid", 2, call_is_valid}, {"locale_fault", 1, call_fault},
        {"locale_fault", 2, call_fault}, {"locale_keyword", 2, call_keyword}, {"locale_matches", 2, call_matches}};
    int status = SQLITE_OK;
    for (size_t i = 0; status == SQLITE_OK && i < sizeof functions / sizeof *functions; i++)
        status = sqlite3_create_function_v2(
            db, functions[i].name, functions[i].arguments, FLAGS, NULL, functions[i].call, NULL, NULL, NULL);
    return status;
}

static int add_parts(sqlite3 *db)
{
    static const part_function parts[] = {{"locale_language", icu_locale_language_of},
        {"locale_script", icu_locale_script_of}, {"locale_region", icu_locale_region_of},
        {"locale_variants", icu_locale_variants_of}, {"locale_base_name", icu_locale_base_name_of},
        {"locale_parent", icu_locale_parent}};
    int status = SQLITE_OK;
    for (size_t i = 0; status == SQLITE_OK && i < sizeof parts / sizeof *parts; i++)
        status = sqlite3_create_function_v2(
            db, parts[i].name, 1, FLAGS, (void *)&parts[i], call_part, NULL, NULL, NULL);
    return status;
}

/* Where SQLite begins when it loads icu_locale_sqlite. */
__attribute__((visibility("default"))) int sqlite3_iculocalesqlite_init(
    sqlite3 *db, char **error, const sqlite3_api_routines *api)
{
    SQLITE_EXTENSION_INIT2(api);
    (void)api;
    if (icu_locale_version() != ICU_LOCALE_VERSION) {
        *error = sqlite3_mprintf("libicu_locale is of another header than this extension: build both anew");
        return SQLITE_ERROR;
    }
    int status = add_functions(db);
    if (status == SQLITE_OK)
        status = add_parts(db);
    if (status == SQLITE_OK)
        status = sqlite3_create_collation_v2(db, "LOCALE", SQLITE_UTF8, db, collate, NULL);
    if (status == SQLITE_OK)
        status = sqlite3_create_module_v2(db, "locale_parts", &locale_parts, NULL, NULL);
    return status;
}
