/* locale_parts(text): a table of the parts of a locale, in the order of the normal form.
 *
 *     SELECT part, key, value FROM locale_parts('en-US-u-ca-buddhist');
 *
 * A part is language, script, region, variant, attribute, keyword, transform, field, other or private. Only a
 * keyword, a field and another extension have a key. */
#include "icu_locale_sqlite.h"

SQLITE_EXTENSION_INIT3

enum { LANGUAGE, SCRIPT, REGION, VARIANT, ATTRIBUTE, KEYWORD, TRANSFORM, FIELD, OTHER, PRIVATE, END };
static const char *const names[] = {
    "language", "script", "region", "variant", "attribute", "keyword", "transform", "field", "other", "private"};

/* A place in the table: the kind of part, and its index among those of its kind. */
typedef struct {
    sqlite3_vtab_cursor base;
    icu_locale_t locale;
    uint8_t *value; /* a block of the text's length and 8 bytes: the value true of a field is not in its text */
    size_t room, length, index;
    int kind;
    uint8_t key[8];
    size_t key_length;
} cursor;

static int parts_connect(
    sqlite3 *db, void *aux, int count, const char *const *words, sqlite3_vtab **made, char **error)
{
    int status = sqlite3_declare_vtab(db, "CREATE TABLE x(part TEXT, key TEXT, value TEXT, text HIDDEN)");
    (void)aux, (void)count, (void)words, (void)error;
    if (status == SQLITE_OK)
        status = sqlite3_vtab_config(db, SQLITE_VTAB_INNOCUOUS);
    if (status != SQLITE_OK)
        return status;
    *made = sqlite3_malloc(sizeof **made);
    if (*made == NULL)
        return SQLITE_NOMEM;
    memset(*made, 0, sizeof **made);
    return SQLITE_OK;
}

static int parts_disconnect(sqlite3_vtab *table)
{
    sqlite3_free(table);
    return SQLITE_OK;
}

/* The text comes as the argument, or as text = .. Without it the table is empty. */
static int parts_best(sqlite3_vtab *table, sqlite3_index_info *plan)
{
    (void)table;
    plan->estimatedCost = 1e9;
    for (int i = 0; i < plan->nConstraint; i++) {
        if (plan->aConstraint[i].iColumn != 3 || plan->aConstraint[i].op != SQLITE_INDEX_CONSTRAINT_EQ)
            continue;
        if (!plan->aConstraint[i].usable)
            return SQLITE_CONSTRAINT;
        plan->aConstraintUsage[i].argvIndex = 1;
        plan->aConstraintUsage[i].omit = 1;
        plan->estimatedCost = 10;
        plan->estimatedRows = 4;
        plan->idxNum = 1;
        break;
    }
    return SQLITE_OK;
}

static int parts_open(sqlite3_vtab *table, sqlite3_vtab_cursor **made)
{
    cursor *it = sqlite3_malloc(sizeof *it);
    (void)table;
    if (it == NULL)
        return SQLITE_NOMEM;
    memset(it, 0, sizeof *it);
    *made = &it->base;
    return SQLITE_OK;
}

static void clear(cursor *it)
{
    icu_locale_free(&it->locale);
    sqlite3_free(it->value);
    it->value = NULL;
    it->kind = END;
}

static int parts_close(sqlite3_vtab_cursor *base)
{
    clear((cursor *)base);
    sqlite3_free(base);
    return SQLITE_OK;
}

/* A part that a locale has at most once. */
static icu_locale_status read_single(const cursor *it, size_t *length)
{
    if (it->index > 0)
        return ICU_LOCALE_NOT_FOUND;
    switch (it->kind) {
    case LANGUAGE:
        return icu_locale_get_language(&it->locale, it->value, it->room, length);
    case SCRIPT:
        return icu_locale_get_script(&it->locale, it->value, it->room, length);
    case REGION:
        return icu_locale_get_region(&it->locale, it->value, it->room, length);
    case TRANSFORM:
        return icu_locale_get_transform_language(&it->locale, it->value, it->room, length);
    default:
        return icu_locale_get_private(&it->locale, it->value, it->room, length);
    }
}

/* A keyword or a field: its key and its value. */
static icu_locale_status read_pair(cursor *it)
{
    bool is_keyword = it->kind == KEYWORD;
    icu_locale_status status = (is_keyword ? icu_locale_get_keyword_key : icu_locale_get_field_key)(
        &it->locale, it->index, it->key, sizeof it->key, &it->key_length);
    if (status != ICU_LOCALE_DONE)
        return status;
    return (is_keyword ? icu_locale_get_keyword_value : icu_locale_get_field_value)(
        &it->locale, it->index, it->value, it->room, &it->length);
}

/* The next other extension, from the letter or digit at the index. */
static icu_locale_status read_other(cursor *it)
{
    static const char singletons[] = "0123456789abcdefghijklmnopqrsvwyz";
    for (; it->index < sizeof singletons - 1; it->index++) {
        it->key[0] = (uint8_t)singletons[it->index];
        if (!icu_locale_has_other(&it->locale, it->key[0]))
            continue;
        it->key_length = 1;
        return icu_locale_get_other(&it->locale, it->key[0], it->value, it->room, &it->length);
    }
    return ICU_LOCALE_NOT_FOUND;
}

/* The part at this place; NOT_FOUND if there is none. */
static icu_locale_status read_part(cursor *it)
{
    it->key_length = 0;
    switch (it->kind) {
    case VARIANT:
        return icu_locale_get_variant(&it->locale, it->index, it->value, it->room, &it->length);
    case ATTRIBUTE:
        return icu_locale_get_attribute(&it->locale, it->index, it->value, it->room, &it->length);
    case KEYWORD:
    case FIELD:
        return read_pair(it);
    case OTHER:
        return read_other(it);
    default:
        return read_single(it, &it->length);
    }
}

/* Goes on from this place to the next part that is there. */
static void seek(cursor *it)
{
    for (; it->kind < END; it->kind++, it->index = 0)
        if (read_part(it) == ICU_LOCALE_DONE && (it->length > 0 || it->kind == KEYWORD))
            return;
}

static int parts_next(sqlite3_vtab_cursor *base)
{
    cursor *it = (cursor *)base;
    it->index++;
    seek(it);
    return SQLITE_OK;
}

static int parts_filter(sqlite3_vtab_cursor *base, int plan, const char *name, int count, sqlite3_value **values)
{
    cursor *it = (cursor *)base;
    sql_text text;
    (void)name;
    clear(it);
    if (plan == 0 || count == 0 || sqlite3_value_type(values[0]) == SQLITE_NULL)
        return SQLITE_OK;
    text.at = sqlite3_value_text(values[0]);
    if (text.at == NULL)
        return SQLITE_NOMEM;
    text.length = (size_t)sqlite3_value_bytes(values[0]);
    it->room = text.length + 8;
    it->value = sqlite3_malloc64(it->room);
    if (it->value == NULL)
        return SQLITE_NOMEM;
    icu_locale_status status = icu_locale_parse(&it->locale, text.at, text.length);
    if (status != ICU_LOCALE_DONE) {
        sqlite3_free(base->pVtab->zErrMsg);
        base->pVtab->zErrMsg = locale_message(ICU_LOCALE_LOCALE, text, status);
        return base->pVtab->zErrMsg ? SQLITE_ERROR : SQLITE_NOMEM;
    }
    it->kind = LANGUAGE;
    it->index = 0;
    seek(it);
    return SQLITE_OK;
}

static int parts_eof(sqlite3_vtab_cursor *base)
{
    return ((cursor *)base)->kind == END;
}

static int parts_column(sqlite3_vtab_cursor *base, sqlite3_context *context, int column)
{
    cursor *it = (cursor *)base;
    if (column == 0)
        sqlite3_result_text(context, names[it->kind], -1, SQLITE_STATIC);
    else if (column == 1 && it->key_length > 0)
        sqlite3_result_text(context, (char *)it->key, (int)it->key_length, SQLITE_TRANSIENT);
    else if (column == 2)
        sqlite3_result_text(context, (char *)it->value, (int)it->length, SQLITE_TRANSIENT);
    return SQLITE_OK;
}

static int parts_rowid(sqlite3_vtab_cursor *base, sqlite3_int64 *row)
{
    cursor *it = (cursor *)base;
    *row = (sqlite3_int64)it->kind << 32 | (sqlite3_int64)it->index;
    return SQLITE_OK;
}

const sqlite3_module locale_parts = {
    .iVersion = 0, .xConnect = parts_connect, .xBestIndex = parts_best, .xDisconnect = parts_disconnect,
    .xOpen = parts_open, .xClose = parts_close, .xFilter = parts_filter, .xNext = parts_next, .xEof = parts_eof,
    .xColumn = parts_column, .xRowid = parts_rowid,
};
