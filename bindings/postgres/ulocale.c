/* The type ulocale of PostgreSQL: Unicode locale identifiers, over the proved C library.
 *
 * A value is a varlena of its normal text. So equal meaning is equal bytes, and the order is that of bytes, which is
 * the order of icu_locale_compare. Operators, hashes and sorting are those of bytea: there is no code for them here.
 * Only ulocale_in, ulocale_recv and ulocale(text) make a value of a text that comes from outside; they call
 * icu_locale_normalize.
 *
 * Memory: ereport leaves a function by longjmp, and would lose what the library has from malloc. But the calls of the
 * library here go from text to text: none keeps a block when it returns. */
#include "postgres.h"

#include "access/stratnum.h"
#include "catalog/pg_type.h"
#include "fmgr.h"
#include "funcapi.h"
#include "lib/stringinfo.h"
#include "libpq/pqformat.h"
#include "mb/pg_wchar.h"
#include "nodes/makefuncs.h"
#include "nodes/nodeFuncs.h"
#include "nodes/supportnodes.h"
#include "utils/array.h"
#include "utils/builtins.h"
#include "utils/lsyscache.h"

#include "icu_locale_sql.h"

/* From version 16 on, an input function can report a refused text without a jump, for pg_input_is_valid and COPY. */
#if PG_VERSION_NUM >= 160000
#include "nodes/miscnodes.h"
#define REPORT(context, ...) errsave(context, (__VA_ARGS__))
#else
#define REPORT(context, ...) \
    do { \
        (void)(context); \
        ereport(ERROR, (__VA_ARGS__)); \
    } while (0)
#endif

PG_MODULE_MAGIC;

static sql_text text_in(struct varlena *value)
{
    return (sql_text){(const uint8_t *)VARDATA_ANY(value), VARSIZE_ANY_EXHDR(value)};
}

static text *make_text(sql_text it)
{
    return cstring_to_text_with_len((const char *)it.at, (int)it.length);
}

static void stop_out_of_memory(void)
{
    ereport(ERROR, (errcode(ERRCODE_OUT_OF_MEMORY), errmsg("out of memory")));
}

static const char *chars(sql_text given)
{
    return (const char *)given.at;
}

/* The bytes of the text that a message shows: whole characters. */
static int shown_of(sql_text given)
{
    return pg_mbcliplen(chars(given), (int)given.length, SQL_SHOWN);
}

/* The character at this byte, counted from 1, as substring counts. */
static int character_at(sql_text given, size_t start)
{
    return pg_mbstrlen_with_len(chars(given), (int)start) + 1;
}

/* The detail of a refusal: why, where, and what may stand there. */
static int detail(sql_text given, icu_locale_status status)
{
    const sql_words words = sql_words_of(status);
    size_t start = 0, end = 0;
    if (icu_locale_find_fault(ICU_LOCALE_LOCALE, given.at, given.length, &start, &end) != status)
        return errdetail("%s.", words.text);
    const sql_words expected = sql_expected_at(ICU_LOCALE_LOCALE, given, start);
    const int place = character_at(given, start);
    if (start == given.length)
        return errdetail(
            "%s: the text ends too early, at character %d: %s may stand here.", words.text, place, expected.text);
    const sql_text piece = {given.at + start, end - start};
    return errdetail("%s: \"%.*s\" at character %d: %s may stand here.", words.text, shown_of(piece), chars(piece), place,
        expected.text);
}

/* The hint of a refused text, as a sentence, if it has one. */
static int hint(sql_text given)
{
    const sql_words words = sql_hint_of(ICU_LOCALE_LOCALE, given);
    return words.text[0] ? errhint("%c%s.", pg_toupper((unsigned char)words.text[0]), words.text + 1) : 0;
}

/* Reports why and where the text is refused. It returns only if the context takes the report. */
static void refuse(Node *context, sql_text given, icu_locale_status status, int sqlstate)
{
    int shown = shown_of(given);
    if (status == ICU_LOCALE_OUT_OF_MEMORY)
        stop_out_of_memory();
    REPORT(context, errcode(sqlstate),
        errmsg("invalid input syntax for type %s: \"%.*s%s\"", "ulocale", shown, chars(given),
            shown < (int)given.length ? "..." : ""),
        detail(given, status), hint(given));
}

/* Returns the value of the text. If it is refused, and the context takes the report, returns NULL. */
static Datum make_value(Node *context, sql_text given, int sqlstate)
{
    struct varlena *made = palloc(VARHDRSZ + given.length); /* the normal form is never longer than its text */
    size_t needed;
    icu_locale_status status = icu_locale_normalize(
        ICU_LOCALE_LOCALE, given.at, given.length, (uint8_t *)VARDATA(made), given.length, &needed);
    if (status != ICU_LOCALE_DONE) {
        refuse(context, given, status, sqlstate);
        return (Datum)0;
    }
    SET_VARSIZE(made, VARHDRSZ + needed);
    return PointerGetDatum(made);
}

PG_FUNCTION_INFO_V1(ulocale_in);
Datum ulocale_in(PG_FUNCTION_ARGS)
{
    const char *given = PG_GETARG_CSTRING(0);
    return make_value(
        fcinfo->context, (sql_text){(const uint8_t *)given, strlen(given)}, ERRCODE_INVALID_TEXT_REPRESENTATION);
}

PG_FUNCTION_INFO_V1(ulocale_recv);
Datum ulocale_recv(PG_FUNCTION_ARGS)
{
    StringInfo message = (StringInfo)PG_GETARG_POINTER(0);
    int length;
    const char *given = pq_getmsgtext(message, message->len - message->cursor, &length);
    return make_value(
        NULL, (sql_text){(const uint8_t *)given, (size_t)length}, ERRCODE_INVALID_BINARY_REPRESENTATION);
}

/* ulocale(text), the cast */
PG_FUNCTION_INFO_V1(ulocale_of_text);
Datum ulocale_of_text(PG_FUNCTION_ARGS)
{
    return make_value(NULL, text_in(PG_GETARG_VARLENA_PP(0)), ERRCODE_INVALID_TEXT_REPRESENTATION);
}

/* ulocale_is_valid(text) */
PG_FUNCTION_INFO_V1(ulocale_is_valid);
Datum ulocale_is_valid(PG_FUNCTION_ARGS)
{
    sql_text given = text_in(PG_GETARG_VARLENA_PP(0));
    icu_locale_status status = icu_locale_check(ICU_LOCALE_LOCALE, given.at, given.length);
    if (status == ICU_LOCALE_OUT_OF_MEMORY)
        stop_out_of_memory();
    PG_RETURN_BOOL(status == ICU_LOCALE_DONE);
}

/* ulocale_fault(text): the reason; the piece at fault by its first character, from 1, and its length; what may stand there;
 * and what is to be done, if that is known. NULL if the text is a locale */
PG_FUNCTION_INFO_V1(ulocale_fault);
Datum ulocale_fault(PG_FUNCTION_ARGS)
{
    sql_text given = text_in(PG_GETARG_VARLENA_PP(0));
    size_t start, end;
    icu_locale_status status = icu_locale_find_fault(ICU_LOCALE_LOCALE, given.at, given.length, &start, &end);
    TupleDesc row;
    bool nulls[5] = {false, false, false, false, false};
    Datum values[5];
    if (status == ICU_LOCALE_DONE)
        PG_RETURN_NULL();
    if (get_call_result_type(fcinfo, NULL, &row) != TYPEFUNC_COMPOSITE)
        elog(ERROR, "ulocale_fault returns a row");
    values[0] = CStringGetTextDatum(sql_words_of(status).text);
    values[1] = Int32GetDatum(character_at(given, start));
    values[2] = Int32GetDatum(pg_mbstrlen_with_len(chars(given) + start, (int)(end - start)));
    values[3] = CStringGetTextDatum(sql_expected_at(ICU_LOCALE_LOCALE, given, start).text);
    const sql_words words = sql_hint_of(ICU_LOCALE_LOCALE, given);
    nulls[4] = words.text[0] == 0;
    values[4] = CStringGetTextDatum(words.text);
    PG_RETURN_DATUM(HeapTupleGetDatum(heap_form_tuple(BlessTupleDesc(row), values, nulls)));
}

/* The part that a call writes of a value; nowhere (a null pointer) if there is none. A value is a normal text, so no part
 * of it is refused. */
static sql_text part_in(sql_text given, sql_part *part)
{
    sql_text made = {palloc(sql_room_of(given)), 0};
    icu_locale_status status =
        part(ICU_LOCALE_LOCALE, given.at, given.length, (uint8_t *)made.at, sql_room_of(given), &made.length);
    if (status == ICU_LOCALE_OUT_OF_MEMORY)
        stop_out_of_memory();
    return status == ICU_LOCALE_DONE ? made : (sql_text){NULL, 0};
}

/* language(ulocale) and others: a part, as a text or a ulocale; NULL if it is absent */
#define PART(name, part) \
    PG_FUNCTION_INFO_V1(ulocale_##name); \
    Datum ulocale_##name(PG_FUNCTION_ARGS) \
    { \
        sql_text it = part_in(text_in(PG_GETARG_VARLENA_PP(0)), part); \
        if (it.length == 0) \
            PG_RETURN_NULL(); \
        PG_RETURN_TEXT_P(make_text(it)); \
    }

PART(language, icu_locale_language_of)
PART(script, icu_locale_script_of)
PART(region, icu_locale_region_of)
PART(base_name, icu_locale_base_name_of)
PART(parent, icu_locale_parent)

/* keyword(ulocale, text): '' for a key that stands alone, NULL if it is absent */
PG_FUNCTION_INFO_V1(ulocale_keyword);
Datum ulocale_keyword(PG_FUNCTION_ARGS)
{
    sql_text given = text_in(PG_GETARG_VARLENA_PP(0)), key = text_in(PG_GETARG_VARLENA_PP(1));
    sql_text made = {palloc(sql_room_of(given)), 0};
    icu_locale_status status = icu_locale_keyword_of(ICU_LOCALE_LOCALE, given.at, given.length, key.at, key.length,
        (uint8_t *)made.at, sql_room_of(given), &made.length);
    if (status == ICU_LOCALE_OUT_OF_MEMORY)
        stop_out_of_memory();
    if (status != ICU_LOCALE_DONE)
        PG_RETURN_NULL();
    PG_RETURN_TEXT_P(make_text(made));
}

/* variants(ulocale): text[] */
PG_FUNCTION_INFO_V1(ulocale_variants);
Datum ulocale_variants(PG_FUNCTION_ARGS)
{
    sql_text it = part_in(text_in(PG_GETARG_VARLENA_PP(0)), icu_locale_variants_of);
    Datum *values = palloc((it.length / 2 + 1) * sizeof *values);
    int number = 0;
    for (size_t at = 0; at < it.length; at += sql_piece_at(it, at).length + 1)
        values[number++] = PointerGetDatum(make_text(sql_piece_at(it, at)));
    PG_RETURN_ARRAYTYPE_P(construct_array(values, number, TEXTOID, -1, false, TYPALIGN_INT));
}

/* keywords(ulocale): a table of key and value */
PG_FUNCTION_INFO_V1(ulocale_keywords);
Datum ulocale_keywords(PG_FUNCTION_ARGS)
{
    ReturnSetInfo *result = (ReturnSetInfo *)fcinfo->resultinfo;
    sql_text keywords = sql_keywords(text_in(PG_GETARG_VARLENA_PP(0)));
#if PG_VERSION_NUM >= 160000
    InitMaterializedSRF(fcinfo, 0);
#else
    SetSingleFuncCall(fcinfo, 0);
#endif
    for (size_t at = 0; at < keywords.length;) {
        sql_keyword it = sql_keyword_at(keywords, at);
        bool nulls[2] = {false, false};
        Datum values[2] = {PointerGetDatum(make_text(it.key)), PointerGetDatum(make_text(it.value))};
        tuplestore_putvalues(result->setResult, result->setDesc, values, nulls);
        at = it.next;
    }
    return (Datum)0;
}

/* What max and min keep. */
PG_FUNCTION_INFO_V1(ulocale_larger);
Datum ulocale_larger(PG_FUNCTION_ARGS)
{
    struct varlena *one = PG_GETARG_VARLENA_PP(0), *other = PG_GETARG_VARLENA_PP(1);
    PG_RETURN_POINTER(sql_order(text_in(one), text_in(other)) >= 0 ? one : other);
}

PG_FUNCTION_INFO_V1(ulocale_smaller);
Datum ulocale_smaller(PG_FUNCTION_ARGS)
{
    struct varlena *one = PG_GETARG_VARLENA_PP(0), *other = PG_GETARG_VARLENA_PP(1);
    PG_RETURN_POINTER(sql_order(text_in(one), text_in(other)) <= 0 ? one : other);
}

/* matches(ulocale, ulocale), <@. Both are ulocale, so postgres_fdw sends it to another server; it never sends a
 * comparison of region(..), which is a text. */
PG_FUNCTION_INFO_V1(ulocale_matches);
Datum ulocale_matches(PG_FUNCTION_ARGS)
{
    sql_text given = text_in(PG_GETARG_VARLENA_PP(0)), range = text_in(PG_GETARG_VARLENA_PP(1));
    uint8_t is_match = 0;
    if (icu_locale_matches(given.at, given.length, range.at, range.length, &is_match) != ICU_LOCALE_DONE)
        stop_out_of_memory();
    PG_RETURN_BOOL(is_match == 1);
}

/* The condition that the argument stands in this order to these bytes, which may be the bytes of no locale. */
static Expr *bound(Oid operator, Oid type, Node *argument, sql_text bytes)
{
    Const *limit = makeConst(type, -1, InvalidOid, -1, PointerGetDatum(make_text(bytes)), false, false);
    return make_opclause(operator, BOOLOID, false, (Expr *)argument, (Expr *)limit, InvalidOid, InvalidOid);
}

/* The two arguments of matches or <@, if the second is a range that is known now; else none. */
static List *arguments_of(Node *call)
{
    List *arguments = is_opclause(call) ? ((OpExpr *)call)->args
                      : is_funcclause(call) ? ((FuncExpr *)call)->args
                                            : NIL;
    if (list_length(arguments) != 2 || !IsA(lsecond(arguments), Const))
        return NIL;
    return lsecond_node(Const, arguments)->constisnull ? NIL : arguments;
}

/* Lets a btree find x <@ 'en-US' among x >= 'en' AND x < 'en.': the dot is the byte after the hyphen, and stands in
 * no normal text. A range that begins with und has no such bounds. */
PG_FUNCTION_INFO_V1(ulocale_matches_support);
Datum ulocale_matches_support(PG_FUNCTION_ARGS)
{
    SupportRequestIndexCondition *asked = (SupportRequestIndexCondition *)PG_GETARG_POINTER(0);
    List *arguments = IsA(asked, SupportRequestIndexCondition) ? arguments_of(asked->node) : NIL;
    if (arguments == NIL || asked->indexarg != 0)
        PG_RETURN_POINTER(NULL);
    Const *range = lsecond_node(Const, arguments);
    Oid type = range->consttype;
    Oid from = get_opfamily_member(asked->opfamily, type, type, BTGreaterEqualStrategyNumber);
    Oid to = get_opfamily_member(asked->opfamily, type, type, BTLessStrategyNumber);
    sql_text whole = text_in(PG_DETOAST_DATUM_PACKED(range->constvalue)), language = sql_piece_at(whole, 0);
    if (!OidIsValid(from) || !OidIsValid(to) || sql_is_und(language))
        PG_RETURN_POINTER(NULL);
    char *high = psprintf("%.*s.", (int)language.length, (const char *)language.at);
    asked->lossy = language.length < whole.length;
    PG_RETURN_POINTER(list_make2(bound(from, type, linitial(arguments), language),
        bound(to, type, linitial(arguments), (sql_text){(const uint8_t *)high, language.length + 1})));
}

void _PG_init(void);
void _PG_init(void)
{
    if (icu_locale_version() != ICU_LOCALE_VERSION)
        ereport(ERROR, (errmsg("libicu_locale is of another header than this extension: build both anew")));
}
