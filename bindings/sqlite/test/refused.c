/* Refuses each request for memory of a statement in turn: those of the library, then those of SQLite as well. The
 * statement must answer as it does with memory, or end as out of memory. Afterwards the library holds nothing.
 *
 * The last line is: N cases as wanted. */
#include "../../c/refusing.h"

#include <sqlite3.h>
#include <stdio.h>
#include <stdlib.h>
#include <string.h>

#define ROOM 4096
/* A long locale, for which an answer takes a block. */
#define LONG \
    "'EN-aaaaa-bbbbb-ccccc-ddddd-eeeee-fffff-u-kn-ca-buddhist-hc-h12-t-de-m0-din-a-foo-b-bar-x-a-b-c-d-e-f" \
    "-abcdefgh-abcdefgh-abcdefgh-abcdefgh'"

int sqlite3_iculocalesqlite_init(sqlite3 *, char **, const void *);

static const char *const begins[] = {
    "CREATE TABLE page(tag TEXT CHECK (locale_is_valid(tag)), normal TEXT AS (locale_normalize(tag)) STORED)",
    "CREATE UNIQUE INDEX page_normal ON page(normal)", "INSERT INTO page(tag) VALUES ('en-u-kn-ca-buddhist')"};

static const char *const statements[] = {
    "SELECT locale_normalize(" LONG ")",
    "SELECT locale_normalize('EN-u-kn-ca-buddhist')",
    "SELECT locale_normalize('EN-u-kn-ca-buddhist-x')",
    "SELECT locale_is_valid('en-a-foo-t-de-m0-din')",
    "SELECT locale_keyword('en-u-kn-ca-buddhist', 'ca'), locale_language('EN-us')",
    "SELECT locale_fault('en-a-foo-u')",
    "SELECT locale_parent('en-aaaaa-bbbbb-ccccc-ddddd-eeeee'), locale_parent('en-US-u-kn-ca-buddhist')",
    "SELECT locale_matches(" LONG ", 'EN-u-ca-buddhist-kn'), locale_matches('de', 'und')",
    "SELECT locale_matches('EN-u-ca-buddhist-kn', 'en-')",
    "SELECT group_concat(part || coalesce(key, '') || value) FROM locale_parts(" LONG ")",
    "SELECT count(*) FROM locale_parts('en-')",
    "SELECT group_concat(it) FROM (SELECT column1 AS it FROM (VALUES (" LONG "), ('EN-A-foo'), ('de'), ('en-zzzzz'))"
        " ORDER BY it COLLATE LOCALE)",
    "SELECT locale_variants('en-posix-macos'), locale_region('en-us')",
    "INSERT INTO page(tag) VALUES ('DE-u-kn-ca-buddhist') RETURNING normal",
    "INSERT INTO page(tag) VALUES ('EN-U-ca-buddhist-kn')",
    "DELETE FROM page WHERE normal = 'de-u-ca-buddhist-kn'"};

/* Whether the requests of SQLite are counted and refused too. */
static int of_sqlite;
static sqlite3_mem_methods plain;

/* A request that is made only to be counted, and maybe refused. */
static int is_refused(void)
{
    void *block = of_sqlite ? refusing_malloc(1) : &of_sqlite;
    if (block != NULL && of_sqlite)
        refusing_free(block);
    return block == NULL;
}

static void *sqlite_malloc(int size) { return is_refused() ? NULL : plain.xMalloc(size); }
static void *sqlite_realloc(void *at, int size) { return is_refused() ? NULL : plain.xRealloc(at, size); }

static void stop(const char *why, const char *what)
{
    printf("%s: %s\n", what, why);
    exit(1);
}

/* Adds the values of a row to what the statement said. Ends as out of memory if a value has no text for want of it. */
static int add_row(sqlite3_stmt *it, char *said)
{
    for (int i = 0; i < sqlite3_column_count(it); i++) {
        const char *text = (const char *)sqlite3_column_text(it, i);
        if (text == NULL && sqlite3_column_type(it, i) != SQLITE_NULL)
            return SQLITE_NOMEM;
        strncat(said, text ? text : "NULL", ROOM - strlen(said) - 2);
        strcat(said, "|");
    }
    return SQLITE_ROW;
}

/* Runs a statement: its status, and its rows or its error as one text. */
static int answer(sqlite3 *db, const char *sql, char *said)
{
    sqlite3_stmt *it = NULL;
    int status = sqlite3_prepare_v2(db, sql, -1, &it, NULL);
    said[0] = 0;
    while (status == SQLITE_OK || status == SQLITE_ROW) {
        status = sqlite3_step(it);
        if (status == SQLITE_ROW)
            status = add_row(it, said);
    }
    if (status == SQLITE_ERROR)
        strncat(said, sqlite3_errmsg(db), ROOM - strlen(said) - 2);
    sqlite3_finalize(it);
    return status == SQLITE_INTERRUPT ? SQLITE_NOMEM : status; /* (a collation can say it in no other way) */
}

static sqlite3 *open_database(void)
{
    sqlite3 *db;
    char *error = NULL;
    refusing_after(-1);
    if (sqlite3_open(":memory:", &db) || sqlite3_iculocalesqlite_init(db, &error, NULL))
        stop(error ? error : "it was not opened", "the database");
    for (size_t i = 0; i < sizeof begins / sizeof *begins; i++)
        if (sqlite3_exec(db, begins[i], NULL, NULL, &error))
            stop(error, begins[i]);
    return db;
}

/* Runs a statement in a new database, where so many requests are granted before one is refused. */
static int run(const char *sql, long granted, char *said)
{
    sqlite3 *db = open_database();
    refusing_after(granted);
    int status = answer(db, sql, said);
    long is_refused = refusing_refused();
    refusing_after(-1);
    sqlite3_close(db);
    if (refusing_live() != 0)
        stop("the library holds blocks", sql);
    return granted >= 0 && !is_refused ? -1 : status;
}

/* Refuses each request of the statement, and returns how many there were. SQLite itself drops the words of an error for
 * which it has no memory. */
static long refuse_each(const char *sql)
{
    char wanted[ROOM], said[ROOM];
    int wanted_status = run(sql, -1, wanted), status;
    long granted = 0;
    if (wanted_status == SQLITE_NOMEM)
        stop("out of memory without a reason", sql);
    for (; (status = run(sql, granted, said)) != -1; granted++) {
        int is_lost = of_sqlite && strcmp(said, "SQL logic error") == 0;
        if (status != SQLITE_NOMEM && (status != wanted_status || (strcmp(said, wanted) != 0 && !is_lost)))
            stop(said, sql);
    }
    return granted;
}

int main(void)
{
    sqlite3_mem_methods own;
    long number = 0;
    sqlite3_config(SQLITE_CONFIG_LOOKASIDE, 0, 0);
    sqlite3_config(SQLITE_CONFIG_GETMALLOC, &plain);
    own = plain;
    own.xMalloc = sqlite_malloc;
    own.xRealloc = sqlite_realloc;
    sqlite3_config(SQLITE_CONFIG_MALLOC, &own);
    for (; of_sqlite < 2; of_sqlite++)
        for (size_t i = 0; i < sizeof statements / sizeof *statements; i++)
            number += refuse_each(statements[i]);
    sqlite3_shutdown();
    if (sqlite3_memory_used() != 0)
        stop("SQLite holds memory", "at the end");
    printf("%ld cases as wanted\n", number);
    return 0;
}
