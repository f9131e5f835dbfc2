/* What the files of the SQLite extension share. */
#ifndef ICU_LOCALE_SQLITE_H
#define ICU_LOCALE_SQLITE_H

#include "../sql/icu_locale_sql.h"
#include "sqlite3ext.h"

/* Why and where the text is refused, what may stand there, and what is usually meant, such as
 *
 *     Invalid subtag: 'en-US-foo' at 6..9: a variant or an extension may stand here
 *
 * The caller frees it with sqlite3_free. NULL if memory is out. */
char *locale_message(icu_locale_mode mode, sql_text text, icu_locale_status status);

/* The table locale_parts. */
extern const sqlite3_module locale_parts;

#endif
