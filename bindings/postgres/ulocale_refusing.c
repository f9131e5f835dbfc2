/* Only in the build of `make TRY=1`, for sql/refused.sql: what it asks of bindings/c/refusing.c, through which the
 * library of that build asks for memory. */
#include "postgres.h"

#include "fmgr.h"

#include "refusing.h"

/* Refuses the request after so many; none if the number is negative. */
PG_FUNCTION_INFO_V1(ulocale_try_refuse);
Datum ulocale_try_refuse(PG_FUNCTION_ARGS)
{
    refusing_after((long)PG_GETARG_INT64(0));
    PG_RETURN_VOID();
}

/* How many requests were refused since then. */
PG_FUNCTION_INFO_V1(ulocale_try_refused);
Datum ulocale_try_refused(PG_FUNCTION_ARGS)
{
    PG_RETURN_INT64(refusing_refused());
}

/* How many blocks the library holds. */
PG_FUNCTION_INFO_V1(ulocale_try_live);
Datum ulocale_try_live(PG_FUNCTION_ARGS)
{
    PG_RETURN_INT64(refusing_live());
}
