/* Answers each line of standard input, for tools/try_bindings.
 *
 * answers langid|locale|data   the normal text of the line, or "! " and the words of the refusal
 * answers pairs-langid|pairs-locale|pairs-data
 *                              of each two lines the byte order of the first, normalized, against the second, whether
 *                              they mean the same, and the order of both normal forms, as "-1 0 -1"; a refusal stands
 *                              in the place of the last, or of all three if the first is refused
 * answers lines-langid|lines-locale|lines-data
 *                              the same as langid, locale or data, by one call for all lines
 * answers faults-langid|faults-locale|faults-data
 *                              where the fault of the line stands, the kinds that may stand there, and the hint, as
 *                              "3 5 4126 0"; "-" if it has none
 * answers buffers              nothing, if each line is answered alike in buffers of every size, in every mode; and all
 *                              of them by one call as by a call each
 *
 * It asks for no memory itself. The status is 0 if it could read, write and answer all. */
#include "icu_locale.h"
#include "lines.h"

#include <stdio.h>
#include <stdlib.h>
#include <string.h>

#define UNTOUCHED 99
#define ALL 1048576

/* All lines, the answers to them by one call, and by a call each. */
static uint8_t every[ALL], at_once[ALL + 64], each[ALL];

static void stop(const char *why)
{
    fprintf(stderr, "answers: %s: %.*s\n", why, (int)first.length, (const char *)first.bytes);
    exit(1);
}

static void write_line(const char *before, const uint8_t *bytes, size_t length)
{
    fputs(before, stdout);
    fwrite(bytes, 1, length, stdout);
    putchar('\n');
}

static void write_refusal(icu_locale_status status)
{
    size_t length;
    if (icu_locale_words(status, reply, sizeof reply, &length) != ICU_LOCALE_DONE)
        stop("a status has no words");
    write_line("! ", reply, length);
}

static void answer_lines(icu_locale_mode mode)
{
    while (read_line(&first)) {
        size_t length;
        icu_locale_status status =
            icu_locale_normalize(mode, first.bytes, first.length, reply, sizeof reply, &length);
        if (status == ICU_LOCALE_DONE)
            write_line("", reply, length);
        else
            write_refusal(status);
    }
}

/* Reads what is left of standard input, and returns its length. */
static size_t read_all(void)
{
    size_t length = fread(every, 1, sizeof every, stdin);
    if (length == sizeof every)
        stop("too many lines");
    return length;
}

static void answer_all_lines(icu_locale_mode mode)
{
    size_t length = read_all(), needed = 0;
    if (icu_locale_normalize_lines(mode, every, length, at_once, sizeof at_once, &needed) != ICU_LOCALE_DONE)
        stop("not all lines are answered");
    fwrite(at_once, 1, needed, stdout);
}

static void answer_faults(icu_locale_mode mode)
{
    while (read_line(&first)) {
        size_t start = UNTOUCHED, end = UNTOUCHED;
        icu_locale_kinds kinds = UNTOUCHED;
        icu_locale_hint_number hint = UNTOUCHED;
        icu_locale_status status = icu_locale_find_fault(mode, first.bytes, first.length, &start, &end);
        if (status != icu_locale_check(mode, first.bytes, first.length))
            stop("checking says otherwise");
        if (status == ICU_LOCALE_DONE && (start != UNTOUCHED || end != UNTOUCHED))
            stop("the place of no fault is written");
        if (icu_locale_expected(mode, first.bytes, first.length, start, &kinds) != ICU_LOCALE_DONE
            || icu_locale_hint(mode, first.bytes, first.length, &hint) != ICU_LOCALE_DONE)
            stop("nothing is said of the place");
        if (status != ICU_LOCALE_DONE)
            printf("%lu %lu %lu %lu\n", (unsigned long)start, (unsigned long)end, (unsigned long)kinds, (unsigned long)hint);
        else if (hint != ICU_LOCALE_NO_HINT)
            stop("what has a meaning has a hint");
        else
            puts("-");
    }
}

/* Compares the first line with the second in two ways, and returns why not, if it is refused. */
static icu_locale_status compare(icu_locale_mode mode, int8_t *order, uint8_t *same)
{
    *order = UNTOUCHED;
    *same = UNTOUCHED;
    icu_locale_status compared =
        icu_locale_strict_cmp(mode, first.bytes, first.length, second.bytes, second.length, order);
    icu_locale_status means =
        icu_locale_normalizing_eq(mode, first.bytes, first.length, second.bytes, second.length, same);
    if ((compared == ICU_LOCALE_DONE) == (*order == UNTOUCHED) || (means == ICU_LOCALE_DONE) == (*same == UNTOUCHED))
        stop("a refused comparison has written, or another has not");
    if (compared == means || means == ICU_LOCALE_OUT_OF_MEMORY)
        return means;
    if (compared != ICU_LOCALE_OUT_OF_MEMORY)
        stop("the two comparisons end otherwise");
    return compared;
}

static void answer_pairs(icu_locale_mode mode)
{
    while (read_line(&first) && read_line(&second)) {
        int8_t order, both = UNTOUCHED;
        uint8_t same;
        icu_locale_status status = compare(mode, &order, &same);
        if (status != ICU_LOCALE_DONE) {
            write_refusal(status);
            continue;
        }
        status = icu_locale_compare(mode, first.bytes, first.length, second.bytes, second.length, &both);
        if ((status == ICU_LOCALE_DONE) == (both == UNTOUCHED))
            stop("a refused comparison has written, or another has not");
        printf("%d %d ", order, same);
        if (status == ICU_LOCALE_DONE)
            printf("%d\n", both);
        else
            write_refusal(status);
    }
}

/* In a buffer of this room the answer is the one that is known, and no byte but the answer's is written. */
static void try_room(icu_locale_mode mode, size_t room, icu_locale_status known, const uint8_t *normal, size_t length)
{
    uint8_t *buffer = second.bytes;
    size_t needed = UNTOUCHED, written = known == ICU_LOCALE_DONE && length <= room ? length : 0;
    memset(buffer, '#', length + 2);
    icu_locale_status status = icu_locale_normalize(mode, first.bytes, first.length, buffer, room, &needed);
    if (known == ICU_LOCALE_DONE && length > room)
        known = ICU_LOCALE_BUFFER_TOO_SMALL;
    if (status != known || needed != length)
        stop("the status or the length changes with the buffer");
    if (memcmp(buffer, normal, written) != 0)
        stop("the answer changes with the buffer");
    for (size_t i = written; i < length + 2; i++)
        if (buffer[i] != '#')
            stop("a byte behind the answer is written");
}

static void try_mode(icu_locale_mode mode)
{
    size_t length, start = UNTOUCHED, end = UNTOUCHED;
    icu_locale_status status = icu_locale_normalize(mode, first.bytes, first.length, reply, sizeof reply, &length);
    if ((mode > ICU_LOCALE_DATA_LOCALE) != (status == ICU_LOCALE_UNKNOWN_NUMBER))
        stop("a mode is not known, or another is");
    if (icu_locale_check(mode, first.bytes, first.length) != status)
        stop("checking says otherwise");
    if (icu_locale_find_fault(mode, first.bytes, first.length, &start, &end) != status)
        stop("the fault that is found says otherwise");
    if (mode > ICU_LOCALE_DATA_LOCALE && (start != UNTOUCHED || end != UNTOUCHED))
        stop("an unknown mode has written");
    if (length > first.length + (mode == ICU_LOCALE_DATA_LOCALE ? 4 : 0))
        stop("a normal form is longer than the header says");
    for (size_t room = 0; room <= length + 1; room++)
        try_room(mode, room, status, reply, length);
}

/* Writes to `each` what calls for each line of `every` give, and returns its length. */
static size_t answer_each(icu_locale_mode mode, size_t length)
{
    size_t start = 0, written = 0;
    while (start < length) {
        const uint8_t *line = every + start, *newline = memchr(line, '\n', length - start);
        size_t end = newline ? (size_t)(newline - every) : length, needed;
        icu_locale_status status =
            icu_locale_normalize(mode, line, end - start, each + written, sizeof each - written, &needed);
        if (status != ICU_LOCALE_DONE) {
            each[written++] = '!';
            each[written++] = ' ';
            if (icu_locale_words(status, each + written, sizeof each - written, &needed) != ICU_LOCALE_DONE)
                stop("a status has no words");
        }
        written += needed;
        each[written++] = '\n';
        start = end + 1;
    }
    return written;
}

/* In a buffer of this room the answers to the first bytes of all lines are those by a call each, and no byte but theirs
 * is written. */
static void try_all_in(icu_locale_mode mode, size_t length, size_t room, size_t wanted)
{
    size_t needed = UNTOUCHED, written = wanted <= room ? wanted : 0;
    memset(at_once, '#', wanted + 2);
    icu_locale_status status = icu_locale_normalize_lines(mode, every, length, at_once, room, &needed);
    if (status != (wanted <= room ? ICU_LOCALE_DONE : ICU_LOCALE_BUFFER_TOO_SMALL) || needed != wanted)
        stop("the status or the length of all answers changes with the buffer");
    if (memcmp(at_once, each, written) != 0)
        stop("a line is answered otherwise among others");
    for (size_t i = written; i < wanted + 2; i++)
        if (at_once[i] != '#')
            stop("a byte behind all answers is written");
}

/* The lines as a whole, and cut off at each of their first and last bytes. */
static void try_all_lines(size_t length)
{
    for (icu_locale_mode mode = ICU_LOCALE_IDENTIFIER; mode <= ICU_LOCALE_DATA_LOCALE; mode++)
        for (size_t cut = 0; cut <= length; cut += cut == 200 && length > 400 ? length - 400 : 1) {
            size_t wanted = answer_each(mode, cut);
            try_all_in(mode, cut, wanted, wanted);
            try_all_in(mode, cut, wanted + 1, wanted);
            if (wanted > 0)
                try_all_in(mode, cut, wanted - 1, wanted);
            try_all_in(mode, cut, 0, wanted);
        }
    for (icu_locale_mode mode = 3; mode != 0; mode *= 2) {
        size_t needed = UNTOUCHED;
        memset(at_once, '#', 4);
        if (icu_locale_normalize_lines(mode, every, length, at_once, sizeof at_once, &needed) != ICU_LOCALE_UNKNOWN_NUMBER ||
            needed != 0 || memcmp(at_once, "####", 4) != 0)
            stop("an unknown mode answers lines");
    }
}

static void try_buffers(void)
{
    static const icu_locale_mode modes[] = {
        ICU_LOCALE_IDENTIFIER, ICU_LOCALE_LOCALE, ICU_LOCALE_DATA_LOCALE, 3, 255, 256, 257, (icu_locale_mode)-1};
    size_t length = 0;
    while (read_line(&first)) {
        for (size_t i = 0; i < sizeof modes / sizeof *modes; i++)
            try_mode(modes[i]);
        if (first.length + 1 > sizeof every - length)
            stop("too many lines");
        memcpy(every + length, first.bytes, first.length);
        length += first.length;
        every[length++] = '\n';
    }
    try_all_lines(length);
}

/* Each status has words, and no other number. */
static void try_words(void)
{
    for (int status = 0; status < 256; status++) {
        size_t length = UNTOUCHED;
        int is_known = status <= ICU_LOCALE_NOT_FOUND;
        icu_locale_status ended = icu_locale_words((icu_locale_status)status, reply, 64, &length);
        if (ended != (is_known ? ICU_LOCALE_DONE : ICU_LOCALE_UNKNOWN_NUMBER) || (length > 0) != is_known)
            stop("the words of a status");
    }
}

/* Null pointers with no bytes are empty texts and buffers without room. */
static void try_nothing(void)
{
    size_t needed = UNTOUCHED;
    int8_t order = UNTOUCHED;
    uint8_t same = UNTOUCHED;
    first.length = 0;
    if (icu_locale_check(ICU_LOCALE_LOCALE, NULL, 0) != ICU_LOCALE_INVALID_LANGUAGE)
        stop("an empty text at a null pointer, checked");
    if (icu_locale_normalize(ICU_LOCALE_LOCALE, NULL, 0, NULL, 0, &needed) != ICU_LOCALE_INVALID_LANGUAGE || needed != 0)
        stop("an empty text at a null pointer, normalized");
    if (icu_locale_normalize(ICU_LOCALE_LOCALE, (const uint8_t *)"EN", 2, NULL, 0, &needed) != ICU_LOCALE_BUFFER_TOO_SMALL ||
        needed != 2)
        stop("no room at a null pointer");
    if (icu_locale_normalize_lines(ICU_LOCALE_LOCALE, NULL, 0, NULL, 0, &needed) != ICU_LOCALE_DONE || needed != 0)
        stop("no lines at a null pointer");
    if (icu_locale_strict_cmp(ICU_LOCALE_LOCALE, (const uint8_t *)"EN", 2, NULL, 0, &order) != ICU_LOCALE_DONE || order != 1)
        stop("an empty text at a null pointer, compared");
    if (icu_locale_normalizing_eq(ICU_LOCALE_DATA_LOCALE, (const uint8_t *)"EN", 2, NULL, 0, &same) != ICU_LOCALE_DONE ||
        same != 0)
        stop("an empty text at a null pointer, by its meaning");
    if (icu_locale_compare(ICU_LOCALE_IDENTIFIER, (const uint8_t *)"EN", 2, NULL, 0, &order) != ICU_LOCALE_INVALID_LANGUAGE)
        stop("an empty text at a null pointer, ordered");
}

int main(int count, char **words)
{
    static char in[65536], out[65536];
    const char *word = count == 2 ? words[1] : "";
    setvbuf(stdin, in, _IOFBF, sizeof in);
    setvbuf(stdout, out, _IOFBF, sizeof out);
    if (icu_locale_version() != ICU_LOCALE_VERSION)
        stop("the library is of another header");
    if (strcmp(word, "langid") == 0)
        answer_lines(ICU_LOCALE_IDENTIFIER);
    else if (strcmp(word, "locale") == 0)
        answer_lines(ICU_LOCALE_LOCALE);
    else if (strcmp(word, "data") == 0)
        answer_lines(ICU_LOCALE_DATA_LOCALE);
    else if (strcmp(word, "lines-langid") == 0)
        answer_all_lines(ICU_LOCALE_IDENTIFIER);
    else if (strcmp(word, "lines-locale") == 0)
        answer_all_lines(ICU_LOCALE_LOCALE);
    else if (strcmp(word, "lines-data") == 0)
        answer_all_lines(ICU_LOCALE_DATA_LOCALE);
    else if (strcmp(word, "pairs-langid") == 0)
        answer_pairs(ICU_LOCALE_IDENTIFIER);
    else if (strcmp(word, "pairs-locale") == 0)
        answer_pairs(ICU_LOCALE_LOCALE);
    else if (strcmp(word, "pairs-data") == 0)
        answer_pairs(ICU_LOCALE_DATA_LOCALE);
    else if (strcmp(word, "faults-langid") == 0)
        answer_faults(ICU_LOCALE_IDENTIFIER);
    else if (strcmp(word, "faults-locale") == 0)
        answer_faults(ICU_LOCALE_LOCALE);
    else if (strcmp(word, "faults-data") == 0)
        answer_faults(ICU_LOCALE_DATA_LOCALE);
    else if (strcmp(word, "buffers") == 0)
        try_buffers(), try_words(), try_nothing();
    else
        stop("usage: answers [lines-|pairs-|faults-]langid|locale|data, or answers buffers");
    return ferror(stdin) || fflush(stdout) != 0;
}
