/* Prints the normal form of each of its arguments, or why there is none, by one call for all of them. No argument may hold a
 * newline. */
#include "icu_locale.h"

#include <stdio.h>
#include <stdlib.h>
#include <string.h>

/* The arguments, each with a newline behind it. */
static char *lines_of(int count, char **words, size_t *length)
{
    *length = 0;
    for (int i = 0; i < count; i++)
        *length += strlen(words[i]) + 1;
    char *lines = malloc(*length + 1), *end = lines;
    for (int i = 0; lines != NULL && i < count; i++)
        end += sprintf(end, "%s\n", words[i]);
    return lines;
}

/* Prints the answers, a line for each argument, and returns whether one is refused. */
static int print_answers(int count, char **words, const char *answer)
{
    int is_refused = 0;
    for (int i = 0; i < count; i++) {
        int length = (int)strcspn(answer, "\n");
        if (answer[0] == '!')
            is_refused = printf("%s: %.*s\n", words[i], length - 2, answer + 2) > 0;
        else
            printf("%.*s\n", length, answer);
        answer += length + 1;
    }
    return is_refused;
}

int main(int count, char **words)
{
    size_t length, needed;
    char *lines = lines_of(count - 1, words + 1, &length);
    size_t room = length + 39 * (size_t)count;
    char *answers = malloc(room);
    if (lines == NULL || answers == NULL)
        return 2;
    icu_locale_status status = icu_locale_normalize_lines(
        ICU_LOCALE_LOCALE, (const uint8_t *)lines, length, (uint8_t *)answers, room, &needed);
    int is_refused = status != ICU_LOCALE_DONE || print_answers(count - 1, words + 1, answers);
    free(lines);
    free(answers);
    return is_refused;
}
