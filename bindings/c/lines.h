/* What the programs that answer lines of standard input share. Each has a `stop` of its own, which ends it. */
#ifndef LINES_H
#define LINES_H

#include <stdint.h>
#include <stdio.h>

#define LINE 262144

struct line {
    uint8_t bytes[LINE];
    size_t length;
};

static struct line first, second;
static uint8_t reply[LINE];

static void stop(const char *why);

/* Reads a line without its newline, and returns whether there was one. */
static int read_line(struct line *line)
{
    int byte;
    line->length = 0;
    while ((byte = getchar()) != EOF && byte != '\n') {
        if (line->length == LINE)
            stop("a line is too long");
        line->bytes[line->length++] = (uint8_t)byte;
    }
    return byte == '\n' || line->length > 0;
}

#endif
