/* What the tests of maluwesi.h share: checks that are counted, and a line for each that failed. */
#ifndef MALUWESI_CHECK_H
#define MALUWESI_CHECK_H

#include <stdint.h>
#include <stdio.h>

static unsigned checks, failed;

/* Every function that checks has the range text in `text`. */
#define CHECK(condition) check((condition), #condition, text, __LINE__)

static void check(int holds, const char *condition, const char *text, int line)
{
    checks++;
    if (!holds) {
        failed++;
        printf("line %d: not %s: %.40s\n", line, condition, text);
    }
}

static const uint8_t *bytes(const char *text)
{
    return (const uint8_t *)text;
}

#endif
