/* The normal text of each line of standard input under Npm, one to a line; `!` and the number where it is refused. */
#include "../bindings/c/maluwesi.h"

#include <stdio.h>
#include <string.h>

int main(void)
{
    static char line[4096];
    static uint8_t out[8 * sizeof line + 7];
    while (fgets(line, sizeof line, stdin)) {
        size_t len;
        uint64_t refusal = maluwesi_normal_text((const uint8_t *)line, strcspn(line, "\n"), MALUWESI_NPM, out, sizeof out, &len);
        if (refusal == MALUWESI_OK)
            printf("%.*s\n", (int)len, (const char *)out);
        else
            printf("!%d\n", (int)refusal);
    }
}
