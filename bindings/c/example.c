/* Prints queries in their canonical form, or why and where they are rejected: example QUERY.. */
#include "promql.h"

#include <stdio.h>
#include <stdlib.h>
#include <string.h>

/* Makes the buffer as large as the result asks for. Returns whether the call is to be made again. */
static int grow(char **buffer, size_t *size, const struct promql_result *result)
{
    if (result->length <= *size)
        return 0;
    free(*buffer);
    *size = result->length;
    *buffer = malloc(*size);
    if (*buffer == NULL)
        abort();
    return 1;
}

int main(int argc, char **argv)
{
    struct promql_result result;
    char *buffer = NULL;
    size_t size = 0;
    int status = 0;

    for (int i = 1; i < argc; i++) {
        const char *query = argv[i];
        size_t length = strlen(query);
        do
            promql_canonical(query, length, buffer, size, &result);
        while (grow(&buffer, &size, &result));
        if (result.status == PROMQL_OK) {
            printf("%.*s\n", (int)result.length, buffer);
            continue;
        }
        status = 1;
        fprintf(stderr, "%zu:%zu: %.*s\n", result.line, result.column, (int)result.length, buffer);
        size_t start = result.start, end = result.end;
        do
            promql_snippet(query, length, start, end, buffer, size, &result);
        while (grow(&buffer, &size, &result));
        fprintf(stderr, "%.*s\n", (int)result.length, buffer);
    }
    free(buffer);
    return status;
}
