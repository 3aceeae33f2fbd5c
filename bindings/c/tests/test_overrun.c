/* Calls with a buffer that is smaller than it says. AddressSanitizer ends this program with a report of a heap-buffer-overflow: so it
 * would have reported a write of the library past any buffer of the other tests. */
#include "promql.h"

#include <stdlib.h>

int main(void)
{
    struct promql_result result;
    char *buffer = malloc(4);
    if (buffer == NULL)
        abort();
    uint32_t status = promql_canonical("1+2", 3, buffer, 5, &result);
    free(buffer);
    return status == PROMQL_OK ? 0 : 1;
}
