/* Lends the calls a null pointer wherever a buffer has no bytes: where it is right, and where the call is refused for it.
 * It prints how many checks passed, or each that failed; the exit status is 0 only if all passed. */
#include <stddef.h>

#include "lsh_kiosk.h"

#define PROGRAM "empty_buffers"
#define LARGEST 0
#include "checks.h"
#include "empty_calls.h"

int main(void)
{
    try_pointer(NULL);
    return report();
}
