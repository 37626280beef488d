// Lends the calls the pointer of an empty vector wherever a buffer has no bytes; that of libstdc++ is null.
// It prints how many checks passed, or each that failed; the exit status is 0 only if all passed.
#include <cstdint>
#include <vector>

#include "lsh_kiosk.h"

#define PROGRAM "empty_vectors"
#define LARGEST 0
#include "checks.h"
#include "empty_calls.h"

int main()
{
    std::vector<uint8_t> none;
    try_pointer(none.data());
    return report();
}
