// The header from C++: its names link as C, and a refusal compares with its number.
#include "checks.h"
#include "document.h"
#include "suites.h"

void check_from_cpp(void)
{
    const uint64_t answer = yenuslap_casebook_read(BYTES(A_CASEBOOK));
    GIVES(0, answer);
    const bool truncated = yenuslap_refusal(yenuslap_casebook_read(A_CASEBOOK, 43)) == YENUSLAP_REFUSED_TRUNCATED;
    GIVES(1, truncated);
}
