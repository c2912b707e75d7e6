/* Every call of include/yenuslap.h from C, sound and refused, held to values written by hand from documents 01 and
 * 02. */
#include "checks.h"
#include "suites.h"

int main(void)
{
    check_casebooks();
    check_verdicts();
    check_splittings();
    check_cuts();
    check_quotients();
    check_line_office();
    check_sheets();
    check_aldebaran();
    check_from_cpp();
    return print_summary();
}
