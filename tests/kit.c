/* Prints what desk.h and the library say of refusals, limits and the version; tests/host compares it with the sources of each.
 * names.h, which tests/host makes, has a line NAME(x) for each constant of desk.h's enum. */
#include <desk.h>
#include <stdio.h>

int main(void)
{
#define NAME(x) printf("%d\t%s\t%s\n", x, #x, desk_explain(x));
#include "names.h"
    printf("%d refusals\n", DESK_REFUSALS);
    printf("%s\n%s\n", desk_explain(DESK_REFUSALS + 1), desk_explain(UINT64_MAX));
    printf("line_limit = %d\nbody_limit = %d\ntext_limit = %d\nlisting_limit = %d\nstring_limit = %d\nstring_bytes_limit = %d\n",
           DESK_MAX_LINE, DESK_MAX_BODY, DESK_MAX_TEXT, DESK_MAX_LISTING, DESK_MAX_STRINGS, DESK_MAX_STRING_BYTES);
    printf("%s is %d.%d.%d\n", DESK_VERSION, DESK_VERSION_MAJOR, DESK_VERSION_MINOR, DESK_VERSION_PATCH);
    printf("%s", desk_version());
    return 0;
}
