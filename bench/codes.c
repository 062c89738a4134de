#include "codes.h"
#include <string.h>

TWIN_CALLS(twin_clang_three)
TWIN_CALLS(twin_clang_fused)
TWIN_CALLS(twin_clang_best)
TWIN_CALLS(twin_gcc_three)
TWIN_CALLS(twin_gcc_fused)
TWIN_CALLS(twin_gcc_best)

#define CODE(name, prefix) \
    { \
        name, prefix##_check, prefix##_check_two, prefix##_list, prefix##_zone_range, \
            prefix##_sheet, prefix##_links, prefix##_links_check, prefix##_list_linked, \
            prefix##_number, prefix##_book_check, prefix##_book_body, prefix##_book_write, \
            prefix##_ask \
    }

const struct code codes[CODES] = {
#ifndef WITHOUT_ARCHIVE
    CODE("archive", belfry),
#endif
    CODE("clang-three", twin_clang_three),
    CODE("clang-fused", twin_clang_fused),
    CODE("clang-best", twin_clang_best),
    CODE("gcc-three", twin_gcc_three),
    CODE("gcc-fused", twin_gcc_fused),
    CODE("gcc-best", twin_gcc_best),
};

const struct code *code_named(const char *name) {
    for (size_t i = 0; i < CODES; i++)
        if (strcmp(codes[i].name, name) == 0)
            return &codes[i];
    return NULL;
}
