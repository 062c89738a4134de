/* An archive that is not Belfrychest's, for tests of the crate: its version is FAKE_VERSION, or it
 * has none where that is not defined, and every call answers 99. */
#include "belfrychest.h"

static const belfry_verdict refused = {99, 0, 0};

extern "C" {

#ifdef FAKE_VERSION
uint32_t belfry_version(void) {
    return FAKE_VERSION;
}
#endif

belfry_verdict belfry_check(const uint32_t *, size_t) {
    return refused;
}
belfry_verdict belfry_check_two(const uint32_t *, size_t, const uint32_t *, size_t) {
    return refused;
}
belfry_part belfry_faulty(const uint32_t *, size_t, const uint32_t *, size_t) {
    return {refused, 0, 0};
}
belfry_page belfry_list(const uint32_t *, size_t, const uint32_t *, size_t, belfry_ticket ticket,
                        uint32_t *, size_t) {
    return {refused, 0, 0, ticket};
}
belfry_page belfry_list_linked(const uint32_t *, size_t, const uint32_t *, size_t, const uint32_t *,
                               size_t, belfry_ticket ticket, uint32_t *, size_t) {
    return {refused, 0, 0, ticket};
}
belfry_range belfry_zone_range(const uint32_t *, size_t, const uint32_t *, size_t, const uint32_t *,
                               size_t, uint32_t) {
    return {refused, 0, 0, 0};
}
belfry_result belfry_sheet(const uint32_t *, size_t, const uint32_t *, size_t, const uint32_t *,
                           size_t, uint32_t *, size_t) {
    return {refused, 0};
}
belfry_result belfry_number(uint32_t, const uint32_t *, size_t, uint32_t *, size_t) {
    return {refused, 0};
}
belfry_unnumbered belfry_unnumber(const uint32_t *, size_t, uint32_t *, size_t) {
    return {99, 0, 0};
}
belfry_result belfry_pick(const uint32_t *, size_t, uint32_t, uint32_t *, size_t) {
    return {refused, 0};
}
belfry_result belfry_links(const uint32_t *, size_t, uint32_t *, size_t) {
    return {refused, 0};
}
belfry_verdict belfry_links_check(const uint32_t *, size_t, const uint32_t *, size_t) {
    return refused;
}
belfry_book belfry_book_check(const uint8_t *, size_t) {
    return {refused, 0};
}
belfry_body belfry_book_body(const uint8_t *, size_t, uint32_t) {
    return {refused, 0, 0};
}
belfry_result belfry_book_write(const uint32_t *, size_t, const uint32_t *, size_t, uint8_t *,
                                size_t) {
    return {refused, 0};
}
belfry_pages belfry_ask(const uint8_t *, size_t, const uint32_t *, size_t, uint32_t *, size_t) {
    return {99, 0, {}};
}
void belfry_name(uint32_t, uint8_t[BELFRY_NAME_BYTES]) {}
}
