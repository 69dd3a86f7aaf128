// include/flockdrift.h from C++: the struct of a book, and that every inline function compiles and links.
#include "flockdrift.h"

#include <cstring>

int main()
{
    const uint32_t network = 0x0a000100;
    const uint8_t length = 24;
    const uint8_t ask[] = {0xdc, 9, 0, 1, 2, 0, 26, 3, 2, 'a', 'b'};
    const uint8_t name[] = {0xdc, 11, 0, 2, 8, 0, 10, 0, 1, 0, 26, 0, 0};
    const uint8_t told[] = {0xdc, 13, 0, 2, 10, 0, 10, 0, 1, 0, 26, 0, 2, 1, 10};
    const uint8_t all[] = {0xdc, 5, 0, 1, 2, 2, 0};
    static char text[FLOCKDRIFT_TEXT_CAPACITY];
    const uint8_t here[] = {118, 4, 10, 0, 1, 255};
    const uint8_t nowhere[] = {118, 4, 10, 0, 2, 0};
    uint8_t reply[FLOCKDRIFT_SELECTED_REPLY_CAPACITY];
    uint8_t saved[FLOCKDRIFT_IMAGE_CAPACITY];
    flockdrift_book book{};

    bool good = flockdrift_book_check(&book).number == FLOCKDRIFT_NOT_AN_IMAGE;
    good = good && flockdrift_book_open(&book, &network, 1, &length, 1, 3600, 28, 1000).number == 0;
    const flockdrift_book before = book;
    good = good && flockdrift_book_ask(&book, 7, 1000, ask, sizeof ask, 0, nullptr, 0, reply, sizeof reply).count == 1;
    good = good && flockdrift_book_ask(&book, 7, 1000, ask, sizeof ask, 1, here, sizeof here, reply,
                                       sizeof reply).bytes == 19;
    good = good && flockdrift_book_ask(&book, 7, 1000, ask, sizeof ask, 1, nowhere, sizeof nowhere, reply,
                                       sizeof reply).number == FLOCKDRIFT_NOT_IN_A_POOL;
    good = good && flockdrift_book_take(&book, 7, 1010, name, sizeof name, 1, here, sizeof here, reply,
                                        sizeof reply).count == 1;
    good = good && flockdrift_book_take(&book, 7, 1010, told, sizeof told, 0, nullptr, 0, reply, sizeof reply).count == 1;
    const flockdrift_figures figures = flockdrift_book_figures(&book, 0);
    good = good && figures.network == network && figures.length == 26;
    good = good && figures.high_water == 266 && figures.in_use == FLOCKDRIFT_UNTOLD;
    good = good && flockdrift_book_list(&book, 7, 1020, all, sizeof all, reply, sizeof reply).count == 1;
    good = good && flockdrift_book_mark(&book, network, 26, 1, 1030).number == 0;
    good = good && flockdrift_book_head(&book).leases == 1 && flockdrift_book_pool(&book, 0).network == network;
    const flockdrift_lease_answer lease = flockdrift_book_lease(&book, 0);
    good = good && lease.state == FLOCKDRIFT_LEASED && lease.name_bytes == 2 && std::memcmp(lease.name, "ab", 3) == 0;
    good = good && flockdrift_book_save(&book, FLOCKDRIFT_FIRST_FORM, 0, saved, sizeof saved).number == FLOCKDRIFT_NAMES_LOST;
    good = good && flockdrift_book_save(&before, FLOCKDRIFT_FIRST_FORM, 1, saved, sizeof saved).bytes == 22;
    good = good && FLOCKDRIFT_FIRST_FORM_CAPACITY < sizeof saved;
    good = good && flockdrift_book_whole(&before, 24).count == 1 && flockdrift_book_whole(&book, 26).count == 1;
    const uint32_t bytes = flockdrift_book_save(&book, FLOCKDRIFT_SECOND_FORM, 0, saved, sizeof saved).bytes;
    good = good && flockdrift_book_sheet(&book, text, sizeof text).number == 0;
    good = good && flockdrift_book_release(&book, 7, 1040, name, sizeof name).count == 1;
    good = good && flockdrift_book_load(&book, saved, bytes).number == 0;
    good = good && flockdrift_book_lease(&book, 0).expires == 4610 && flockdrift_book_head(&before).leases == 0;
    good = good && flockdrift_book_figures(&book, 0).high_water == FLOCKDRIFT_UNTOLD;
    good = good && flockdrift_write_selection(network, reply, sizeof reply).bytes == FLOCKDRIFT_SELECTION_CAPACITY;
    good = good && flockdrift_read_selection(reply, FLOCKDRIFT_SELECTION_CAPACITY).address == network;
    good = good && flockdrift_check_option(ask, sizeof ask).number == 0;
    return good && std::strcmp(flockdrift_text(11), "nothing found") == 0 ? 0 : 1;
}
