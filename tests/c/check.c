/* Calls swap_check from C, on the examples of document 01's refusal table, a null pointer and a sound sheet. */
#include "expect.h"

#define SHEET(name, refusal, ...)                                             \
    do {                                                                      \
        const uint8_t sheet[] = {__VA_ARGS__};                                \
        expect_answer(name, swap_check(sheet, sizeof sheet), (refusal), 0);   \
    } while (0)

int main(void)
{
    const uint8_t byte = 0;

    expect_answer("null", swap_check(NULL, 0), SWAP_SHEET_SHORT, 0);
    expect_answer("empty", swap_check(&byte, 0), SWAP_SHEET_SHORT, 0);
    SHEET("no transaction", SWAP_SHEET_COUNT, 0, 1, 0, 0, 0);
    SHEET("nine signatures", SWAP_SHEET_SIGNATURES, 1, 9, 0, 0, 0);
    SHEET("head alone", SWAP_SHEET_LENGTH, 1, 1, 0, 1, 0);
    SHEET("parent 0 of entry 0", SWAP_SHEET_PARENT, 1, 1, 0, 1, 0, 0, 1, 1, 0, 0, 0);
    SHEET("needs 0", SWAP_SHEET_ENTRY, 1, 1, 0, 1, 0, 255, 1, 0, 0, 0, 0);
    SHEET("opening, type 2", SWAP_SHEET_LOCK, 1, 1, 0, 1, 0, 255, 1, 1, 0, 2, 1);
    SHEET("one entry, payees 0", SWAP_SHEET_CHILDREN, 1, 1, 0, 1, 0, 255, 0, 1, 0, 0, 0);
    SHEET("one entry, payees 1", SWAP_ACCEPTED, 1, 1, 0, 1, 0, 255, 1, 1, 0, 0, 0);
    return finish();
}
