/* Calls the page from C: its text for P10, the refusals of the sheet, the setup and the journal, and buffers that are too short. */
#include <string.h>

#include "expect.h"

_Static_assert(SWAP_PAGE_SIZE == 2409, "the size that is documented");

/* What every buffer holds before a call. */
#define FILL 170

static const uint8_t sheet[] = {2, 2, 0, 1, 2, 255, 0, 1, 0, 0, 2, 2, 0, 0, 0, 1, 1};
static const uint8_t setup[] = {1, 0, 0, 0};
static const uint8_t journal[] = {3, 0, 0, 2, 5, 2, 0, 2, 6, 2, 255, 2, 3, 1, 1, 1, 5, 2, 1, 2, 6, 2, 255, 2};

static const char header[] = " no  st    payee   block     lock height        deadline                \n";

static uint8_t output[SWAP_PAGE_SIZE];

/* A page of the first bytes of the journal, into a filled buffer of this length. */
static uint32_t page(size_t journal_length, size_t output_length)
{
    memset(output, FILL, sizeof output);
    return swap_page(sheet, sizeof sheet, setup, sizeof setup, journal, journal_length, output, output_length);
}

/* All bytes from this one on are as they were. */
static int kept_from(size_t at)
{
    size_t i;

    for (i = at; i < sizeof output; i++) {
        if (output[i] != FILL) {
            return 0;
        }
    }
    return 1;
}

/* A page with this text. */
static void shows(const char *name, size_t journal_length, const char *first, const char *second)
{
    char text[3 * SWAP_PAGE_LINE + 1];

    sprintf(text, "%s%s%s", header, first, second);
    expect_answer(name, page(journal_length, 3 * SWAP_PAGE_LINE), SWAP_ACCEPTED, 0);
    expect(name, memcmp(output, text, 3 * SWAP_PAGE_LINE) == 0 && kept_from(3 * SWAP_PAGE_LINE));
    expect_answer(name, page(journal_length, sizeof output), SWAP_ACCEPTED, 0);
    expect(name, memcmp(output, text, 3 * SWAP_PAGE_LINE) == 0 && kept_from(3 * SWAP_PAGE_LINE));
    expect_answer(name, page(journal_length, 3 * SWAP_PAGE_LINE - 1), SWAP_BUFFER_SHORT, 0);
    expect(name, kept_from(0));
}

int main(void)
{
    shows("nothing yet", 0,
          "  0   0        -       0               0           never                \n",
          "  1   0        -       0               1           never                \n");
    shows("P10", sizeof journal,
          "  0   4 contract       1               0           never                \n",
          "  1   4      Bob       2               1           never                \n");
    expect_answer("no buffer", swap_page(sheet, sizeof sheet, setup, sizeof setup, NULL, 0, NULL, 0), SWAP_BUFFER_SHORT, 0);
    expect_answer("no sheet", swap_page(NULL, 0, setup, sizeof setup, NULL, 0, NULL, 0), SWAP_SHEET_SHORT, 0);
    expect_answer("no setup", swap_page(sheet, sizeof sheet, NULL, 0, NULL, 0, NULL, 0), SWAP_SETUP_BLOCKS, 0);
    expect_answer("two bytes", page(2, sizeof output), SWAP_JOURNAL_LENGTH, 0);
    expect("two bytes", kept_from(0));
    expect_answer("a step's refusal before 25",
                  swap_page(sheet, sizeof sheet, setup, sizeof setup, journal + 4, 4, NULL, 0), SWAP_STEP_POOL, 0);
    return finish();
}
