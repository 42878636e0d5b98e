/*
 * The files of a swap as text that people write and read. Usage and meaning stand in `help` below; the text form in
 * docs/FORMATS.md.
 */
#include <stdio.h>
#include <string.h>

#include "../calendar/arguments.h"
#include "../calendar/position.h"
#include "../calendar/saswap.h"
#include "../calendar/words.h"
#include "../common/output.h"
#include "../common/text.h"
#include "store.h"

/* The exit status. */
enum { FINE = 0, REFUSED = 1, BAD_USAGE = 2 };

static const char *const manual[] = {
    "usage: swapfile encode TEXT FOLDER\n"
    "       swapfile decode [--anyway] FOLDER\n"
    "       swapfile new saswap BLOCKS_PER_DAY FOLDER [SIDE]\n",
    "\n"
    "encode  reads the text of a swap and writes sheet.bin, setup.bin and journal.bin\n"
    "        to FOLDER, and the file `side` where the text has a side. What is wrong,\n"
    "        or what the engine refuses, is told with its line, and nothing is written.\n"
    "        The steps of a journal that is there already must be the first of the\n"
    "        text's, on the same sheet and setup: none gets lost.\n"
    "decode  prints the text of the swap in FOLDER, which the engine must accept; with\n"
    "        --anyway also of one that is refused: the refused step with the reason, the\n"
    "        steps behind it, and as comments the bytes that no words stand for.\n"
    "new     writes a swap to start from: the SASwap sheet for 1 to 1000 blocks per\n"
    "        day, careful conduct, no stealth, an empty journal; with SIDE, alice or\n"
    "        bob, the file `side` too. FOLDER holds no swap before.\n"
    "\n"
    "    swapfile new saswap 144 deal && swapfile decode deal >deal.txt\n"
    "\n"
    "then add steps below `journal:` in deal.txt, and\n"
    "\n"
    "    swapfile encode deal.txt deal && ./calendar deal\n"
    "\n"
    "encode and new write while they hold the lock of the file journal.lock in FOLDER,\n"
    "for which a dealer waits; it stays there, empty. docs/FORMATS.md has the text form.\n"
    "\n"
    "Exit status: 0 done; 1 refused, or a file cannot be read or written, or the output\n"
    "not be written; 2 bad usage.\n",
};

static int misuse(const char *argument, const char *reason)
{
    if (argument != NULL) {
        complain("swapfile", argument, "", reason);
    }
    fputs(manual[0], stderr);
    return BAD_USAGE;
}

static int encode(const char *file, const char *folder)
{
    static struct swap swap;
    uint8_t sides;

    return encode_text("swapfile", file, &swap, &sides) && store_swap(folder, &swap, side_name(sides), false) ? FINE : REFUSED;
}

/* Prints a swap; one that is refused only where that is wanted anyway. */
static int decode(const char *folder, bool anyway)
{
    static struct swap swap;
    uint8_t sides;
    struct fault fault = read_swap(folder, &swap, &sides);
    uint32_t answer;

    if (fault.file != NULL) {
        complain("swapfile", folder, fault.file, fault.reason);
        return REFUSED;
    }
    answer = swap_run(swap.sheet, swap.sheet_length, swap.setup, swap.setup_length, swap.journal, swap.journal_length);
    if (SWAP_REFUSAL(answer) == SWAP_ACCEPTED) {
        decode_text(&swap, sides);
        return FINE;
    }
    if (anyway) {
        decode_refused(&swap, sides, answer);
        return FINE;
    }
    complain_refusal("swapfile", folder, answer);
    return REFUSED;
}

/* A number from 1 to 1000, or 0 where it is none. */
static unsigned blocks_named(const char *text)
{
    size_t length = strlen(text);
    unsigned value = 0;

    if (length == 0 || length > 4 || strspn(text, "0123456789") != length) {
        return 0;
    }
    for (; *text != '\0'; text++) {
        value = 10 * value + (unsigned)(*text - '0');
    }
    return value <= 1000 ? value : 0;
}

static int start(const char *sheet, const char *blocks, const char *folder, const char *side)
{
    static struct swap swap;
    unsigned blocks_per_day = blocks_named(blocks);

    if (strcmp(sheet, "saswap") != 0) {
        return misuse(sheet, "the only sheet known by name is saswap");
    }
    if (blocks_per_day == 0) {
        return misuse(blocks, "no number from 1 to 1000");
    }
    if (side != NULL && (side_named(side) == 0 || side_named(side) == SWAP_PAYS_CAROL)) {
        return misuse(side, "neither alice nor bob");
    }
    saswap_sheet(blocks_per_day, swap.sheet);
    swap.sheet_length = SASWAP_SIZE;
    swap.setup[0] = (uint8_t)(blocks_per_day & 255u);
    swap.setup[1] = (uint8_t)(blocks_per_day >> 8);
    swap.setup[2] = SWAP_CAREFUL;
    swap.setup_length = SWAP_SETUP_SIZE;
    return store_swap(folder, &swap, side, true) ? FINE : REFUSED;
}

/* Does what is asked: the exit status. */
static int act(int argc, char **argv)
{
    if (argc == 2 && strcmp(argv[1], "--help") == 0) {
        printf("%s%s", manual[0], manual[1]);
        return FINE;
    }
    if (argc == 4 && strcmp(argv[1], "encode") == 0) {
        return encode(argv[2], argv[3]);
    }
    if (argc == 3 && strcmp(argv[1], "decode") == 0) {
        return decode(argv[2], false);
    }
    if (argc == 4 && strcmp(argv[1], "decode") == 0 && strcmp(argv[2], "--anyway") == 0) {
        return decode(argv[3], true);
    }
    if ((argc == 5 || argc == 6) && strcmp(argv[1], "new") == 0) {
        return start(argv[2], argv[3], argv[4], argc == 6 ? argv[5] : NULL);
    }
    return misuse(NULL, NULL);
}

int main(int argc, char **argv)
{
    open_standard();
    return printed("swapfile", act(argc, argv), NULL);
}
