#include "words.h"

#include <stdio.h>

#include "../common/output.h"
#include "saswap.h"

void print_name(const char *name, size_t width)
{
    for (size_t length = print_visible(stdout, name); length < width; length++) {
        putchar(' ');
    }
}

uint32_t chain_height(uint32_t base, uint32_t height)
{
    return height == 0 ? 0 : base + height;
}

struct label height_label(uint32_t base, uint32_t height)
{
    struct label label = {"never"};

    if (height != SWAP_NEVER) {
        snprintf(label.text, sizeof label.text, "%lu", (unsigned long)chain_height(base, height));
    }
    return label;
}

struct label transaction_label(const struct swap *swap, uint8_t t)
{
    struct label label;

    if (is_saswap(swap)) {
        snprintf(label.text, sizeof label.text, "%s", saswap_transaction(t));
    } else {
        snprintf(label.text, sizeof label.text, "transaction %u", (unsigned)t);
    }
    return label;
}

const char *party_name(uint8_t party)
{
    static const char *const names[] = {"Alice", "Bob", "the miner", "Carol"};

    return names[party];
}

const char *destination_name(uint8_t destination)
{
    return destination == SWAP_CONTRACT ? "contract" : party_name(destination);
}

const char *payees_name(const struct swap *swap, uint8_t payees)
{
    static const char *const of_two[] = {"nobody", "Alice", "Bob", "either"};
    static const char *const of_three[] = {"nobody", "Alice", "Bob", "A or B", "Carol", "A or C", "B or C", "anyone"};

    return parties_of(swap) == 2 ? of_two[payees] : of_three[payees];
}

const char *conduct_name(uint8_t conduct)
{
    static const char *const names[] = {"open", "loose", "careful"};

    return names[conduct];
}

const char *status_word(unsigned bit)
{
    static const char *const words[STATUS_BITS] = {"pool", "block", "confirmed", "dead"};

    return words[bit];
}

struct label status_label(uint8_t status)
{
    struct label label = {"-"};
    size_t length = 0;

    for (unsigned bit = 0; bit < STATUS_BITS; bit++) {
        if ((status >> bit & 1) == 1) {
            length += (size_t)snprintf(label.text + length, sizeof label.text - length, "%s%s", length > 0 ? "+" : "",
                                       status_word(bit));
        }
    }
    return label;
}
