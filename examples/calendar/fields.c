#include "fields.h"

uint8_t count_of(const struct swap *swap)
{
    return swap->sheet[0] % SWAP_THREE_PARTIES;
}

uint8_t parties_of(const struct swap *swap)
{
    return swap->sheet[0] < SWAP_THREE_PARTIES ? 2 : 3;
}

uint8_t payee_bit(uint8_t party)
{
    return party == SWAP_CAROL ? SWAP_PAYS_CAROL : (uint8_t)(1u << party);
}

uint8_t everybody(const struct swap *swap)
{
    return (uint8_t)((1u << parties_of(swap)) - 1);
}

bool is_among(uint8_t payees, uint8_t party)
{
    return party != SWAP_MINER && (payees & payee_bit(party)) != 0;
}

/* Both sizes, the secrets and a mask for each party. */
size_t head_of(const struct swap *swap)
{
    return 3u + parties_of(swap);
}

/* A byte of a transaction in the first array, and in the second. */
static uint8_t first_of(const struct swap *swap, uint8_t t, size_t place)
{
    return swap->sheet[head_of(swap) + 4u * t + place];
}

static uint8_t second_of(const struct swap *swap, uint8_t t, size_t place)
{
    return swap->sheet[head_of(swap) + 4u * count_of(swap) + 2u * t + place];
}

uint8_t parent_of(const struct swap *swap, uint8_t t)
{
    return first_of(swap, t, 0);
}

uint8_t payees_of(const struct swap *swap, uint8_t t)
{
    return first_of(swap, t, 1);
}

uint8_t needs_of(const struct swap *swap, uint8_t t)
{
    return first_of(swap, t, 2);
}

uint8_t veil_of(const struct swap *swap, uint8_t t)
{
    return first_of(swap, t, 3);
}

uint8_t lock_type_of(const struct swap *swap, uint8_t t)
{
    return second_of(swap, t, 0);
}

uint8_t days_of(const struct swap *swap, uint8_t t)
{
    return second_of(swap, t, 1);
}

unsigned blocks_per_day_of(const struct swap *swap)
{
    return swap->setup[0] | (unsigned)swap->setup[1] << 8;
}

uint8_t conduct_of(const struct swap *swap)
{
    return swap->setup[2];
}

uint8_t stealth_of(const struct swap *swap)
{
    return swap->setup[3];
}
