/* A program over the installed library, in C or C++: two transactions, of which the first is confirmed. */
#include <stdio.h>
#include <swap.h>

int main(void)
{
    const uint8_t sheet[] = {2, 2, 0, 1, 2, SWAP_NONE, 0, 1, 0, 0, SWAP_PAYS_BOB, 2, 0, SWAP_UNLOCKED, 0, SWAP_ABSOLUTE, 1};
    const uint8_t setup[] = {144, 0, SWAP_OPEN, 0};
    const uint8_t journal[] = {SWAP_SEND, SWAP_ALICE, 0, SWAP_CONTRACT, SWAP_INCLUDE, SWAP_MINER, 0, SWAP_CONTRACT,
                               SWAP_MINE, SWAP_MINER, SWAP_NONE, SWAP_CONTRACT};
    uint8_t report[SWAP_REPORT_SIZE];
    uint32_t answer = swap_report(sheet, sizeof sheet, setup, sizeof setup, journal, sizeof journal, report, sizeof report);

    printf("%s\n", swap_refusal_words(SWAP_REFUSAL(answer)));
    for (const uint8_t *row = report; row < report + SWAP_REPORT_ROW * 2; row += SWAP_REPORT_ROW) {
        printf("%s, lock height %u\n", row[SWAP_REPORT_STATUS] == SWAP_CONFIRMED ? "confirmed" : "not yet",
               (unsigned)swap_number(row + SWAP_REPORT_LOCK_HEIGHT));
    }
    return answer != SWAP_ACCEPTED;
}
