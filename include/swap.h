/*
 * The swap engine's outward calls.
 *
 * Every call but swap_version takes byte slices, each as a pointer and a length in bytes (a null pointer with length 0 is an
 * empty slice), and returns one number: refusal * 65536 + count. No bytes make a call trap; a refused call changes no buffer.
 *
 * The calls are reentrant: they keep no state and no pointer, so any number of threads may call at once. The library is
 * for x86-64. It needs no heap, and of other code memcpy and memset alone. All its functions are proved; the
 * macros and the inline functions of this header, as swap_refusal_name, are plain C, compiled with the program that
 * includes it.
 *
 * The slices: a contract sheet; a setup of 4 bytes; a journal of 4 bytes for each step, 65,536 at most. A sheet of two
 * parties, Alice and Bob, has 5 + 6n bytes for n transactions, and its first byte is n. A sheet of three, with Carol, has
 * a first byte of 128 + n, a third start mask after Bob's and so 6 + 6n bytes, 198 at most. Values of more than one byte
 * are little-endian, in what is read and in what is written. An output buffer overlaps no other slice of its call.
 *
 * The first refusal is answered, in this order: the sheet's 1 to 8, the setup's 9, 32 and 10, the journal's 24, then 11 to
 * 23 step by step, with 17 before 16, and 25 last. What else a call can answer, and in which order, stands with it.
 */
#ifndef SWAP_H
#define SWAP_H

#include <stddef.h>
#include <stdint.h>

#ifdef __cplusplus
extern "C" {
#endif

/* The version of header and library. The first number goes up where an answer or its layout changes, the second where
 * calls are added. */
#define SWAP_VERSION "2.0.0"

/* The same as one number, for #if: 10,000 for each of the first, 100 for each of the second, and the third. */
#define SWAP_VERSION_NUMBER 20000

/* Stands before each call: the compiler warns where an answer is dropped, since a refused call has done nothing. */
#if (defined(__cplusplus) && __cplusplus >= 201703L) || (defined(__STDC_VERSION__) && __STDC_VERSION__ >= 202311L)
#define SWAP_MUST_USE [[nodiscard]]
#elif defined(__GNUC__)
#define SWAP_MUST_USE __attribute__((warn_unused_result))
#else
#define SWAP_MUST_USE
#endif

/* The refusals: for each its name, its number and what it says. */
#define SWAP_REFUSALS(X) \
    X(SWAP_ACCEPTED, 0, "no refusal") \
    X(SWAP_SHEET_SHORT, 1, "sheet under 5 bytes, or 6 of three parties") \
    X(SWAP_SHEET_COUNT, 2, "number of transactions outside 1 to 32") \
    X(SWAP_SHEET_SIGNATURES, 3, "number of signatures outside 1 to 8, or a head mask beyond it") \
    X(SWAP_SHEET_LENGTH, 4, "length of the sheet not 5, or 6 of three parties, + 6 for each transaction") \
    X(SWAP_SHEET_PARENT, 5, "parent neither 255 nor lower") \
    X(SWAP_SHEET_ENTRY, 6, "payees, needs or veil out of range") \
    X(SWAP_SHEET_LOCK, 7, "lock out of range, or since a parent that is not there") \
    X(SWAP_SHEET_CHILDREN, 8, "payees 0 without child, or payees with child") \
    X(SWAP_SETUP_BLOCKS, 9, "setup not 4 bytes, or blocks per day out of range") \
    X(SWAP_SETUP_CONDUCT, 10, "conduct or stealth out of range, or sheet unfit for the conduct") \
    X(SWAP_STEP_FIELD, 11, "step field out of range for its kind") \
    X(SWAP_STEP_STEALTH, 12, "hand-in to the miner without stealth") \
    X(SWAP_STEP_CONDUCT, 13, "not open to the party by its conduct, or share or give not met") \
    X(SWAP_STEP_CONFLICT, 14, "a rival stands in the way") \
    X(SWAP_STEP_PARENT, 15, "the parent is not there") \
    X(SWAP_STEP_SIGNATURES, 16, "signatures are missing") \
    X(SWAP_STEP_LOCK, 17, "the lock height is not reached") \
    X(SWAP_STEP_DEADLINE, 18, "the deadline is reached") \
    X(SWAP_STEP_POOL, 19, "not in the pool") \
    X(SWAP_STEP_BUMP_OWED, 20, "a bump is owed") \
    X(SWAP_STEP_NOT_OWED, 21, "no bump of it is owed") \
    X(SWAP_STEP_EMPTY_BLOCK, 22, "an empty block before transaction 0 is confirmed") \
    X(SWAP_STEP_BLOCKS, 23, "10,000 blocks are mined") \
    X(SWAP_JOURNAL_LENGTH, 24, "journal not a multiple of 4 bytes, or over 65,536") \
    X(SWAP_BUFFER_SHORT, 25, "buffer too short") \
    X(SWAP_TIMELOCK_RELATIVE, 26, "a since-parent value is above 65,535") \
    X(SWAP_TIMELOCK_ABSOLUTE, 27, "base plus an absolute lock's height reaches 500,000,000") \
    X(SWAP_BUNDLE_LAYOUT, 28, "bundle empty or too short, over 64 swaps, or lengths that don't add up") \
    X(SWAP_BLOCKS_FIELD, 29, "block list not a multiple of 4, a transaction beyond the sheet, or a wrong destination") \
    X(SWAP_BLOCKS_ORDER, 30, "entries don't rise by block and then transaction, or a block outside 1 to 10,000") \
    X(SWAP_BLOCKS_LEDGER, 31, "the ledger refuses the block list") \
    X(SWAP_SETUP_PARTIES, 32, "loose or careful conduct with a sheet of three parties") \
    X(SWAP_ENDING_FIELD, 33, "a mask beyond the sheet or with a contract transaction, or destinations that don't fit it") \
    X(SWAP_ENDING_IMPOSSIBLE, 34, "no accepted block list confirms the ending") \
    X(SWAP_COUNT_STALE, 35, "the journal has another count of steps") \
    X(SWAP_JOURNAL_LONG, 36, "the journal has over 1,024 steps") \
    X(SWAP_NONE_REFUSED, 37, "no step of the journal is refused")

/* SWAP_ACCEPTED = 0, SWAP_SHEET_SHORT = 1 and so on. */
enum swap_refusal {
#define SWAP_ENTRY(name, number, words) name = number,
    SWAP_REFUSALS(SWAP_ENTRY)
#undef SWAP_ENTRY
};

/* The two parts of an answer. */
#define SWAP_REFUSAL(answer) ((uint32_t)(answer) >> 16)
#define SWAP_COUNT(answer) ((uint32_t)(answer) & 0xffffu)

/* The name of a refusal's number, as "SWAP_SHEET_SHORT"; "unknown" where it is none. */
static inline const char *swap_refusal_name(uint32_t refusal)
{
    switch (refusal) {
#define SWAP_ENTRY(name, number, words) case number: return #name;
    SWAP_REFUSALS(SWAP_ENTRY)
#undef SWAP_ENTRY
    default: return "unknown";
    }
}

/* What it says, as "buffer too short". */
static inline const char *swap_refusal_words(uint32_t refusal)
{
    switch (refusal) {
#define SWAP_ENTRY(name, number, words) case number: return words;
    SWAP_REFUSALS(SWAP_ENTRY)
#undef SWAP_ENTRY
    default: return "not in the refusal table";
    }
}

/* The number of four bytes, as they stand in a row or an entry. */
static inline uint32_t swap_number(const uint8_t *bytes)
{
    return bytes[0] | (uint32_t)bytes[1] << 8 | (uint32_t)bytes[2] << 16 | (uint32_t)bytes[3] << 24;
}

/* The largest valid lengths in bytes, and the bytes of a step. */
#define SWAP_TRANSACTIONS 32
#define SWAP_SHEET_SIZE (6 + 6 * SWAP_TRANSACTIONS)
#define SWAP_SETUP_SIZE 4
#define SWAP_STEP_SIZE 4
#define SWAP_JOURNAL_SIZE 65536

/* No transaction: an opening's parent, the transaction of a mined block and of the first shares. No payee: that of an
 * unconfirmed transaction. */
#define SWAP_NONE 255

/* A height that is not reached. */
#define SWAP_NEVER 2147483647u

/* What a sheet of three parties has in its first byte beside the number of transactions: their sum. */
#define SWAP_THREE_PARTIES 128

/* Parties but the miner, at most. */
#define SWAP_PARTIES 3

/* Parties, byte 1 of a step. Carol is one on a sheet of three. */
enum swap_party {
    SWAP_ALICE = 0,
    SWAP_BOB = 1,
    SWAP_MINER = 2,
    SWAP_CAROL = 3,
};

/* Destinations, byte 3 of a step and byte 1 of a report's row and of a block list's entry: a payee's party number, or the
 * contract. */
enum swap_destination {
    SWAP_CONTRACT = 2,
};

/* Payees of a transaction, in a sheet and in an outage's row, summed; 0: a contract transaction. */
enum swap_payees {
    SWAP_PAYS_ALICE = 1,
    SWAP_PAYS_BOB = 2,
    SWAP_PAYS_CAROL = 4,
};

/* Kinds of step, byte 0. Byte 2 is the transaction; of SWAP_GIVE the signature, whose receiver is byte 3. */
enum swap_kind {
    SWAP_SHARE = 1,   /* shares signatures on a transaction; with SWAP_NONE the first shares */
    SWAP_GIVE = 2,    /* gives a signature to another party */
    SWAP_SEND = 3,    /* sends a transaction to the pool */
    SWAP_HAND_IN = 4, /* hands a transaction to the miner */
    SWAP_INCLUDE = 5, /* the miner includes a transaction of the pool in the block */
    SWAP_MINE = 6,    /* the miner mines the block */
    SWAP_BUMP = 7,    /* the miner bumps a transaction into the block */
};

/* Types of lock, in a sheet. */
enum swap_lock {
    SWAP_UNLOCKED = 0,
    SWAP_ABSOLUTE = 1,
    SWAP_SINCE_PARENT = 2,
};

/* Conducts, byte 2 of a setup. */
enum swap_conduct {
    SWAP_OPEN = 0,
    SWAP_LOOSE = 1,
    SWAP_CAREFUL = 2,
};

/* Bytes that are enough for every list: a transaction has at most 15 open steps, a signature 2, and 1 mines a block; of
 * two parties 8, 1 and 1. */
#define SWAP_LIST_SIZE (SWAP_STEP_SIZE * (15 * SWAP_TRANSACTIONS + 2 * 8 + 1))

/* The bytes of a report: a row for each transaction, and 32 rows at most. */
#define SWAP_REPORT_ROW 18
#define SWAP_REPORT_SIZE (SWAP_REPORT_ROW * SWAP_TRANSACTIONS)

/* Where the fields of a report's row begin. */
#define SWAP_REPORT_STATUS 0
#define SWAP_REPORT_PAYEE 1
#define SWAP_REPORT_BLOCK 2
#define SWAP_REPORT_LOCK_HEIGHT 6
#define SWAP_REPORT_DEADLINE 10
#define SWAP_REPORT_OPENED 14

/* The bits of a status. */
enum swap_status {
    SWAP_IN_POOL = 1,
    SWAP_IN_BLOCK = 2, /* the block being filled */
    SWAP_CONFIRMED = 4,
    SWAP_DEAD = 8,
};

/* The bytes of the two numbers of a transaction, where each begins, and the bytes of 32 transactions. */
#define SWAP_TIMELOCKS_ROW 8
#define SWAP_TIMELOCKS_NLOCKTIME 0
#define SWAP_TIMELOCKS_NSEQUENCE 4
#define SWAP_TIMELOCKS_SIZE (SWAP_TIMELOCKS_ROW * SWAP_TRANSACTIONS)

/* The bytes of a desk's answers: an entry for each swap, where its two numbers begin, and 64 swaps at most. */
#define SWAP_DESK_ENTRY 8
#define SWAP_DESK_REFUSAL 0
#define SWAP_DESK_COUNT 4
#define SWAP_DESK_SWAPS 64
#define SWAP_DESK_SIZE (SWAP_DESK_ENTRY * SWAP_DESK_SWAPS)

/*
 * The version of the library itself, as SWAP_VERSION_NUMBER has that of the header: for a library that is loaded at run
 * time. It is the one call whose answer has no refusal and no count.
 */
SWAP_MUST_USE
uint32_t swap_version(void);

/*
 * Checks a contract sheet. Refusals 1 to 8; the count is 0.
 */
SWAP_MUST_USE
uint32_t swap_check(const uint8_t *sheet, size_t sheet_length);

/*
 * Runs a journal. Refusals 1 to 24 and 32; the count is the number of steps accepted, 0 under 1 to 10, 24 and 32.
 *
 * The rest of the journal starts at byte 4 * count: at the refused step, or at the journal's end where none is refused.
 * Under 1 to 10, 24 and 32 it is the whole journal.
 */
SWAP_MUST_USE
uint32_t swap_run(const uint8_t *sheet, size_t sheet_length,
                  const uint8_t *setup, size_t setup_length,
                  const uint8_t *journal, size_t journal_length);

/*
 * Lists the steps that are open after a journal: 4 bytes each, as in a journal. Alice's stand first, then Bob's, then
 * Carol's on a sheet of three, then the miner's, each by kind, transaction and destination. Refusals 1 to 24 and 32 are
 * the journal's; the count is the number of steps written, 0 under a refusal.
 *
 * The output takes up 4 * count bytes, 1,988 (SWAP_LIST_SIZE) at most, and 1,060 of two parties; an empty list needs no
 * buffer. Refusal 25 says that the buffer is shorter than that. Bytes after the output keep their values, and under a
 * refusal all bytes do.
 */
SWAP_MUST_USE
uint32_t swap_list(const uint8_t *sheet, size_t sheet_length,
                   const uint8_t *setup, size_t setup_length,
                   const uint8_t *journal, size_t journal_length,
                   uint8_t *output, size_t output_length);

/*
 * Reports the position after a journal: 18 bytes (SWAP_REPORT_ROW) for each transaction, in the sheet's order. Refusals
 * 1 to 24 and 32 are the journal's; the count is 0.
 *
 *   byte 0          status: 1 in the pool, 2 in the block being filled, 4 confirmed, 8 dead, summed
 *   byte 1          payee: 0 Alice, 1 Bob, 2 contract, 3 Carol, 255 unconfirmed
 *   bytes 2 to 5    block in which it is confirmed, or 0
 *   bytes 6 to 9    lock height
 *   bytes 10 to 13  deadline
 *   bytes 14 to 17  since when it has been open: the blocks mined when first no rival was confirmed, its parent was, if
 *                   it has one, its lock was reached and all signatures were at hand for a party that may send it
 *
 * A height or a count of 2,147,483,647 is "never". The output takes up 18n bytes, 576 (SWAP_REPORT_SIZE) at most. Refusal 25 says
 * that the buffer is shorter than that. Bytes after the output keep their values, and under a refusal all bytes do.
 */
SWAP_MUST_USE
uint32_t swap_report(const uint8_t *sheet, size_t sheet_length,
                     const uint8_t *setup, size_t setup_length,
                     const uint8_t *journal, size_t journal_length,
                     uint8_t *output, size_t output_length);

/* The verdict of an outage on a transaction, a sum of these; 0: the outage does not reach its soonest deadline. */
#define SWAP_OUTAGE_SETTLED 1u /* alone: confirmed or dead */
#define SWAP_OUTAGE_SAFE 2u    /* alone: safe, in the pool with its parent confirmed or none */
#define SWAP_OUTAGE_COVERED 4u /* the soonest deadline is no later than the outage's last block */
#define SWAP_OUTAGE_PASSED 8u  /* the soonest deadline is no later than the blocks mined */

/* The bytes of an outage's answer: a row for each transaction, where its fields begin, and 32 rows at most. */
#define SWAP_OUTAGE_ROW 10
#define SWAP_OUTAGE_VERDICT 0
#define SWAP_OUTAGE_PAYEES 1
#define SWAP_OUTAGE_SOONEST_BLOCK 2
#define SWAP_OUTAGE_SOONEST_DEADLINE 6
#define SWAP_OUTAGE_SIZE (SWAP_OUTAGE_ROW * SWAP_TRANSACTIONS)

/*
 * Tells what an outage of the next `blocks` blocks can cost after a journal: 10 bytes (SWAP_OUTAGE_ROW) for each
 * transaction, in the sheet's order. Any number of blocks is taken; one that with the blocks mined comes to 2,147,483,647
 * or more covers "never" too, so every transaction that is neither settled nor safe is COVERED then. Refusals 1 to 24 and
 * 32 are the journal's; the count is 0.
 *
 *   byte 0        verdict, a sum of SWAP_OUTAGE_..; PASSED alone: no hand-in is left to lose (stealth 0); PASSED with
 *                 COVERED: a hand-in may still save it (stealth 1), so any outage risks it
 *   byte 1        payees of the transaction and of all below it, or-ed: 1 Alice, 2 Bob, 4 Carol
 *   bytes 2 to 5  soonest block: it is confirmed no sooner than in this one, or was in this one; never for a dead one
 *   bytes 6 to 9  soonest deadline: no rival that is locked later is confirmed in this block or before (a lower bound)
 *
 * A height of 2,147,483,647 is "never". The output takes up 10n bytes, 320 (SWAP_OUTAGE_SIZE) at most. Refusal 25 says
 * that the buffer is shorter than that. Bytes after the output keep their values, and under a refusal all bytes do.
 */
SWAP_MUST_USE
uint32_t swap_outage(const uint8_t *sheet, size_t sheet_length,
                     const uint8_t *setup, size_t setup_length,
                     const uint8_t *journal, size_t journal_length,
                     uint32_t blocks,
                     uint8_t *output, size_t output_length);

/* The bytes of a slack's answer: a row for each party, where its fields begin, and 3 rows at most. */
#define SWAP_SLACK_ROW 8
#define SWAP_SLACK_BLOCKS 0
#define SWAP_SLACK_TRANSACTION 4
#define SWAP_SLACK_DESTINATION 5
#define SWAP_SLACK_DUE 6
#define SWAP_SLACK_SIZE (SWAP_SLACK_ROW * SWAP_PARTIES)

/* The most blocks that a slack has. */
#define SWAP_SLACK_MOST 10000

/*
 * Tells for how many blocks each party can take no step after a journal and still keep a way to a payout, whatever the
 * others and the miner do: 8 bytes (SWAP_SLACK_ROW) for each party, Alice, Bob, then Carol on a sheet of three. It looks at
 * who can sign what, and may say fewer blocks than would do. Refusals 1 to 24 and 32 are the journal's; the count is 0.
 *
 *   bytes 0 to 3  slack: the greatest number of blocks, 10,000 (SWAP_SLACK_MOST) at most, for which a way is kept; 10,000
 *                 where the party is paid, or the block being filled pays it and nothing can throw that out; never where
 *                 not even for 0 blocks: no payout is secured, yet or any more
 *   byte 4        the transaction that the party counts on over that outage; 255 where it is paid, also so, or none is
 *                 secured
 *   byte 5        its destination: the party, or 2 for the contract; 255 with it
 *   byte 6        1 where it is to be sent before the next block, with stealth handed in: the slack is 0, and the party's
 *                 send or hand-in of it is open now; else 0
 *   byte 7        0
 *
 * A slack of 2,147,483,647 is "never". The output takes up 16 bytes, and 24 (SWAP_SLACK_SIZE) of three parties. Refusal 25
 * says that the buffer is shorter than that. Bytes after the output keep their values, and under a refusal all bytes do.
 */
SWAP_MUST_USE
uint32_t swap_slack(const uint8_t *sheet, size_t sheet_length,
                    const uint8_t *setup, size_t setup_length,
                    const uint8_t *journal, size_t journal_length,
                    uint8_t *output, size_t output_length);

/* The bytes of a page: a line for the header and for each transaction, and 33 lines at most. */
#define SWAP_PAGE_LINE 73
#define SWAP_PAGE_SIZE (SWAP_PAGE_LINE * (SWAP_TRANSACTIONS + 1))

/*
 * Lays the report out as text: a header, then a line for each transaction, each of 72 characters and a line feed
 * (SWAP_PAGE_LINE bytes). Right-aligned columns: number in 3, status in 4, payee in 9 (Alice, Bob, Carol, contract, or a
 * dash for an unconfirmed one), block in 8, lock height in 16, deadline in 16 ("never" for never), then blanks. Refusals
 * 1 to 24 and 32 are the journal's; the count is 0.
 *
 * The output takes up 73 (n + 1) bytes, 2,409 (SWAP_PAGE_SIZE) at most, without a zero at its end. Refusal 25 says that the
 * buffer is shorter than that. Bytes after the output keep their values, and under a refusal all bytes do.
 */
SWAP_MUST_USE
uint32_t swap_page(const uint8_t *sheet, size_t sheet_length,
                   const uint8_t *setup, size_t setup_length,
                   const uint8_t *journal, size_t journal_length,
                   uint8_t *output, size_t output_length);

/*
 * Writes the locks of the sheet's transactions as Bitcoin's own fields: 8 bytes (SWAP_TIMELOCKS_ROW) for each, in the
 * sheet's order. base is the real chain's height when the journal is empty. The transaction version must be 2, which the
 * caller sets. Refusals 1 to 10 and 32 are the sheet's and the setup's; the count is 0.
 *
 *   bytes 0 to 3    nLockTime: base plus the lock height for an absolute lock, else 0
 *   bytes 4 to 7    nSequence: FFFFFFFF (hexadecimal) without a lock, FFFFFFFE for an absolute one, and days * blocks per
 *                   day + 1 for one since the parent
 *
 * Refusal 26 says that a value since the parent is above 65,535; then 27 that base plus an absolute lock's height reaches
 * 500,000,000. The output takes up 8n bytes, 256 (SWAP_TIMELOCKS_SIZE) at most. Refusal 25, the last, says that the buffer
 * is shorter than that. Bytes after the output keep their values, and under a refusal all bytes do.
 */
SWAP_MUST_USE
uint32_t swap_timelocks(const uint8_t *sheet, size_t sheet_length,
                        const uint8_t *setup, size_t setup_length,
                        uint32_t base,
                        uint8_t *output, size_t output_length);

/*
 * Runs the journals of a whole desk, all on one sheet. Refusals 1 to 8 are the sheet's; the count is 0.
 *
 * The bundle is a count byte n, 64 (SWAP_DESK_SWAPS) at most; n setups of 4 bytes; n journal lengths of 4 bytes; then
 * the journals, end to end. Refusal 28 says that it is empty or too short for its arrays, that n is above 64, or that
 * the lengths don't add up to the bytes that follow them. It is tested after the sheet and before any setup.
 *
 * The output takes up 8 bytes (SWAP_DESK_ENTRY) for each swap, in the bundle's order: the refusal, 4 bytes, and the
 * steps accepted, 4 bytes, of swap_run on the sheet, its setup and its journal. So refusals 9 to 24 and 32 are written,
 * each for its own swap, and none of them is returned. Refusal 25, tested after 28, says that the buffer is shorter than
 * that. Bytes after the output keep their values, and under a refusal of the call all bytes do.
 */
SWAP_MUST_USE
uint32_t swap_desk(const uint8_t *sheet, size_t sheet_length,
                   const uint8_t *bundle, size_t bundle_length,
                   uint8_t *output, size_t output_length);

/*
 * Checks another firm's block list, what was confirmed without steps: 4 bytes for each entry, any number of them.
 *
 *   byte 0          transaction
 *   byte 1          destination: 2 for a contract transaction, a payee (0 Alice, 1 Bob, 3 Carol) for a paying one
 *   bytes 2 and 3   block, 1 to 10,000
 *
 * Refusals 1 to 10 and 32 of sheet and setup, then 29, 30 and 31, each over the whole list; the count is 0. An empty list is
 * accepted. Signatures and conduct are not judged.
 */
SWAP_MUST_USE
uint32_t swap_blocks(const uint8_t *sheet, size_t sheet_length,
                     const uint8_t *setup, size_t setup_length,
                     const uint8_t *list, size_t list_length);

/*
 * Writes the block list, as swap_blocks takes it, that confirms the paying transactions of a mask (bit 0 for transaction 0) and
 * their ancestors, each at its earliest block. The destinations are payees, 4 bytes for each bit set, by rising transaction number.
 * No accepted list has one of these transactions in an earlier block.
 *
 * Refusals 1 to 10 and 32 of sheet and setup, then 33, 34 and 25; the count is the number of entries written, 0 under a refusal.
 * The output takes up 4 * count bytes, 128 (SWAP_EARLIEST_SIZE) at most; an empty mask gives an empty list. Bytes after the output
 * keep their values, and under a refusal all bytes do.
 */
#define SWAP_EARLIEST_SIZE (4 * SWAP_TRANSACTIONS)
SWAP_MUST_USE
uint32_t swap_earliest(const uint8_t *sheet, size_t sheet_length,
                       const uint8_t *setup, size_t setup_length,
                       uint32_t mask,
                       const uint8_t *destinations, size_t destinations_length,
                       uint8_t *output, size_t output_length);

/*
 * Asks whether a step of 4 bytes would pass after a journal, and changes nothing. Refusals 1 to 24 and 32; 24 also where
 * the journal has 65,536 bytes, so no room for a step. The journal's own refusal comes first, with the count of swap_run; then
 * the step's, 11 where it is not of 4 bytes, with the count of steps in the journal, as under 0.
 */
SWAP_MUST_USE
uint32_t swap_ask(const uint8_t *sheet, size_t sheet_length,
                  const uint8_t *setup, size_t setup_length,
                  const uint8_t *journal, size_t journal_length,
                  const uint8_t *step, size_t step_length);

/*
 * Commits a step of 4 bytes to a journal, which is the first `size` bytes of the buffer: where nothing is refused, the step
 * stands in the 4 bytes after them, and `size` + 4 is the journal's new length. The count is the one that swap_ask gave; the
 * answer's own count is 0.
 *
 * In this order: 1 to 10 and 32; 24, also where `size` is beyond the buffer or at 65,536; the journal's own 11 to 23; 35 where the
 * count is not the number of the journal's steps; the step's own 11 to 23; 25 where the buffer has no 4 bytes left. All
 * other bytes keep their values, and under a refusal all bytes do. After a commit that passed, a second one with the same
 * count and the new length is refused.
 */
SWAP_MUST_USE
uint32_t swap_commit(const uint8_t *sheet, size_t sheet_length,
                     const uint8_t *setup, size_t setup_length,
                     const uint8_t *step, size_t step_length,
                     uint32_t count,
                     uint8_t *buffer, size_t buffer_length,
                     uint32_t size);

/*
 * Writes the few steps of a refused journal that matter, 4 bytes each: steps of the journal in their old order, of which
 * the last is the refused one. Run as a journal, they are accepted up to it, and it gets the same refusal; without any one
 * of the others that is lost. Of such parts it is the one that is left when the steps are gone through from the first,
 * each that can go is dropped, and this is repeated until a full round drops none.
 *
 * Refusals 1 to 10 and 32; 24; 36 where the journal has over 1,024 steps; 37 where no step of it is refused; 25. The count is the
 * number of steps written, 1 at least, and 0 under a refusal. The output takes up 4 * count bytes, 4,096 (SWAP_SHRINK_SIZE)
 * at most. Refusal 25, the last, says that the buffer is shorter than that. Bytes after the output keep their values, and
 * under a refusal all bytes do.
 */
#define SWAP_SHRINK_SIZE (4 * 1024)
SWAP_MUST_USE
uint32_t swap_shrink(const uint8_t *sheet, size_t sheet_length,
                     const uint8_t *setup, size_t setup_length,
                     const uint8_t *journal, size_t journal_length,
                     uint8_t *output, size_t output_length);

#ifdef __cplusplus
}
#endif

#endif
