#include "helps.h"

const char swap_help[] =
    "usage: swap COMMAND FOLDER [WORD..]\n"
    "\n"
    "Each command asks the engine one question about the swap in FOLDER, which holds\n"
    "sheet.bin, setup.bin and journal.bin; `swap COMMAND --help` says more.\n"
    "\n"
    "check      whether sheet, setup and journal are accepted\n"
    "list       the steps that are open\n"
    "report     each transaction: status, payee, heights\n"
    "page       the same as a page for the wall\n"
    "outage     what an outage of the next so many blocks can cost\n"
    "slack      for how many blocks each party's box can be off\n"
    "timelocks  nLockTime and nSequence of each transaction\n"
    "desk       whether the journals of several swaps are accepted\n"
    "blocks     whether the ledger takes a list of confirmed transactions\n"
    "earliest   the earliest blocks that confirm an ending\n"
    "ask        whether a step would pass\n"
    "commit     puts a step behind the journal\n"
    "shrink     the few steps of a refused journal that matter\n"
    "\n"
    "calendar, dealer, swapfile, swapreport: these programs, with their own words.\n"
    "\n"
    "Steps, transactions and parties are written as in a swap's text: docs/FORMATS.md.\n"
    "\n"
    "    swap swapfile new saswap 144 deal && swap list deal\n"
    "\n"
    "Exit status: 0 accepted or printed; 1 refused, or a file cannot be read or\n"
    "written, or the output not be written; 2 bad usage.\n";

const char check_help[] =
    "usage: swap check FOLDER\n"
    "\n"
    "Checks the sheet and the setup and runs the journal. Prints what they are, in a\n"
    "line each; a refusal is told with the file, the step and the reason.\n"
    "\n"
    "    swap check deal\n"
    "\n"
    "Exit status: 0 accepted; 1 refused, or a file cannot be read; 2 bad usage.\n";

const char list_help[] =
    "usage: swap list FOLDER\n"
    "\n"
    "Lists the steps that are open after the journal, by party, each with a number and\n"
    "in words that ask and commit take.\n"
    "\n"
    "    swap list deal\n"
    "\n"
    "Exit status: 0 listed; 1 the swap is refused, or a file cannot be read; 2 bad\n"
    "usage.\n";

const char report_help[] =
    "usage: swap report FOLDER [BASE]\n"
    "\n"
    "Prints a line for each transaction after the journal: its status, whom it paid,\n"
    "the block that confirmed it, lock height, deadline, and how many blocks were mined\n"
    "when it was first open. BASE is the real chain's height before block 1, by default\n"
    "0; it is added to the heights, not to the last column.\n"
    "\n"
    "    swap report deal\n"
    "    swap report deal 800000\n"
    "\n"
    "Exit status: 0 printed; 1 the swap is refused, or a file cannot be read; 2 bad\n"
    "usage.\n";

const char page_help[] =
    "usage: swap page FOLDER\n"
    "\n"
    "Prints the swap's page for the wall: a header and a line for each transaction, of\n"
    "72 characters each.\n"
    "\n"
    "    swap page deal\n"
    "\n"
    "Exit status: 0 printed; 1 the swap is refused, or a file cannot be read; 2 bad\n"
    "usage.\n";

const char outage_help[] =
    "usage: swap outage FOLDER BLOCKS\n"
    "\n"
    "Prints for each transaction what an outage of the next BLOCKS blocks can cost: the\n"
    "verdict, whom it or one below it can pay, its soonest block and soonest deadline.\n"
    "The calendar makes warnings of it, for each side.\n"
    "\n"
    "    swap outage deal 144\n"
    "\n"
    "Exit status: 0 printed; 1 the swap is refused, or a file cannot be read; 2 bad\n"
    "usage.\n";

const char slack_help[] =
    "usage: swap slack FOLDER\n"
    "\n"
    "Prints for each party for how many blocks, 10000 at most, its box can be off from\n"
    "now on and still keep a way to a payout, whatever the others and the miner do, and\n"
    "which transaction it counts on; what it has to send before the next block; that it\n"
    "is paid, by a mined block or by the one being filled, or that no payout is secured.\n"
    "It looks at who can sign what, and may say fewer blocks than would do.\n"
    "\n"
    "    swap slack deal\n"
    "\n"
    "Exit status: 0 printed; 1 the swap is refused, or a file cannot be read; 2 bad\n"
    "usage.\n";

const char timelocks_help[] =
    "usage: swap timelocks FOLDER BASE\n"
    "\n"
    "Prints nLockTime and nSequence of each transaction, for Bitcoin transactions of\n"
    "version 2. BASE is the real chain's height before block 1.\n"
    "\n"
    "    swap timelocks deal 800000\n"
    "\n"
    "Exit status: 0 printed; 1 the locks or the swap are refused, or a file cannot be\n"
    "read; 2 bad usage.\n";

const char desk_help[] =
    "usage: swap desk FOLDER..\n"
    "\n"
    "Runs the journals of several swaps, those on one sheet together, and prints a line\n"
    "for each in the order of the folders: the steps accepted, or the refusal.\n"
    "\n"
    "    swap desk desk/*\n"
    "\n"
    "Exit status: 0 all are accepted; 1 one is refused, or a file cannot be read; 2 bad\n"
    "usage.\n";

const char blocks_help[] =
    "usage: swap blocks FOLDER LIST\n"
    "\n"
    "Tells whether the ledger takes a list of what was confirmed, without steps; of the\n"
    "swap in FOLDER sheet and setup count. LIST is a file with a line for each\n"
    "transaction, by block and then as the sheet has them:\n"
    "\n"
    "    block 3: lock_A\n"
    "    block 3: lock_B\n"
    "    block 9: spend_A, paying alice\n"
    "\n"
    "or, where its name ends in .bin, the bytes of such a list, as docs/FORMATS.md has\n"
    "them.\n"
    "\n"
    "    swap earliest deal spend_A paying alice >list && swap blocks deal list\n"
    "\n"
    "Exit status: 0 taken; 1 refused, or a file cannot be read; 2 bad usage.\n";

const char earliest_help[] =
    "usage: swap earliest FOLDER [TRANSACTION paying PARTY]..\n"
    "\n"
    "Prints the earliest blocks in which the named transactions, each paying its party,\n"
    "and those they descend from can all be confirmed: a list that blocks takes. The\n"
    "journal does not count.\n"
    "\n"
    "    swap earliest deal spend_success paying bob and spend_B paying alice\n"
    "\n"
    "Exit status: 0 printed; 1 no such list, the swap is refused, or a file cannot be\n"
    "read; 2 bad usage.\n";

const char ask_help[] =
    "usage: swap ask FOLDER STEP..\n"
    "\n"
    "Tells whether a step would pass after the journal, with the number of its steps,\n"
    "and changes nothing. STEP is in words, as list prints them, or four numbers, as\n"
    "the journal has them; where it is refused the nearest that would pass is named.\n"
    "\n"
    "    swap ask deal alice sends lock_A to the pool\n"
    "\n"
    "Exit status: 0 it would pass; 1 refused, or a file cannot be read; 2 bad usage, or\n"
    "words that are no step.\n";

const char commit_help[] =
    "usage: swap commit FOLDER [--after COUNT] STEP..\n"
    "\n"
    "Puts a step behind the journal, where the engine takes it. With --after COUNT it is\n"
    "refused where the journal has another number of steps than ask told. The file is\n"
    "replaced whole, under the lock of journal.lock, as the dealer does.\n"
    "\n"
    "    swap commit deal --after 2 alice sends lock_A to the pool\n"
    "\n"
    "Exit status: 0 committed; 1 refused, or a file cannot be read or written, or the\n"
    "output not be written, and then standard error says whether the step is committed;\n"
    "2 bad usage, or words that are no step.\n";

const char shrink_help[] =
    "usage: swap shrink FOLDER\n"
    "\n"
    "Prints the few steps of a refused journal that matter, in words: run as a journal,\n"
    "they are accepted up to the last, which gets the same refusal, and none of the\n"
    "others can be left out. `swapfile decode --anyway` prints the whole journal.\n"
    "\n"
    "    swap shrink deal\n"
    "\n"
    "Exit status: 0 printed; 1 no step is refused, or sheet or setup are, or a file\n"
    "cannot be read; 2 bad usage.\n";
