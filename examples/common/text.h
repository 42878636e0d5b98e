/* A whole swap as text: its head, its sheet and its journal. */
#ifndef TEXT_H
#define TEXT_H

#include "../calendar/files.h"

/* A party's name for the file `side`, or NULL. */
const char *side_name(uint8_t sides);

/* Reads a swap, and its side or 0, from a text file. False, with the program's message that names file and line, where
 * the text is wrong or the engine refuses what it says. The journal's memory is good until the next text is read. */
bool encode_text(const char *program, const char *file, struct swap *swap, uint8_t *sides);

/* Prints a swap that the engine accepts, and its side or 0. */
void decode_text(const struct swap *swap, uint8_t sides);

/* Prints what is there of a swap that the engine refuses with this answer: what is refused in comments, with the reason,
 * and what can't be put in words as its bytes. */
void decode_refused(const struct swap *swap, uint8_t sides, uint32_t answer);

/* Whether a refusal is the sheet's, and whether it is the setup's. */
bool is_of_sheet(uint32_t refusal);
bool is_of_setup(uint32_t refusal);

/* Tells why the engine refuses a folder's swap, by the answer of its run: "PROGRAM: FOLDER/FILE: REASON". */
void complain_refusal(const char *program, const char *folder, uint32_t answer);

#endif
