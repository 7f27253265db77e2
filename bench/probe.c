/* Whether the library's functions take the words that hide cells: status 0 if they do, 1 if not. Truth of a book of one cell is asked with an address in
   the place of the word, or of the sheet where there is no word, and 3 in the place of the sheet, or of its length: the word has a bit beyond the
   cells, and 3 bytes are no sheet. */
#include <stdint.h>

uint64_t cuhnavel_truth(const uint8_t *book, uintptr_t book_len, uintptr_t word_or_sheet, uintptr_t sheet_or_length, uintptr_t, uintptr_t, uintptr_t);

static const uint8_t book[] = {0, 0, 0, 12, 1, 1, 0, 0, 0, 0, 0, 5}, sheet[3];
static uint64_t words[1];

int main(void) {
    uint64_t answer = cuhnavel_truth(book, sizeof book, (uintptr_t)sheet, sizeof sheet, (uintptr_t)words, 0, 0);
    return (answer & 0xff) == 31 ? 0 : 1;
}
