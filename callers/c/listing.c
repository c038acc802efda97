/* Prints the listing of the book on standard input, or `refused N`, as the recorder does, through the library. */
#include <stdio.h>

#include "tautlichen.h"

#define MAX_BOOK 65536

int main(void) {
  static uint8_t book[MAX_BOOK + 1]; /* one byte more than a book may have shows that there are more */
  uint8_t answers[TAUTLICHEN_ANSWERS];
  uint8_t text[TAUTLICHEN_TEXT];
  uint16_t len = 0;
  size_t book_len = fread(book, 1, sizeof book, stdin);
  uint8_t number = 10;

  if (book_len <= MAX_BOOK)
    number = tautlichen_list(book, book_len, answers, sizeof answers, text, sizeof text, &len);
  if (number != 0) {
    printf("refused %d\n", number);
    return 0;
  }
  return fwrite(text, 1, len, stdout) == len ? 0 : 1;
}
