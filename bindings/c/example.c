/* Checks the rule book on standard input and prints the line about it.
 * The exit status is 0 when the line is printed, for an accepted and for a refused book alike. */
#include <stdio.h>

#include "faultsieve.h"

/* One byte more than the longest book has. What follows cannot change the verdict. */
#define ENOUGH 1479

int main(void)
{
    uint8_t book[ENOUGH];
    uint8_t line[FAULTSIEVE_LINE];
    size_t length = fread(book, 1, sizeof book, stdin);

    if (ferror(stdin)) {
        perror("standard input");
        return 1;
    }
    struct faultsieve_answer answer = faultsieve_check(book, length, line, sizeof line);
    if (answer.refusal != FAULTSIEVE_WRITTEN || answer.length > sizeof line) {
        fprintf(stderr, "no line: refusal %u\n", (unsigned)answer.refusal);
        return 1;
    }
    if (fwrite(line, 1, answer.length, stdout) != answer.length || fflush(stdout) != 0) {
        perror("standard output");
        return 1;
    }
    return 0;
}
