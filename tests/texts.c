/* Prints the texts of the numbers, and the version: tests/interface.sh holds them to the header's comments and to VERSION. */
#include "balanced.h"
#include <stdio.h>

int main(void) {
    for (unsigned number = 0; number <= BALANCED_CARRY; number++) printf("%u %s\n", number, balanced_text(number));
    printf("%s\n%s\n", balanced_text(BALANCED_CARRY + 1), balanced_text(256));
    puts(BALANCED_VERSION);
    return 0;
}
