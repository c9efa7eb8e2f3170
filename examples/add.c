#include <inttypes.h>
#include <stdio.h>

void psi_main(int64_t *block);

int main(void) {
    int64_t block[9] = {1, 2, 3, 10, 20, 30}; /* A at 0, B at 3, C at 6, as the header says */
    psi_main(block);
    printf("%" PRId64 " %" PRId64 " %" PRId64 "\n", block[6], block[7], block[8]);
}
