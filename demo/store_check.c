/* Checks the store in a file: store_check STORE_FILE. Exits 0 where it passes, else 1 with a line that says so. */
#include "nfs3.h"

#include <stdio.h>

int main(int argc, char **argv) {
    static uint8_t bytes[NFS3_STORE_MOST + 1];
    FILE *file = argc == 2 ? fopen(argv[1], "rb") : NULL;
    if (file == NULL) {
        fprintf(stderr, "store_check: no file\n");
        return 1;
    }
    size_t len = fread(bytes, 1, sizeof bytes, file);
    fclose(file);
    if (nfs3_check(bytes, len).number == NFS3_DONE)
        return 0;
    fprintf(stderr, "store_check: %s, %zu bytes: no store that passes its check\n", argv[1], len);
    return 1;
}
