/* Opens and protects key files for tools/with-gnupg/keys.
   usage: key_file open FILE PASSPHRASE | key_file ocb FILE PASSPHRASE COUNT | key_file cbc FILE PASSPHRASE COUNT
   What it made goes to standard output. The status is 0, or the number of what else the file and the passphrase are answered. */
#include <stdint.h>
#include <stdio.h>
#include <stdlib.h>
#include <string.h>

int64_t dogwood_protect(const uint8_t *clear, size_t, const uint8_t *pass, size_t, uint64_t count, _Bool by_ocb, uint8_t *out, size_t);
int64_t dogwood_unprotect(const uint8_t *file, size_t, const uint8_t *pass, size_t, uint8_t *out, size_t);

static uint8_t file[65536], out[65536];

int main(int argc, char **argv) {
    if (argc < 4) return 100;
    FILE *in = fopen(argv[2], "rb");
    if (!in) return 101;
    size_t len = fread(file, 1, sizeof file, in);
    fclose(in);
    const uint8_t *pass = (const uint8_t *)argv[3];
    int64_t made = strcmp(argv[1], "open") == 0
        ? dogwood_unprotect(file, len, pass, strlen(argv[3]), out, sizeof out)
        : dogwood_protect(file, len, pass, strlen(argv[3]), strtoull(argv[4], NULL, 10), strcmp(argv[1], "ocb") == 0, out, sizeof out);
    if (made < 0) return (int)-made;
    fwrite(out, 1, (size_t)made, stdout);
    return 0;
}
