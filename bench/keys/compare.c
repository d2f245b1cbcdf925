/* CPU time of ours beside a plain C table program's and libgcrypt's: the least of several runs, in one process. */
#include "table_aes.h"
#ifdef GCRYPT
#include <gcrypt.h>
#endif
#include <stdio.h>
#include <stdlib.h>
#include <string.h>
#include <time.h>

void dogwood_cbc_encrypt(const uint8_t *key, size_t, const uint8_t *iv, size_t, uint8_t *bytes, size_t);
void dogwood_cbc_decrypt(const uint8_t *key, size_t, const uint8_t *iv, size_t, uint8_t *bytes, size_t);
void dogwood_ocb_encrypt(const uint8_t *key, size_t, const uint8_t *iv, size_t, uint8_t *bytes, size_t, uint8_t *tag, size_t);
void dogwood_ocb_decrypt(const uint8_t *key, size_t, const uint8_t *iv, size_t, uint8_t *bytes, size_t, const uint8_t *tag, size_t);
void dogwood_derive(const uint8_t *pass, size_t, const uint8_t *salt, size_t, uint64_t count, uint8_t *key, size_t);
int64_t dogwood_protect(const uint8_t *clear, size_t, const uint8_t *pass, size_t, uint64_t count, _Bool by_ocb, uint8_t *out, size_t);
int64_t dogwood_unprotect(const uint8_t *file, size_t, const uint8_t *pass, size_t, uint8_t *out, size_t);

#define LEN 65536
#define RUNS 61

static const uint8_t key[16] = "0123456789abcdef", iv[16] = "fedcba9876543210", salt[8] = "saltsalt";
static const uint8_t pass[] = "a passphrase";
static uint8_t text[LEN], encrypted[LEN], bytes[LEN], derived[16], wanted[16];
static uint64_t count;

static void our_encryption(void) { dogwood_cbc_encrypt(key, 16, iv, 16, bytes, LEN); }
static void our_decryption(void) { dogwood_cbc_decrypt(key, 16, iv, 16, bytes, LEN); }
static void table_encryption(void) { table_cbc_encrypt(key, iv, bytes, LEN); }
static void table_decryption(void) { table_cbc_decrypt(key, iv, bytes, LEN); }
static uint8_t tag[16], other_tag[16];

static void our_sealing(void) { dogwood_ocb_encrypt(key, 16, iv, 12, bytes, LEN, other_tag, 16); }
static void our_unsealing(void) { dogwood_ocb_decrypt(key, 16, iv, 12, bytes, LEN, tag, 16); }
static void table_sealing(void) { table_ocb(0, key, iv, bytes, LEN, other_tag); }
static void table_unsealing(void) { table_ocb(1, key, iv, bytes, LEN, other_tag); }
static void our_derivation(void) { dogwood_derive(pass, sizeof pass - 1, salt, 8, count, derived, 16); }

#ifdef GCRYPT
static void gcrypt_cipher(int decrypts) {
    gcry_cipher_hd_t h;
    gcry_cipher_open(&h, GCRY_CIPHER_AES128, GCRY_CIPHER_MODE_CBC, 0);
    gcry_cipher_setkey(h, key, 16);
    gcry_cipher_setiv(h, iv, 16);
    if (decrypts) gcry_cipher_decrypt(h, bytes, LEN, NULL, 0);
    else gcry_cipher_encrypt(h, bytes, LEN, NULL, 0);
    gcry_cipher_close(h);
}
static void gcrypt_encryption(void) { gcrypt_cipher(0); }
static void gcrypt_decryption(void) { gcrypt_cipher(1); }
static void gcrypt_ocb(int decrypts) {
    gcry_cipher_hd_t h;
    gcry_cipher_open(&h, GCRY_CIPHER_AES128, GCRY_CIPHER_MODE_OCB, 0);
    gcry_cipher_setkey(h, key, 16);
    gcry_cipher_setiv(h, iv, 12);
    gcry_cipher_final(h);
    if (decrypts) gcry_cipher_decrypt(h, bytes, LEN, NULL, 0);
    else gcry_cipher_encrypt(h, bytes, LEN, NULL, 0);
    gcry_cipher_gettag(h, other_tag, 16);
    gcry_cipher_close(h);
}
static void gcrypt_sealing(void) { gcrypt_ocb(0); }
static void gcrypt_unsealing(void) { gcrypt_ocb(1); }
static void gcrypt_derivation(void) {
    gcry_kdf_derive(pass, sizeof pass - 1, GCRY_KDF_ITERSALTED_S2K, GCRY_MD_SHA1, salt, 8, count, 16, derived);
}
#endif

static double seconds(void) {
    struct timespec t;
    clock_gettime(CLOCK_PROCESS_CPUTIME_ID, &t);
    return (double)t.tv_sec + 1e-9 * (double)t.tv_nsec;
}

/* The least time of one call from the bytes `from`, which must become `to`. */
static double once(void (*call)(void), const uint8_t *from, const uint8_t *to) {
    memcpy(bytes, from, LEN);
    double t = seconds();
    call();
    t = seconds() - t;
    if (memcmp(bytes, to, LEN) || memcmp(other_tag, tag, 16)) fprintf(stderr, "another result\n"), exit(1);
    return t;
}

static int row(const char *what, void (*const calls[3])(void), const uint8_t *from, const uint8_t *to, double bound) {
    static const char *const names[3] = {"ours", "C tables", "libgcrypt"};
    double best[3] = {1e9, 1e9, 1e9};
    for (int i = 0; i < RUNS; i++)
        for (int k = 0; k < 3; k++)
            if (calls[k]) {
                double t = once(calls[k], from, to);
                if (t < best[k]) best[k] = t;
            }
    printf("%-24s ours %9.1f us", what, 1e6 * best[0]);
    for (int k = 1; k < 3; k++)
        if (calls[k]) printf("   %s %9.1f us, ratio %6.2f", names[k], 1e6 * best[k], best[0] / best[k]);
    printf("\n");
    return calls[1] && best[0] > bound * best[1];
}

static void derivation(uint64_t n, int runs) {
    double best[2] = {1e9, 1e9};
    count = n;
    for (int i = 0; i < runs; i++) {
        double t = seconds();
        our_derivation();
        t = seconds() - t;
        if (t < best[0]) best[0] = t;
#ifdef GCRYPT
        memcpy(wanted, derived, 16);
        t = seconds();
        gcrypt_derivation();
        t = seconds() - t;
        if (t < best[1]) best[1] = t;
        if (memcmp(wanted, derived, 16)) fprintf(stderr, "another key\n"), exit(1);
#endif
    }
    printf("S2K of %-17llu ours %9.1f us", (unsigned long long)n, 1e6 * best[0]);
    if (best[1] < 1e9) printf("   libgcrypt %9.1f us, ratio %6.2f", 1e6 * best[1], best[0] / best[1]);
    printf("\n");
}

/* A clear key of small atoms, of about so many bytes. */
static size_t clear_key(uint8_t *out, size_t most) {
    size_t len = (size_t)sprintf((char *)out, "(11:private-key(3:ecc(1:q1:Q)");
    while (len + 24 < most) len += (size_t)sprintf((char *)out + len, "(1:a1:b)");
    return len + (size_t)sprintf((char *)out + len, "(1:d1:D)))");
}

/* Opening a file beside its S2K alone. The status is 1 where it takes more than `bound` seconds beside 1.1 times that. */
static int opening(const char *what, _Bool by_ocb, size_t most, uint64_t n, int runs, double bound) {
    static uint8_t clear[LEN], file[LEN], out[LEN];
    double best[2] = {1e9, 1e9};
    size_t len = clear_key(clear, most);
    int64_t file_len = dogwood_protect(clear, len, pass, sizeof pass - 1, n, by_ocb, file, LEN);
    if (file_len < 0) fprintf(stderr, "no file\n"), exit(1);
    count = n;
    for (int i = 0; i < runs; i++) {
        double t = seconds();
        int64_t opened = dogwood_unprotect(file, (size_t)file_len, pass, sizeof pass - 1, out, LEN);
        t = seconds() - t;
        if (t < best[0]) best[0] = t;
        if (opened != (int64_t)len || memcmp(out, clear, len)) fprintf(stderr, "another key\n"), exit(1);
        t = seconds();
        our_derivation();
        t = seconds() - t;
        if (t < best[1]) best[1] = t;
    }
    printf("%-24s ours %9.1f us   its S2K %9.1f us, %9.1f us more\n", what, 1e6 * best[0], 1e6 * best[1], 1e6 * (best[0] - best[1]));
    return best[0] > 1.1 * best[1] + bound;
}

int main(void) {
    void (*encryptions[3])(void) = {our_encryption, table_encryption, NULL};
    void (*decryptions[3])(void) = {our_decryption, table_decryption, NULL};
    void (*sealings[3])(void) = {our_sealing, table_sealing, NULL}, (*unsealings[3])(void) = {our_unsealing, table_unsealing, NULL};
#ifdef GCRYPT
    gcry_check_version(NULL);
    gcry_control(GCRYCTL_DISABLE_SECMEM, 0);
    gcry_control(GCRYCTL_INITIALIZATION_FINISHED, 0);
    encryptions[2] = gcrypt_encryption;
    decryptions[2] = gcrypt_decryption;
    sealings[2] = gcrypt_sealing;
    unsealings[2] = gcrypt_unsealing;
#endif
    table_aes_begin();
    for (size_t i = 0; i < LEN; i++) text[i] = (uint8_t)(i * i >> 5);
    memcpy(encrypted, text, LEN);
    table_cbc_encrypt(key, iv, encrypted, LEN);
    int slow = row("CBC encryption, 64 KiB", encryptions, text, encrypted, 1.5);
    slow |= row("CBC decryption, 64 KiB", decryptions, encrypted, text, 1.5);
    memcpy(encrypted, text, LEN);
    table_ocb(0, key, iv, encrypted, LEN, tag);
    memcpy(other_tag, tag, 16);
    slow |= row("OCB encryption, 64 KiB", sealings, text, encrypted, 1.5);
    slow |= row("OCB decryption, 64 KiB", unsealings, encrypted, text, 1.5);
    derivation(65536, 31);
    derivation(65011712, 5);
    slow |= opening("opening, count 65011712", 1, 64, 65011712, 5, 0);
    slow |= opening("opening, 60 KiB", 1, 61440, 65536, 31, 0.010);
    slow |= opening("opening by CBC, 60 KiB", 0, 61440, 65536, 31, 0.010);
    return slow;
}
