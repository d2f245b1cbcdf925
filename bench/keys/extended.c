/* CPU time of reading extended key files of the kinds that cost most, at three sizes, and of their expressions beside libgcrypt: the least of several
 * runs, in one process. */
#ifdef GCRYPT
#include <gcrypt.h>
#endif
#include <stdint.h>
#include <stdio.h>
#include <stdlib.h>
#include <string.h>
#include <time.h>

int64_t dogwood_read_lines(const uint8_t *file, size_t);
int64_t dogwood_read_advanced(const uint8_t *text, size_t);
int64_t dogwood_file_key(const uint8_t *file, size_t, uint8_t *out, size_t);
int64_t dogwood_expression(const uint8_t *text, size_t, uint8_t *out, size_t);

#define MOST 65536
#define SIZES 3
#define RUNS 101
/* The most that 64 KiB may take, to four times the time of 16 KiB, and an expression of 64 KiB, to libgcrypt's time. */
#define GROWTH 2.0
#define BESIDE 2.0

static const char small_key[] = "Key: (private-key (ecc (curve Ed25519) (q #40AA#) (d #BB#)))\n";

/* A file, and where in it the expression stands. */
struct sample {
    size_t size, begin, len;
    uint8_t file[MOST];
};

/* A file of the expression that is `before`, `repeated` as often as there is room, blanks up to the size, and `behind`. */
static void expression(struct sample *s, const char *before, const char *repeated, const char *behind) {
    size_t piece = strlen(repeated), end = s->size - 1 - strlen(behind);
    size_t len = (size_t)sprintf((char *)s->file, "Key: %s", before);
    while (len + piece <= end) memcpy(s->file + len, repeated, piece), len += piece;
    memset(s->file + len, ' ', end - len);
    memcpy(s->file + end, behind, strlen(behind));
    s->file[s->size - 1] = '\n';
    s->begin = strlen("Key: ");
    s->len = s->size - 1 - s->begin;
}

static void lists(struct sample *s) {
    char deep[127];
    memset(deep, '(', 63);
    memset(deep + 63, ')', 63);
    deep[126] = 0;
    expression(s, "(", deep, ")");
}

static void token(struct sample *s) { expression(s, "(", "a", ")"); }
static void spaced_digits(struct sample *s) { expression(s, "(#", "4 1 ", "#)"); }
static void escapes(struct sample *s) { expression(s, "(\"", "\\n\\101\\x41", "\")"); }
static void small_atoms(struct sample *s) { expression(s, "(", "1:a", ")"); }
static void small_texts(struct sample *s) { expression(s, "(", "\"abcd\"", ")"); }

static void comments(struct sample *s) {
    size_t key_len = sizeof small_key - 1, end = s->size - key_len;
    memset(s->file, '\n', end);
    for (size_t i = 0; i + 1 < end; i += 2) s->file[i] = '#';
    memcpy(s->file + end, small_key, key_len);
    s->begin = end + strlen("Key: ");
    s->len = key_len - strlen("Key: \n");
}

static const struct {
    const char *name;
    void (*make)(struct sample *);
} kinds[] = {
    {"lists, 64 deep", lists},
    {"one token", token},
    {"digits and blanks", spaced_digits},
    {"escapes", escapes},
    {"comment lines", comments},
    {"small atoms", small_atoms},
    {"small texts", small_texts},
};

static const struct sample *given;

static int our_file(void) { return dogwood_read_lines(given->file, given->size) == 0; }
static int our_expression(void) { return dogwood_read_advanced(given->file + given->begin, given->len) == 0; }

#ifdef GCRYPT
static int gcrypt_expression(void) {
    gcry_sexp_t read;
    if (gcry_sexp_sscan(&read, NULL, (const char *)given->file + given->begin, given->len)) return 0;
    gcry_sexp_release(read);
    return 1;
}
#else
#define gcrypt_expression NULL
#endif

/* What is timed. */
enum { FILE_OF_OURS, OURS, GCRYPTS, CALLS };
static int (*const calls[CALLS])(void) = {our_file, our_expression, gcrypt_expression};

static double seconds(void) {
    struct timespec t;
    clock_gettime(CLOCK_PROCESS_CPUTIME_ID, &t);
    return (double)t.tv_sec + 1e-9 * (double)t.tv_nsec;
}

static double once(int (*call)(void)) {
    double t = seconds();
    int is_read = call();
    t = seconds() - t;
    if (!is_read) fprintf(stderr, "not read\n"), exit(1);
    return t;
}

/* The file's key, its expression, and what libgcrypt reads have one canonical spelling. */
static void compare(const char *name) {
    static uint8_t ours[MOST + 1], others[MOST + 1];
    int64_t len = dogwood_file_key(given->file, given->size, ours, MOST);
    int same = len > 0 && dogwood_expression(given->file + given->begin, given->len, others, MOST) == len && !memcmp(ours, others, (size_t)len);
#ifdef GCRYPT
    gcry_sexp_t read;
    same = same && !gcry_sexp_sscan(&read, NULL, (const char *)given->file + given->begin, given->len)
        && gcry_sexp_sprint(read, GCRYSEXP_FMT_CANON, others, MOST + 1) == (size_t)len && !memcmp(ours, others, (size_t)len);
    if (same) gcry_sexp_release(read);
#endif
    if (!same) fprintf(stderr, "%s, %zu bytes: another key, or none (%lld)\n", name, given->size, (long long)len), exit(1);
}

/* One kind at all sizes, in turn. It gives whether it is too slow. */
static int row(const char *name, void (*make)(struct sample *)) {
    static struct sample samples[SIZES];
    double best[SIZES][CALLS];
    for (int i = 0; i < SIZES; i++) {
        samples[i].size = MOST >> (SIZES - 1 - i);
        make(&samples[i]);
        given = &samples[i];
        compare(name);
        for (int k = 0; k < CALLS; k++) best[i][k] = 1e9;
    }
    for (int run = 0; run < RUNS; run++)
        for (int i = 0; i < SIZES; i++)
            for (int k = 0; k < CALLS; k++) {
                given = &samples[i];
                double t = calls[k] ? once(calls[k]) : 0;
                if (t < best[i][k]) best[i][k] = t;
            }
    const double *first = best[0], *last = best[SIZES - 1];
    double growth = last[FILE_OF_OURS] / first[FILE_OF_OURS] / (1 << (SIZES - 1));
    int slow = growth > GROWTH;
    printf("%-18s", name);
    for (int i = 0; i < SIZES; i++) printf(" %8.1f", 1e6 * best[i][FILE_OF_OURS]);
    printf(" %7.2f", growth);
    /* Behind comments it is the same small expression at each size. */
    if (samples[SIZES - 1].len > MOST / 2) {
        growth = last[OURS] / first[OURS] / (1 << (SIZES - 1));
        slow |= growth > GROWTH;
        printf(" %11.1f %7.2f", 1e6 * last[OURS], growth);
        if (calls[GCRYPTS]) {
            slow |= last[OURS] > BESIDE * last[GCRYPTS];
            printf(" %11.1f %6.2f", 1e6 * last[GCRYPTS], last[OURS] / last[GCRYPTS]);
        }
    }
    printf("\n");
    return slow;
}

int main(void) {
    int slow = 0;
#ifdef GCRYPT
    gcry_check_version(NULL);
    gcry_control(GCRYCTL_DISABLE_SECMEM, 0);
    gcry_control(GCRYCTL_INITIALIZATION_FINISHED, 0);
#endif
    printf("%-18s %8s %8s %8s %7s %11s %7s %11s %6s\n", "microseconds", "16 KiB", "32 KiB", "64 KiB", "growth", "expression", "growth", "libgcrypt", "ratio");
    for (size_t i = 0; i < sizeof kinds / sizeof *kinds; i++) slow |= row(kinds[i].name, kinds[i].make);
    return slow;
}
