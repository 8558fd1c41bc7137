/* Times our draws beside others that do the same work, in one run.
 *
 * The machine is shared and its speed moves, so a side is never timed by itself: the two sides take turns in many short
 * repetitions, each first as often as the other, and a side's time is the least that it took in any of them. What else
 * runs on the machine can only add to a time; the least is what the code itself takes. The ratio of the medians stands
 * beside it: where the two ratios differ much, the run was disturbed and is to be repeated.
 *
 * Each side of a row is a generator that is opened at the row's start, so the n-th draw of one side is to be the n-th of
 * the other: all bytes of the first draw are compared, and the last eight after each repetition. Beside the bare
 * compressions, how many there are is what the draw itself reports.
 *
 * A line of output is a row: what it is of, mechanism, bytes, beside what, the nanoseconds of both sides, the ratio, that
 * of the medians, and the most that is promised (0: nothing), with tabs between. `bench more` gives only the rows beside
 * OpenSSL: it takes the instructions that it may use from the environment when it starts. */
#include <cpuid.h>
#include <stdio.h>
#include <stdlib.h>
#include <string.h>
#include <time.h>

#include "bench.h"

_Noreturn void fail(const char *why)
{
    fprintf(stderr, "bench: %s\n", why);
    exit(1);
}

/* One side of a row: does the work once and gives a number that is to be the other side's. */
typedef uint64_t side(void);

/* Not processor time: where others share the machine it is at times told too short, and then the least is wrong. */
static double now(void)
{
    struct timespec t;
    clock_gettime(CLOCK_MONOTONIC, &t);
    return (double)t.tv_sec * 1e9 + (double)t.tv_nsec;
}

static uint64_t answer;

static double timed(side *work)
{
    double began = now();
    answer = work();
    return now() - began;
}

static int by_size(const void *a, const void *b)
{
    double x = *(const double *)a, y = *(const double *)b;
    return (x > y) - (x < y);
}

/* A row: the time of one unit of work on both sides, and their ratio. */
enum { MOST_REPETITIONS = 2000 };

static void row(const char *name, side *ours, side *theirs, int repetitions, double units, double most)
{
    static double our_times[MOST_REPETITIONS], their_times[MOST_REPETITIONS];
    for (int i = 0; i < repetitions; i++) {
        double *first = i % 2 == 0 ? our_times : their_times, *second = i % 2 == 0 ? their_times : our_times;
        first[i] = timed(i % 2 == 0 ? ours : theirs);
        uint64_t expected = answer;
        second[i] = timed(i % 2 == 0 ? theirs : ours);
        if (answer != expected)
            fail("the two sides give different results");
    }
    qsort(our_times, (size_t)repetitions, sizeof our_times[0], by_size);
    qsort(their_times, (size_t)repetitions, sizeof their_times[0], by_size);
    printf("%s\t%.1f\t%.1f\t%.3f\t%.3f\t%.2f\n", name, our_times[0] / units, their_times[0] / units,
           our_times[0] / their_times[0], our_times[repetitions / 2] / their_times[repetitions / 2], most);
    fflush(stdout);
}

/* A text that stays in the nearest cache. */
enum { BLOCKS = 256 };
static uint8_t text[64 * BLOCKS];

static uint64_t our_compressions(void) { return purangsa_bare(text, sizeof text); }
static uint64_t portable_compressions(void) { return portable_bare(text, sizeof text); }

/* Each block by itself, four at a time in lanes and one after the other; answered by the first words of all. Where the compiler makes no
 * vector code of the lanes, this row tells. */
static uint64_t blocks_in_lanes(void) { return purangsa_lanes(text, sizeof text); }

static uint64_t blocks_in_turn(void)
{
    uint32_t words = 0;
    for (size_t i = 0; i < BLOCKS; i++)
        words ^= purangsa_bare(text + 64 * i, 64);
    return words;
}

/* What purangsa_wipe takes, beside a memset of as many bytes by the C library, which clears no register. */
enum { WIPES = 50 };

static uint64_t our_wipes(void)
{
    for (int i = 0; i < WIPES; i++)
        purangsa_wipe();
    return 0;
}

static uint64_t memsets(void)
{
    static uint8_t cleared[PURANGSA_WIPED];
    for (int i = 0; i < WIPES; i++) {
        memset(cleared, 0, sizeof cleared);
        __asm__ volatile("" : : "r"(cleared) : "memory");
    }
    return 0;
}

/* What a row draws: times draws of length bytes, each whole or in the pieces that mbedTLS takes. */
struct size {
    size_t length;
    int times, repetitions; /* a long draw takes milliseconds, a short one microseconds: a repetition has many of these */
};
static const struct size sizes[] = { { 16, 50, 1000 }, { 32, 50, 1000 }, { 1024, 10, 600 }, { PURANGSA_MOST_REQUEST, 1, 400 } };
enum { SIZES = sizeof sizes / sizeof sizes[0], LABEL = 0, KILOBYTE = SIZES - 2, LONGEST = SIZES - 1 };

static const struct source *ours, *theirs;
static uint8_t mechanism;
static size_t length, piece;
static int times;
static uint8_t our_out[PURANGSA_MOST_REQUEST], their_out[PURANGSA_MOST_REQUEST];

static void draw_in_pieces(const struct source *s, uint8_t *out, size_t most)
{
    for (size_t at = 0; at < length; at += most)
        s->draw(out + at, length - at < most ? length - at : most);
}

static uint64_t last_eight(const uint8_t *out)
{
    uint64_t x;
    memcpy(&x, out + length - sizeof x, sizeof x);
    return x;
}

/* Answered by the last bytes of the last draw. */
static uint64_t our_bytes(void)
{
    for (int i = 0; i < times; i++)
        draw_in_pieces(ours, our_out, piece);
    return last_eight(our_out);
}

static uint64_t their_bytes(void)
{
    for (int i = 0; i < times; i++)
        draw_in_pieces(theirs, their_out, theirs->most);
    return last_eight(their_out);
}

/* The same without an answer: one draw of ours beside several pieces of theirs, whose later bytes are others. */
static uint64_t our_silent(void) { return our_bytes() & 0; }
static uint64_t their_silent(void) { return their_bytes() & 0; }

/* Answered by the blocks: our draws by those that they report, and as many bare compressions. */
static uint64_t blocks;

static uint64_t our_blocks(void)
{
    uint64_t reported = 0;
    for (int i = 0; i < times; i++)
        reported += ours->draw(our_out, length);
    return reported;
}

static uint64_t bare_blocks(void)
{
    static volatile uint32_t kept;
    uint64_t done = 0;
    while (done < blocks) {
        uint64_t n = blocks - done < BLOCKS ? blocks - done : BLOCKS;
        kept = purangsa_bare(text, 64 * n);
        done += n;
    }
    (void)kept;
    return done;
}

static const char *row_name(const char *of, const char *beside)
{
    static char name[120];
    snprintf(name, sizeof name, "%s\t%s\t%zu\t%s", of, mechanism == PURANGSA_HMAC_DRBG ? "HMAC" : "Hash", length, beside);
    return name;
}

static void set(const struct size *s, uint8_t m, const struct source *o)
{
    mechanism = m;
    length = s->length;
    times = s->times;
    ours = o;
    ours->open(m);
}

static void beside_bare(const struct size *s, uint8_t m, const struct source *o, double most)
{
    set(s, m, o);
    blocks = our_blocks();
    row(row_name(o->name, "its bare compressions"), our_blocks, bare_blocks, s->repetitions, s->times, most);
}

/* All bytes of a first draw, ours in pieces as theirs. */
static void agree(const struct source *t)
{
    theirs = t;
    theirs->open(mechanism);
    piece = theirs->most;
    draw_in_pieces(ours, our_out, piece);
    draw_in_pieces(theirs, their_out, theirs->most);
    if (memcmp(our_out, their_out, length) != 0)
        fail("the two sides draw different bytes");
}

static void beside(const struct size *s, uint8_t m, const struct source *t, const char *name, double most)
{
    set(s, m, &library);
    agree(t);
    if (length <= piece) {
        row(row_name(ours->name, name), our_bytes, their_bytes, s->repetitions, s->times, most);
        return;
    }
    char in_pieces[80];
    snprintf(in_pieces, sizeof in_pieces, "%s, both in pieces of %zu,%03zu", name, piece / 1000, piece % 1000);
    row(row_name(ours->name, in_pieces), our_bytes, their_bytes, s->repetitions, s->times, 0);
    piece = length;
    row(row_name(ours->name, name), our_silent, their_silent, s->repetitions, s->times, most);
}

/* What is promised, 0 for nothing. Hash_DRBG's longer draws are hashed in lanes, the bare compressions one after the other. */
static double most_beside_bare(size_t i, uint8_t m)
{
    if (m == PURANGSA_HASH_DRBG && i >= KILOBYTE)
        return i == LONGEST ? 0.58 : 0.68;
    return i == LABEL ? 1.4 : i == LONGEST ? 1.15 : 0;
}

static double most_beside_mbedtls(size_t i) { return i == LONGEST ? 1.1 : 0; }
static double most_without_sha(size_t i, uint8_t m) { return i == LONGEST && m == PURANGSA_HASH_DRBG ? 1.0 : 0; }

/* Only where the processor has SHA instructions, which OpenSSL then takes; elsewhere the row's name says that it has none. */
static int has_sha(void)
{
    unsigned a, b, c, d;
    return __get_cpuid_count(7, 0, &a, &b, &c, &d) && (b & bit_SHA);
}

static double most_beside_openssl(size_t i, uint8_t m)
{
    if (!has_sha() || m != PURANGSA_HASH_DRBG)
        return 0;
    return i == LONGEST ? 0.85 : i == KILOBYTE ? 0.95 : 0;
}

static void rows(void)
{
    row("compression\t\t\tportable C", our_compressions, portable_compressions, 2000, BLOCKS, 0.75);
    row("lanes\t\t\tits bare compressions", blocks_in_lanes, blocks_in_turn, 2000, BLOCKS, 0.65);
    char wipe[80];
    snprintf(wipe, sizeof wipe, "wipe\t\t%d\tmemset of as many bytes", PURANGSA_WIPED);
    row(wipe, our_wipes, memsets, 2000, WIPES, 0);
    for (uint8_t m = PURANGSA_HMAC_DRBG; m <= PURANGSA_HASH_DRBG; m++) {
        beside_bare(&sizes[LABEL], m, &alone, 1.3);
        beside_bare(&sizes[LONGEST], m, &alone, most_beside_bare(LONGEST, m));
        for (size_t i = 0; i < SIZES; i++) {
            beside_bare(&sizes[i], m, &library, most_beside_bare(i, m));
            beside(&sizes[i], m, &portable, "portable C", 0);
            if (m == PURANGSA_HMAC_DRBG)
                beside(&sizes[i], m, &mbedtls, "mbedTLS", most_beside_mbedtls(i));
            beside(&sizes[i], m, &openssl, has_sha() ? "OpenSSL" : "OpenSSL, no SHA extensions here", most_beside_openssl(i, m));
        }
    }
}

static void more_rows(void)
{
    for (uint8_t m = PURANGSA_HMAC_DRBG; m <= PURANGSA_HASH_DRBG; m++)
        for (size_t i = 0; i < SIZES; i++)
            beside(&sizes[i], m, &openssl, "OpenSSL without SHA extensions", most_without_sha(i, m));
}

int main(int count, char **words)
{
    for (size_t i = 0; i < sizeof text; i++)
        text[i] = (uint8_t)(i * 37 + i / 251);
    if (count > 1 && strcmp(words[1], "more") == 0)
        more_rows();
    else if (count > 1 && strcmp(words[1], "versions") == 0)
        print_versions();
    else
        rows();
    return 0;
}
