/* Labels from Purangsa, a first program in C: opens a generator, draws labels of 16 bytes until a reseed is due, reseeds,
 * draws one more, closes the generator and tries the closed handle. examples/labels.rs is the same program in Rust.
 *
 *     library/build
 *     gcc -I include -o labels examples/labels.c target/library/libpurangsa.a -Wl,-z,now && ./labels
 *
 * or, after ./install PREFIX with PREFIX/lib/pkgconfig in PKG_CONFIG_PATH:
 *
 *     gcc -o labels examples/labels.c $(pkg-config --cflags --libs purangsa) && ./labels
 */
#include <inttypes.h>
#include <stdint.h>
#include <stdio.h>

#include "purangsa.h"

/* The table is the caller's. All bytes zero is the fresh table, with 16 free slots. */
static uint8_t table[PURANGSA_TABLE_LENGTH];

/* EXAMPLE STRINGS, fixed so that everybody sees the same labels: whoever knows them knows every label. A real program takes
 * entropy from a source, as getrandom, anew for each opening and each reseed, and never the same nonce twice. */
static const char entropy[] = "this is an example, not entropy!";
static const char more_entropy[] = "nor is this: take a real source.";
static const char nonce[] = "example nonce 01";
static const char personalization[] = "labels of volumes";

/* Lends a text to a call: its bytes and their number, without C's zero at the end. */
#define LENT(text) (const uint8_t *)(text), sizeof(text) - 1

/* A label is a draw of 16 bytes. A refused draw leaves the output as it was, so the answer is looked at first. */
static void draw_label(uint64_t handle)
{
    uint8_t label[16];
    uint64_t blocks, value;
    uint64_t answer = purangsa_draw(table, sizeof table, handle, 128, LENT(""), label, sizeof label, &blocks, &value);
    purangsa_wipe(); /* after each call, from where the call was made: no copy of a secret is left on the stack */
    printf("draw: answer %" PRIu64 ", %" PRIu64 " blocks", answer, blocks);
    if (answer == PURANGSA_SERVED) {
        printf(", label ");
        for (size_t i = 0; i < sizeof label; i++)
            printf("%02x", label[i]);
    }
    printf("\n");
}

int main(void)
{
    uint64_t answer, blocks, handle, none;

    if (purangsa_self_test() != 0) {
        fprintf(stderr, "labels: the library's test of itself fails: nothing is drawn\n");
        return 1;
    }

    /* Strength 128, at most 3 draws from one reseed to the next, no right to fresh draws. */
    answer = purangsa_open(table, sizeof table, PURANGSA_HMAC_DRBG, 128, 3, 0, LENT(entropy), LENT(nonce), LENT(personalization),
                           &blocks, &handle);
    purangsa_wipe();
    printf("open: answer %" PRIu64 ", %" PRIu64 " blocks, handle %" PRIu64 "\n", answer, blocks, handle);
    if (answer != PURANGSA_SERVED) {
        fprintf(stderr, "labels: %s\n", purangsa_reason(answer));
        return 1;
    }

    draw_label(handle);
    draw_label(handle);
    draw_label(handle);
    draw_label(handle); /* the fourth: PURANGSA_RESEED_DUE */

    answer = purangsa_reseed(table, sizeof table, handle, LENT(more_entropy), LENT(""), &blocks, &none);
    purangsa_wipe();
    printf("reseed: answer %" PRIu64 ", %" PRIu64 " blocks\n", answer, blocks);
    draw_label(handle);

    answer = purangsa_close(table, sizeof table, handle, &blocks, &none);
    purangsa_wipe();
    printf("close: answer %" PRIu64 ", %" PRIu64 " blocks\n", answer, blocks);
    draw_label(handle); /* PURANGSA_NO_SUCH_GENERATOR, now and ever after */
    return 0;
}
