/* What the library for C makes of a configuration file, for docs/benchmarks.md.

       in_c load ROUNDS KEY FILE      reads the text of FILE, and frees the file made before, so often
       in_c look-up ROUNDS KEY FILE   reads it, and looks the key up LOOKUPS times, so often

   The rounds print nanoseconds: those of each load, or of one of each LOOKUPS lookups.

   cc -O2 -Iout/lib tools/bench/in_c.c out/lib/libgix_config.a -o in_c. What fails is told by its number, with status 1. */
#define _POSIX_C_SOURCE 200809L
#include <gix_config.h>
#include <stdio.h>
#include <stdlib.h>
#include <string.h>
#include <time.h>

enum { LOOKUPS = 256, MOST = 1 << 28 };

static void must(uint32_t answer) {
    if (answer == GIX_CONFIG_DONE)
        return;
    fprintf(stderr, "in_c: %u\n", (unsigned)answer);
    exit(1);
}

static long long nanoseconds(void) {
    struct timespec now;
    clock_gettime(CLOCK_MONOTONIC, &now);
    return now.tv_sec * 1000000000LL + now.tv_nsec;
}

static void load(const uint8_t *text, size_t len, gix_config_file *file) {
    gix_config_file made = { 0 };
    gix_config_place place = { 0, 0, 0 };
    must(gix_config_file_parse(text, len, false, &made, &place));
    gix_config_file_close(file);
    *file = made;
}

static void look_up(const gix_config_file *file, const gix_config_key *key) {
    gix_config_bytes value = { 0, 0, 0 };
    must(gix_config_value(file, key, &value));
    gix_config_bytes_free(&value);
}

int main(int count, char **words) {
    static uint8_t text[MOST];
    gix_config_file file = { 0 };
    gix_config_key key = { { 0, 0 }, false, { 0, 0 }, { 0, 0 } };
    FILE *in = count == 5 ? fopen(words[4], "rb") : NULL;
    if (in == NULL)
        return 1;
    size_t len = fread(text, 1, sizeof text, in);
    fclose(in);
    must(gix_config_key_parse((const uint8_t *)words[3], strlen(words[3]), &key));
    load(text, len, &file);
    for (long round = 0; round < atol(words[2]); round++) {
        long long began = nanoseconds();
        if (strcmp(words[1], "load") == 0) {
            load(text, len, &file);
            printf("%lld\n", nanoseconds() - began);
            continue;
        }
        for (int n = 0; n < LOOKUPS; n++)
            look_up(&file, &key);
        printf("%lld\n", (nanoseconds() - began) / LOOKUPS);
    }
    gix_config_file_close(&file);
    return 0;
}
