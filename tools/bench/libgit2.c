/* What libgit2 makes of a configuration file, for docs/comparison.md, and its figures for docs/benchmarks.md.

       libgit2 list FILE                 prints each entry
       libgit2 get FILE KEY              prints the value of a key
       libgit2 set FILE KEY VALUE        sets a value in place
       libgit2 load ROUNDS FILE          opens the file and frees the one opened before, so often
       libgit2 look-up ROUNDS FILE KEY   opens the file, and looks the key up LOOKUPS times, so often
       libgit2 version                   prints libgit2's version

   The rounds print nanoseconds: those of each load, or of one of each LOOKUPS lookups.

   cc -O2 tools/bench/libgit2.c -o libgit2 -lgit2, with Debian's libgit2-dev. What fails is told in libgit2's words, with status 1. */
#define _POSIX_C_SOURCE 200809L
#include <git2.h>
#include <stdio.h>
#include <stdlib.h>
#include <string.h>
#include <time.h>

enum { LOOKUPS = 256 };

static int tell_error(void) {
    const git_error *error = git_error_last();
    fprintf(stderr, "libgit2: %s\n", error ? error->message : "no message");
    return 1;
}

static long long nanoseconds(void) {
    struct timespec now;
    clock_gettime(CLOCK_MONOTONIC, &now);
    return now.tv_sec * 1000000000LL + now.tv_nsec;
}

/* An earlier file is freed behind each load, as in the other programs that are measured, so that there is memory to use again. */
static int load(const char *path, long rounds) {
    git_config *earlier = NULL;
    for (long round = 0; round < rounds; round++) {
        git_config *config;
        long long began = nanoseconds();
        if (git_config_open_ondisk(&config, path) < 0)
            return tell_error();
        git_config_free(earlier);
        printf("%lld\n", nanoseconds() - began);
        earlier = config;
    }
    git_config_free(earlier);
    return 0;
}

static int look_up(git_config *config, const char *key) {
    git_config_entry *entry;
    int status = git_config_get_entry(&entry, config, key);
    if (status == 0)
        git_config_entry_free(entry);
    return status;
}

static int look_ups(git_config *config, long rounds, const char *key) {
    for (long round = 0; round < rounds; round++) {
        long long began = nanoseconds();
        for (int n = 0; n < LOOKUPS; n++) {
            int status = look_up(config, key);
            if (status < 0)
                return status;
        }
        printf("%lld\n", (nanoseconds() - began) / LOOKUPS);
    }
    return 0;
}

static int print_version(void) {
    int major, minor, revision;
    git_libgit2_version(&major, &minor, &revision);
    printf("%d.%d.%d\n", major, minor, revision);
    return 0;
}

static int print_entry(const git_config_entry *entry, void *unused) {
    (void)unused;
    printf("%s=%s\n", entry->name, entry->value ? entry->value : "");
    return 0;
}

static int get(git_config *config, const char *key) {
    git_config_entry *entry;
    int status = git_config_get_entry(&entry, config, key);
    if (status < 0)
        return status;
    puts(entry->value ? entry->value : "");
    git_config_entry_free(entry);
    return 0;
}

static int tell_usage(void) {
    fputs("libgit2: list FILE, get FILE KEY, set FILE KEY VALUE, load ROUNDS FILE, look-up ROUNDS FILE KEY or version\n", stderr);
    exit(2);
}

/* Does what the words ask of the file. Below 0 is a failure, as in libgit2. */
static int work(git_config *config, int count, char **words) {
    if (count == 3 && strcmp(words[1], "list") == 0)
        return git_config_foreach(config, print_entry, NULL);
    if (count == 4 && strcmp(words[1], "get") == 0)
        return get(config, words[3]);
    if (count == 5 && strcmp(words[1], "set") == 0)
        return git_config_set_string(config, words[3], words[4]);
    if (count == 5 && strcmp(words[1], "look-up") == 0)
        return look_ups(config, atol(words[2]), words[4]);
    return tell_usage();
}

int main(int count, char **words) {
    git_config *config;
    if (git_libgit2_init() < 0)
        return tell_error();
    if (count == 2 && strcmp(words[1], "version") == 0)
        return print_version();
    if (count == 4 && strcmp(words[1], "load") == 0)
        return load(words[3], atol(words[2]));
    if (count < 3)
        return tell_usage();
    /* (only look-up has five words of which the file isn't the third) */
    const char *path = count == 5 && strcmp(words[1], "look-up") == 0 ? words[3] : words[2];
    if (git_config_open_ondisk(&config, path) < 0 || work(config, count, words) < 0)
        return tell_error();
    git_config_free(config);
    git_libgit2_shutdown();
    return 0;
}
