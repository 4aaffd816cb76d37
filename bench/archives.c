/* For bench/archives: times zlatomruk_judge of several shared objects on one input, in turn, and prints the best of each.
 *
 * timer time INPUT OBJECT...    the times, in two states of the machine
 * timer CALLS INPUT OBJECT      calls it so often and prints nothing, for callgrind */
#include <dlfcn.h>
#include <stdint.h>
#include <stdio.h>
#include <stdlib.h>
#include <string.h>
#include <time.h>

enum { CARD_LINES = 7, MOST = 16, ROUNDS = 300, LONGEST = 1 << 20, WORDS = LONGEST / 4 };

typedef uint64_t judge(const uint8_t *card, size_t card_length, const uint32_t *words, size_t length);

static uint8_t input[LONGEST];
static uint32_t words[WORDS];
static size_t card_length, length;

static void fail(const char *what)
{
    fprintf(stderr, "archives: %s\n", what);
    exit(2);
}

static void read_input(const char *path)
{
    FILE *file = fopen(path, "rb");
    if (!file) fail("cannot read the input");
    size_t bytes = fread(input, 1, sizeof input, file);
    fclose(file);
    for (int lines = 0; lines < CARD_LINES; card_length++) {
        if (card_length == bytes) fail("the input has no card");
        lines += input[card_length] == '\n';
    }
    length = (bytes - card_length) / 4;
    memcpy(words, input + card_length, 4 * length);
}

static judge *loaded(const char *path)
{
    void *object = dlopen(path, RTLD_NOW | RTLD_LOCAL);
    if (!object) fail(dlerror());
    judge *found;
    *(void **)&found = dlsym(object, "zlatomruk_judge");
    if (!found) fail("an archive without zlatomruk_judge");
    return found;
}

/* Branches that go by random numbers: what was learned of others is lost. */
static void unlearn(void)
{
    static uint64_t x = 88172645463325252u;
    volatile uint64_t sum = 0;
    for (int i = 0; i < 300000; i++) {
        x ^= x << 13, x ^= x >> 7, x ^= x << 17;
        if (x & 1) sum += 3;
        if (x & 8) sum ^= x;
        if (x & 64) sum += i;
    }
}

static double seconds(judge *j, int calls)
{
    struct timespec from, to;
    volatile uint64_t answer;
    clock_gettime(CLOCK_MONOTONIC, &from);
    for (int i = 0; i < calls; i++) answer = j(input, card_length, words, length);
    clock_gettime(CLOCK_MONOTONIC, &to);
    (void)answer;
    return (to.tv_sec - from.tv_sec + (to.tv_nsec - from.tv_nsec) * 1e-9) / calls;
}

static void race(const char *state, int learned, judge **judges, int count)
{
    double best[MOST];
    /* A call of some nanoseconds is too short to be timed alone. */
    int calls = length < 1000 && learned ? 1000 : 1;
    for (int i = 0; i < count; i++) best[i] = 1;
    for (int round = 0; round < ROUNDS; round++)
        for (int i = 0; i < count; i++) {
            if (!learned) unlearn();
            double took = seconds(judges[i], calls);
            if (took < best[i]) best[i] = took;
        }
    for (int i = 0; i < count; i++) printf("%d: %s %.3f us, %.3f of the first\n", i + 1, state, best[i] * 1e6, best[i] / best[0]);
}

int main(int argc, char **argv)
{
    judge *judges[MOST];
    int count = argc - 3;
    if (count < 1 || count > MOST) fail("usage: timer time|CALLS INPUT OBJECT...");
    read_input(argv[2]);
    for (int i = 0; i < count; i++) judges[i] = loaded(argv[3 + i]);
    if (strcmp(argv[1], "time")) {
        seconds(judges[0], atoi(argv[1]));
        return 0;
    }
    race("over and over", 1, judges, count);
    race("with its branches not learned", 0, judges, count);
    return 0;
}
