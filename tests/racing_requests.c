/* What tests/record.py records: threads that race for memory, hand blocks to each other, end, and ask until their very end; forked
   children of two sorts; and an end by a signal where that is wanted. It counts its own calls and says, for each process, how many of
   each there were and how many of its blocks live, by write alone. Words: THREADS ROUNDS CHILDREN, and `kill` to be killed at the end. */

#define _GNU_SOURCE
#include <malloc.h>
#include <pthread.h>
#include <signal.h>
#include <stdatomic.h>
#include <stdint.h>
#include <stdio.h>
#include <stdlib.h>
#include <string.h>
#include <sys/wait.h>
#include <unistd.h>

enum { SHARED = 64, WAVE = 8 };

static _Atomic long malloc_calls, calloc_calls, aligned_alloc_calls, posix_memalign_calls, memalign_calls, valloc_calls, pvalloc_calls, realloc_calls,
    free_calls, live;
static void *_Atomic handed[SHARED];
static pthread_key_t last_words;
static int rounds;

__attribute__((noinline)) static void *ask(unsigned *seed) {
    void *block = NULL;
    size_t size = rand_r(seed) % 3000;
    switch (rand_r(seed) % 8) {
    case 0: block = calloc(3, size), calloc_calls++; break;
    case 1: block = aligned_alloc(64, (size + 63) / 64 * 64), aligned_alloc_calls++; break;
    case 2: posix_memalign_calls += !posix_memalign(&block, 256, size + 1); break;
    case 3: block = memalign(32, size), memalign_calls++; break;
    case 4: block = valloc(size), valloc_calls++; break;
    case 5: block = pvalloc(size + 1), pvalloc_calls++; break;
    default: block = malloc(size), malloc_calls++;
    }
    live++;
    return block;
}

static void give_up(void *block) {
    if (!block) return;
    free_calls++;
    live--;
    free(block);
}

/* A thread's last request and free, after its function has ended. */
static void say_last_words(void *block) {
    give_up(block);
    malloc_calls++;
    live++;
    give_up(malloc(40));
}

static void *work(void *number) {
    unsigned seed = (unsigned)(uintptr_t)number + 1;
    pthread_setspecific(last_words, ask(&seed));
    for (int round = 0; round < rounds; round++) {
        void *block = ask(&seed);
        if (round % 3 == 0) {
            block = realloc(block, 1 + rand_r(&seed) % 5000);
            realloc_calls++;
        }
        give_up(atomic_exchange(&handed[rand_r(&seed) % SHARED], block));
    }
    return NULL;
}

static void say(const char *who) {
    char text[500];
    int length = snprintf(text, sizeof text, "%s %d malloc %ld calloc %ld aligned_alloc %ld posix_memalign %ld memalign %ld valloc %ld pvalloc %ld realloc %ld free %ld live %ld\n",
                          who, (int)getpid(), malloc_calls, calloc_calls, aligned_alloc_calls, posix_memalign_calls, memalign_calls, valloc_calls, pvalloc_calls,
                          realloc_calls, free_calls, live);
    if (write(1, text, (size_t)length) != length) _exit(3);
}

/* A child has all blocks of its parent, and begins to count anew. It gives up one that it has from there. */
static void bear(int which, pid_t child, void *of_parent) {
    if (child) {
        waitpid(child, NULL, 0);
        return;
    }
    malloc_calls = calloc_calls = aligned_alloc_calls = posix_memalign_calls = memalign_calls = valloc_calls = pvalloc_calls = realloc_calls = free_calls = 0;
    live = 0;
    unsigned seed = (unsigned)which;
    for (int at = 0; at < 100; at++) {
        void *block = ask(&seed);
        if (at % 2) give_up(block);
    }
    free(of_parent);
    say("child");
    _exit(0);
}

int main(int count, char **words) {
    if (count < 4) return 2;
    int threads = atoi(words[1]), children = atoi(words[3]);
    rounds = atoi(words[2]);
    pthread_key_create(&last_words, say_last_words);
    unsigned seed = 0;
    void *kept = ask(&seed);
    for (int at = 0; at < children; at += 2) bear(at, _Fork(), kept);
    for (int begun = 0; begun < threads; begun += WAVE) {
        pthread_t wave[WAVE];
        int here = threads - begun < WAVE ? threads - begun : WAVE;
        for (int at = 0; at < here; at++) pthread_create(&wave[at], NULL, work, (void *)(uintptr_t)(begun + at));
        for (int at = 1; begun == 0 && at < children; at += 2) bear(at, fork(), kept);
        for (int at = 0; at < here; at++) pthread_join(wave[at], NULL);
    }
    say("parent");
    if (count > 4 && !strcmp(words[4], "kill")) kill(getpid(), SIGKILL);
    return 0;
}
