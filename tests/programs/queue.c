/* Messages that two threads make and two others take from a queue and free: each block changes hands. */
#include <pthread.h>
#include <stdlib.h>
#include <string.h>

enum { MESSAGES = 40000, LENGTH = 512, SIDES = 2 };

static void *queue[LENGTH];
static int first, count, left = MESSAGES * SIDES;
static pthread_mutex_t lock = PTHREAD_MUTEX_INITIALIZER;
static pthread_cond_t is_changed = PTHREAD_COND_INITIALIZER;

static void *make(void *seed) {
  unsigned state = (unsigned)(size_t)seed;
  for (int at = 0; at < MESSAGES; at++) {
    state = state * 1103515245u + 12345u;
    size_t size = at % 100 ? 16 + (state >> 16) % 600 : 5000 + (state >> 16) % 20000;
    char *message = malloc(size);
    memset(message, at, size);
    pthread_mutex_lock(&lock);
    while (count == LENGTH) pthread_cond_wait(&is_changed, &lock);
    queue[(first + count++) % LENGTH] = message;
    pthread_cond_broadcast(&is_changed);
    pthread_mutex_unlock(&lock);
  }
  return NULL;
}

/* Each thread keeps a copy of its last messages for a while. */
static void *take(void *unused) {
  char *kept[64] = {0};
  (void)unused;
  for (int at = 0;; at++) {
    pthread_mutex_lock(&lock);
    while (count == 0 && left > 0) pthread_cond_wait(&is_changed, &lock);
    if (left == 0) {
      pthread_mutex_unlock(&lock);
      break;
    }
    char *message = queue[first];
    first = (first + 1) % LENGTH, count--, left--;
    pthread_cond_broadcast(&is_changed);
    pthread_mutex_unlock(&lock);
    free(kept[at % 64]);
    kept[at % 64] = malloc(16 + at % 200);
    kept[at % 64][0] = message[0];
    free(message);
  }
  for (int at = 0; at < 64; at++) free(kept[at]);
  return NULL;
}

int main(void) {
  pthread_t threads[2 * SIDES];
  for (size_t at = 0; at < 2 * SIDES; at++) pthread_create(&threads[at], NULL, at < SIDES ? make : take, (void *)(at + 1));
  for (size_t at = 0; at < 2 * SIDES; at++) pthread_join(threads[at], NULL);
  return 0;
}
