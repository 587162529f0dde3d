/* threads SURFACE SCRIPT: eight threads at once run the script, check refusals and save, each with room for little and for all;
 * status 0 where all got the same. */
#include "hilldale.h"
#include <pthread.h>
#include <stdio.h>
#include <stdlib.h>
#include <string.h>

enum { THREADS = 8, TURNS = 5, MOST = 1 << 22 };
static uint8_t inputs[2][MOST];
static size_t lengths[2];

struct told {
  uint8_t *out, *saved;
  uint64_t needed, saved_needed;
  int status, is_wrong;
};

static void *ask(void *place) {
  struct told *told = place;
  for (int turn = 0; turn < TURNS; turn++) {
    uint8_t few[7], behind[16];
    uint64_t needed, none;
    memset(behind, 0xEE, sizeof behind);
    told->status = hilldale_run_and_save(inputs[0], lengths[0], inputs[1], lengths[1], HILLDALE_TILE, told->out, MOST,
                                         &told->needed, told->saved, MOST, &told->saved_needed);
    int status = hilldale_run(inputs[0], lengths[0], inputs[1], lengths[1], 8, few, sizeof few, &needed);
    if (status != told->status || needed != told->needed || memcmp(few, told->out, sizeof few)) told->is_wrong = 1;
    if (hilldale_run(inputs[1], lengths[1], inputs[1], lengths[1], 8, few, 0, &none) != HILLDALE_SURFACE_REFUSED) told->is_wrong = 2;
    if (hilldale_run(inputs[0], lengths[0], inputs[1], lengths[1], 7, few, 0, &none) != HILLDALE_USAGE) told->is_wrong = 3;
    if (hilldale_check(inputs[0], lengths[0], inputs[1], lengths[1], behind, 4, &none) != HILLDALE_CERTIFICATE_REFUSED) told->is_wrong = 4;
    if (behind[4] != 0xEE || none <= 4) told->is_wrong = 5;
  }
  return NULL;
}

int main(int count, char **words) {
  struct told told[THREADS] = {0};
  pthread_t threads[THREADS];
  if (count != 3) return 2;
  for (int i = 0; i < 2; i++) {
    FILE *file = fopen(words[i + 1], "rb");
    if (file == NULL) return 5;
    lengths[i] = fread(inputs[i], 1, MOST, file);
    fclose(file);
  }
  for (int i = 0; i < THREADS; i++) {
    told[i].out = malloc(MOST), told[i].saved = malloc(MOST);
    if (pthread_create(&threads[i], NULL, ask, &told[i])) return 7;
  }
  int status = 0;
  for (int i = 0; i < THREADS; i++) {
    pthread_join(threads[i], NULL);
    if (told[i].is_wrong) status = fprintf(stderr, "thread %d: %d\n", i, told[i].is_wrong) > 0;
    if (told[i].needed != told[0].needed || told[i].saved_needed != told[0].saved_needed || told[i].needed > MOST ||
        memcmp(told[i].out, told[0].out, told[0].needed) || memcmp(told[i].saved, told[0].saved, told[0].saved_needed))
      status = 1;
  }
  for (int i = THREADS - 1; i >= 0; i--) free(told[i].out), free(told[i].saved);
  return status;
}
