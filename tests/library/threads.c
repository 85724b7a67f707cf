/* Eight threads that make, use and free the same objects in turn, each call under the lock of its pair: what lies behind a
 * handle belongs to no thread. It says how many turns there were, and how many of their messages were acknowledged. */
#define _POSIX_C_SOURCE 200809L
#include <pthread.h>
#include <stdio.h>
#include <uecp.h>

enum { THREADS = 8, TURNS = 500, PAIRS = 4, LIFE = 50 };

struct pair {
    pthread_mutex_t lock;
    uecp_handle server, encoder;
    unsigned turns, acknowledged;
};

static struct pair pairs[PAIRS];

/* One message goes over and is acknowledged; every so often both ends are freed, and others made. */
static unsigned turn(struct pair *pair) {
    static const uint8_t message[] = {0x05, 0x00, 0x00, 0x01}, services[] = {1};
    uint8_t frame[UECP_FRAME_MAX];
    uecp_answer answer = {0};
    uecp_heard heard = {0};
    size_t used = 0;
    if (pair->turns++ % LIFE == 0) {
        uecp_free(&pair->server);
        uecp_free(&pair->encoder);
        uecp_server_new(&pair->server, 1, 1);
        uecp_encoder_new(&pair->encoder, 1, 1, 1, services, 1);
    }
    uecp_server_submit(&pair->server, message, sizeof message);
    uecp_encoder_feed(&pair->encoder, frame, uecp_server_frame(&pair->server, 0, frame, sizeof frame), &used, &answer);
    uecp_server_hear(&pair->server, answer.reply, answer.length, &used, &heard);
    return answer.is_fresh && heard.kind == UECP_ACKNOWLEDGED && heard.code == 0;
}

static void *run(void *first) {
    for (unsigned number = 0; number < TURNS; number++) {
        struct pair *pair = &pairs[(*(unsigned *)first + number) % PAIRS];
        pthread_mutex_lock(&pair->lock);
        pair->acknowledged += turn(pair);
        pthread_mutex_unlock(&pair->lock);
    }
    return NULL;
}

int main(void) {
    pthread_t threads[THREADS];
    unsigned numbers[THREADS], turns = 0, acknowledged = 0;
    for (unsigned number = 0; number < PAIRS; number++)
        pthread_mutex_init(&pairs[number].lock, NULL);
    for (unsigned number = 0; number < THREADS; number++) {
        numbers[number] = number;
        if (pthread_create(&threads[number], NULL, run, &numbers[number]) != 0)
            return 1;
    }
    for (unsigned number = 0; number < THREADS; number++)
        pthread_join(threads[number], NULL);
    for (unsigned number = 0; number < PAIRS; number++) {
        turns += pairs[number].turns;
        acknowledged += pairs[number].acknowledged;
        uecp_free(&pairs[number].server);
        uecp_free(&pairs[number].encoder);
    }
    printf("%u turns, %u acknowledged\n", turns, acknowledged);
    return 0;
}
