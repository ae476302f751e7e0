// Three ways to wait for ever, with threads of POSIX, for ThreadSanitizer. A promise is a flag with its lock and condition.
#include <pthread.h>
#include <stdio.h>
#include <string.h>
#include <unistd.h>

struct promise {
    pthread_mutex_t lock;
    pthread_cond_t changed;
    int is_set;
};

static struct promise p = {PTHREAD_MUTEX_INITIALIZER, PTHREAD_COND_INITIALIZER, 0};
static struct promise q = {PTHREAD_MUTEX_INITIALIZER, PTHREAD_COND_INITIALIZER, 0};

static void get(struct promise *one) {
    pthread_mutex_lock(&one->lock);
    while (!one->is_set) {
        pthread_cond_wait(&one->changed, &one->lock);
    }
    pthread_mutex_unlock(&one->lock);
}

static void set(struct promise *one) {
    pthread_mutex_lock(&one->lock);
    one->is_set = 1;
    pthread_cond_broadcast(&one->changed);
    pthread_mutex_unlock(&one->lock);
}

static void *first(void *nothing) {
    get(&q);
    set(&p);
    return nothing;
}

static void *second(void *nothing) {
    get(&p);
    set(&q);
    return nothing;
}

// The owner of p, which ends without setting it.
static void *owner(void *nothing) {
    return nothing;
}

static void *joins_itself(void *nothing) {
    int why = pthread_join(pthread_self(), NULL);
    printf("pthread_join: %s\n", strerror(why));
    fflush(stdout);
    return nothing;
}

int main(int count, char **words) {
    pthread_t one, other;
    (void)count;
    if (strcmp(words[1], "cycle") == 0) {
        pthread_create(&one, NULL, first, NULL);
        pthread_create(&other, NULL, second, NULL);
        // The third task runs on.
        for (;;) {
            usleep(1000);
        }
    } else if (strcmp(words[1], "unset") == 0) {
        pthread_create(&one, NULL, owner, NULL);
        get(&p);
    } else {
        pthread_create(&one, NULL, joins_itself, NULL);
        pthread_join(one, NULL);
    }
    return 0;
}
