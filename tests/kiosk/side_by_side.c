/* side_by_side.c: two kiosks in one process, each in a thread of its own, at the same time.
 *
 *   side_by_side ROUNDS ROOTS ADDRESS CARD REFERENCE ADDRESS CARD REFERENCE
 *
 * Each kiosk visits its own server and then the other's, and so on. The exit status is 0 if each card was sent to its own server in
 * every round, and never to the other.
 */
#include <pthread.h>
#include <stdio.h>
#include <stdlib.h>

/* main of kiosk.c, which is built under this name */
int kiosk_main(int argc, char **argv);

struct kiosk {
    char *roots, **own, **other; /* address, card number and reference */
    int rounds, wrong;
};

static int visit(const struct kiosk *kiosk, char *address)
{
    char name[] = "kiosk", *arguments[] = {name, address, kiosk->roots, kiosk->own[1], kiosk->own[2], NULL};
    return kiosk_main(5, arguments);
}

static void *run(void *argument)
{
    struct kiosk *kiosk = argument;
    for (int i = 0; i < kiosk->rounds; i++) {
        kiosk->wrong += visit(kiosk, kiosk->own[0]) != 0;
        kiosk->wrong += visit(kiosk, kiosk->other[0]) != 1;
    }
    return NULL;
}

int main(int argc, char **argv)
{
    pthread_t thread;
    if (argc != 9)
        return 2;
    struct kiosk first = {argv[2], argv + 3, argv + 6, atoi(argv[1]), 0};
    struct kiosk second = {argv[2], argv + 6, argv + 3, atoi(argv[1]), 0};
    if (pthread_create(&thread, NULL, run, &second) != 0)
        return 2;
    run(&first);
    pthread_join(thread, NULL);
    return first.wrong + second.wrong > 0;
}
