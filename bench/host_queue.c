// Sends and receives in turn on the host's own System V queue, as many pairs as the argument says, and prints the
// seconds that they took.
#include <stdio.h>
#include <stdlib.h>
#include <string.h>
#include <sys/ipc.h>
#include <sys/msg.h>
#include <time.h>

struct message {
    long type;
    char text[56];
};

int main(int count, char **words) {
    long pairs = count > 1 ? atol(words[1]) : 9999;
    int queue = msgget(IPC_PRIVATE, 0600);
    if (queue < 0) {
        perror("msgget");
        return 1;
    }
    struct message sent = {.type = 1}, got;
    memset(sent.text, 'm', sizeof sent.text);
    struct timespec from, to;
    clock_gettime(CLOCK_MONOTONIC, &from);
    for (long pair = 0; pair < pairs; pair++) {
        if (msgsnd(queue, &sent, sizeof sent.text, IPC_NOWAIT) < 0 || msgrcv(queue, &got, sizeof got.text, 0, IPC_NOWAIT) < 0) {
            perror("a call");
            return 1;
        }
    }
    clock_gettime(CLOCK_MONOTONIC, &to);
    msgctl(queue, IPC_RMID, NULL);
    printf("%.9f\n", (double)(to.tv_sec - from.tv_sec) + 1e-9 * (double)(to.tv_nsec - from.tv_nsec));
    return 0;
}
