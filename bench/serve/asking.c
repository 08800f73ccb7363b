// Asks a whois server on 127.0.0.1 for the closest objects of addresses in 10.0.0.0/8, one
// connection after the other, and prints how many seconds that took and how many bytes came.
#include <arpa/inet.h>
#include <netinet/in.h>
#include <stdio.h>
#include <stdlib.h>
#include <string.h>
#include <sys/socket.h>
#include <time.h>
#include <unistd.h>

static double now(void) {
    struct timespec time;
    clock_gettime(CLOCK_MONOTONIC, &time);
    return time.tv_sec + time.tv_nsec / 1e9;
}

int main(int count_of_words, char **words) {
    if (count_of_words != 3) {
        fprintf(stderr, "asking PORT COUNT\n");
        return 2;
    }
    struct sockaddr_in address = {
        .sin_family = AF_INET,
        .sin_port = htons(atoi(words[1])),
        .sin_addr.s_addr = htonl(INADDR_LOOPBACK),
    };
    long count = atol(words[2]), bytes = 0;
    unsigned place = 1;
    double begun = now();
    for (long turn = 0; turn < count; turn++) {
        char block[65536];
        place = place * 1664525u + 1013904223u;
        unsigned high = place >> 24, middle = place >> 16 & 255, low = place >> 8 & 255;
        int length = sprintf(block, "closest 10.%u.%u.%u\r\n", high, middle, low);
        int peer = socket(AF_INET, SOCK_STREAM, 0);
        if (connect(peer, (struct sockaddr *)&address, sizeof address) < 0 ||
            send(peer, block, length, MSG_NOSIGNAL) != length) {
            perror("asking");
            return 1;
        }
        ssize_t more;
        long before = bytes;
        while ((more = recv(peer, block, sizeof block, 0)) > 0)
            bytes += more;
        if (more < 0 || bytes == before) {
            fprintf(stderr, "asking: no answer\n");
            return 1;
        }
        close(peer);
    }
    printf("%.6f %ld\n", now() - begun, bytes);
    return 0;
}
