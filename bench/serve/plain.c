// A plain server on 127.0.0.1: accepts one connection after the other, reads to the first LF,
// writes a constant, and closes.
#include <arpa/inet.h>
#include <netinet/in.h>
#include <stdio.h>
#include <stdlib.h>
#include <string.h>
#include <sys/socket.h>
#include <unistd.h>

int main(int count_of_words, char **words) {
    if (count_of_words != 4) {
        fprintf(stderr, "plain PORT COUNT ANSWER\n");
        return 2;
    }
    const char *answer = words[3];
    size_t length = strlen(answer);
    struct sockaddr_in address = {
        .sin_family = AF_INET,
        .sin_port = htons(atoi(words[1])),
        .sin_addr.s_addr = htonl(INADDR_LOOPBACK),
    };
    int listener = socket(AF_INET, SOCK_STREAM, 0), on = 1;
    setsockopt(listener, SOL_SOCKET, SO_REUSEADDR, &on, sizeof on);
    if (bind(listener, (struct sockaddr *)&address, sizeof address) < 0 ||
        listen(listener, 128) < 0) {
        perror("plain");
        return 1;
    }
    puts("listening");
    fflush(stdout);
    char block[8192];
    for (long turn = atol(words[2]); turn > 0; turn--) {
        int peer = accept(listener, NULL, NULL);
        ssize_t read_bytes;
        do {
            read_bytes = recv(peer, block, sizeof block, 0);
        } while (read_bytes > 0 && !memchr(block, '\n', read_bytes));
        for (size_t sent = 0; sent < length;) {
            ssize_t more = send(peer, answer + sent, length - sent, MSG_NOSIGNAL);
            if (more <= 0)
                break;
            sent += more;
        }
        close(peer);
    }
    return 0;
}
