// Answers each datagram with itself, as a success. So it measures the cost of a server's two system
// calls alone.
//
//     echo PORT
#include <arpa/inet.h>
#include <stdlib.h>
#include <sys/socket.h>

int main(int argc, char **argv) {
    static unsigned char bytes[2048];
    int server = socket(AF_INET, SOCK_DGRAM, 0);
    struct sockaddr_in own = {.sin_family = AF_INET, .sin_port = htons(argc > 1 ? atoi(argv[1]) : 5683), .sin_addr.s_addr = htonl(INADDR_LOOPBACK)};
    if (bind(server, (struct sockaddr *)&own, sizeof own)) return 1;
    for (;;) {
        struct sockaddr_in peer;
        socklen_t size = sizeof peer;
        ssize_t count = recvfrom(server, bytes, sizeof bytes, 0, (struct sockaddr *)&peer, &size);
        if (count < 2) continue;
        bytes[1] = 0x45;
        sendto(server, bytes, count, 0, (struct sockaddr *)&peer, size);
    }
}
