/* Sends datagrams to a port of 127.0.0.1 as fast as the system takes them.

   junk PORT SECONDS MOST: standard input has the datagrams, each behind its length in two bytes, high byte first; they are sent
   one after the other, again and again, until the time is over or so many are sent. Then it prints how many were sent. */
#define _GNU_SOURCE
#include <arpa/inet.h>
#include <netinet/in.h>
#include <stdio.h>
#include <stdlib.h>
#include <string.h>
#include <sys/socket.h>
#include <time.h>
#include <unistd.h>

#define AT_A_TIME 64
#define MOST_BYTES (1 << 22)

static double now(void)
{
    struct timespec it;

    clock_gettime(CLOCK_MONOTONIC, &it);
    return it.tv_sec + it.tv_nsec / 1e9;
}

/* the datagrams that stand there, AT_A_TIME of them, and the first ones again where there are fewer; whether there is one */
static int read_datagrams(unsigned char *bytes, size_t length, struct iovec *parts)
{
    size_t place = 0, count = 0, i;

    while (count < AT_A_TIME && place + 2 <= length) {
        size_t size = (size_t)bytes[place] << 8 | bytes[place + 1];
        if (place + 2 + size > length)
            return 0;
        parts[count++] = (struct iovec){bytes + place + 2, size};
        place += 2 + size;
    }
    for (i = count; count > 0 && i < AT_A_TIME; i++)
        parts[i] = parts[i - count];
    return count > 0;
}

int main(int argc, char **argv)
{
    static unsigned char bytes[MOST_BYTES];
    static struct iovec parts[AT_A_TIME];
    static struct mmsghdr messages[AT_A_TIME];
    struct sockaddr_in server = {.sin_family = AF_INET, .sin_addr.s_addr = htonl(INADDR_LOOPBACK)};
    unsigned long long sent = 0, most;
    int file = socket(AF_INET, SOCK_DGRAM | SOCK_CLOEXEC, 0), i;
    double end;

    if (argc != 4 || file < 0 || !read_datagrams(bytes, fread(bytes, 1, sizeof bytes, stdin), parts))
        return 2;
    server.sin_port = htons((unsigned short)atoi(argv[1]));
    end = now() + atof(argv[2]);
    most = strtoull(argv[3], NULL, 10);
    if (connect(file, (struct sockaddr *)&server, sizeof server) < 0)
        return 1;
    for (i = 0; i < AT_A_TIME; i++) {
        messages[i].msg_hdr.msg_iov = &parts[i];
        messages[i].msg_hdr.msg_iovlen = 1;
    }
    while (sent < most && now() < end) {
        /* one that fails tells of an earlier one that nobody took */
        int count = sendmmsg(file, messages, AT_A_TIME, 0);
        sent += count > 0 ? count : 0;
    }
    printf("%llu\n", sent);
    return 0;
}
