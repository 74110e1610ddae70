/* Called under the name of a command or a tool, hands its words, folder, environment, input and outputs to the warm
   interpreter of server.py, and ends with the status that it answers. SERVER is its socket. */
#include <stdio.h>
#include <stdlib.h>
#include <string.h>
#include <sys/socket.h>
#include <sys/un.h>
#include <unistd.h>

extern char **environ;
static char text[1 << 21], *end = text + sizeof(unsigned);

static void put(const char *word) {
    size_t size = strlen(word) + 1;
    if (end + size > text + sizeof text) exit(71);
    memcpy(end, word, size);
    end += size;
}

int main(int argc, char **argv) {
    struct sockaddr_un to = {AF_UNIX, SERVER};
    char folder[4096], count[16], handles[CMSG_SPACE(3 * sizeof(int))] = {0};
    int server = socket(AF_UNIX, SOCK_STREAM, 0);
    if (server < 3 || connect(server, (struct sockaddr *)&to, sizeof to) || !getcwd(folder, sizeof folder)) return 70;
    snprintf(count, sizeof count, "%d", argc);
    put(folder);
    put(count);
    for (int it = 0; it < argc; it++) put(argv[it]);
    for (char **it = environ; *it; it++) put(*it);
    unsigned size = end - text - sizeof size;
    memcpy(text, &size, sizeof size);

    struct iovec data = {text, end - text};
    struct msghdr message = {.msg_iov = &data, .msg_iovlen = 1, .msg_control = handles,
                             .msg_controllen = sizeof handles};
    struct cmsghdr *head = CMSG_FIRSTHDR(&message);
    head->cmsg_level = SOL_SOCKET;
    head->cmsg_type = SCM_RIGHTS;
    head->cmsg_len = CMSG_LEN(3 * sizeof(int));
    memcpy(CMSG_DATA(head), (int[]){0, 1, 2}, 3 * sizeof(int));
    for (ssize_t sent = sendmsg(server, &message, 0), more; ; sent += more) {
        if (sent < 0) return 70;
        if (sent == end - text) break;
        if ((more = write(server, text + sent, end - text - sent)) < 0) return 70;
    }
    unsigned char status = 70;
    return read(server, &status, 1) == 1 ? status : 70;
}
