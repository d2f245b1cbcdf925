// What `passphrase ID` has to do at least where the passphrase is kept: it connects to the agent, reads its greeting, asks for the passphrase without a
// prompt, and writes what the data lines carry, and a line feed.
//
// usage: plain SOCKET ID [options]
//
// With that word it tells the agent the options of the terminal first, and lets it prompt, as a client does that doesn't look first.
#include <stdio.h>
#include <stdlib.h>
#include <string.h>
#include <sys/socket.h>
#include <sys/un.h>
#include <unistd.h>

// Lines of the agent have at most 1,000 bytes, and a line feed.
static char buf[4096];
static size_t begin, end;
static int agent;

static void fail(const char *what) {
    fprintf(stderr, "plain: %s\n", what);
    exit(1);
}

static void send_line(const char *line) {
    char out[1024];
    int count = snprintf(out, sizeof out, "%s\n", line);
    if (count < 0 || (size_t)count >= sizeof out || write(agent, out, (size_t)count) != count) fail("write");
}

// The next line, without its line feed.
static char *read_line(void) {
    for (;;) {
        char *feed = memchr(buf + begin, '\n', end - begin);
        if (feed != NULL) {
            char *line = buf + begin;
            *feed = '\0';
            begin = (size_t)(feed + 1 - buf);
            return line;
        }
        memmove(buf, buf + begin, end - begin);
        end -= begin;
        begin = 0;
        ssize_t count = read(agent, buf + end, sizeof buf - end);
        if (count <= 0) fail("read");
        end += (size_t)count;
    }
}

static int digit(char letter) {
    if (letter >= '0' && letter <= '9') return letter - '0';
    return (letter | 32) - 'a' + 10;
}

// What a data line carries.
static size_t decode(const char *from, char *to) {
    size_t count = 0;
    for (; *from != '\0'; from++) {
        if (*from == '%' && from[1] != '\0' && from[2] != '\0') {
            to[count++] = (char)(16 * digit(from[1]) + digit(from[2]));
            from += 2;
        } else {
            to[count++] = *from;
        }
    }
    return count;
}

static void option(const char *name, const char *value) {
    if (value == NULL || *value == '\0') return;
    char line[512];
    snprintf(line, sizeof line, "OPTION %s=%s", name, value);
    send_line(line);
    read_line();
}

static const char *locale(const char *name) {
    const char *names[] = {"LC_ALL", name, "LANG"};
    for (size_t i = 0; i < 3; i++) {
        const char *value = getenv(names[i]);
        if (value != NULL && *value != '\0') return value;
    }
    return NULL;
}

static void options(void) {
    send_line("OPTION allow-pinentry-notify");
    read_line();
    option("ttyname", getenv("GPG_TTY"));
    option("ttytype", getenv("TERM"));
    option("lc-ctype", locale("LC_CTYPE"));
    option("lc-messages", locale("LC_MESSAGES"));
}

int main(int count, char **words) {
    if (count != 3 && count != 4) return 2;
    struct sockaddr_un name = {.sun_family = AF_UNIX};
    strncpy(name.sun_path, words[1], sizeof name.sun_path - 1);
    agent = socket(AF_UNIX, SOCK_STREAM | SOCK_CLOEXEC, 0);
    if (connect(agent, (struct sockaddr *)&name, sizeof name) != 0) fail("connect");
    if (strncmp(read_line(), "OK", 2) != 0) fail("no greeting");
    if (count == 4) options();
    char line[512], passphrase[1024];
    snprintf(line, sizeof line, "GET_PASSPHRASE --data%s %s X X Passphrase+%s", count == 4 ? "" : " --no-ask", words[2], words[2]);
    send_line(line);
    size_t length = 0;
    for (char *answer; strncmp(answer = read_line(), "OK", 2) != 0;) {
        if (strncmp(answer, "D ", 2) != 0 || length + strlen(answer) >= sizeof passphrase) fail(answer);
        length += decode(answer + 2, passphrase + length);
    }
    passphrase[length++] = '\n';
    return write(STDOUT_FILENO, passphrase, length) == (ssize_t)length ? 0 : 1;
}
