/* Holds a licence until standard input ends: client SOCKET FEATURE VERSION
 *
 * It prints the daemon's reply to the CHECKOUT, waits in the queue where no licence is free, says once a minute that it still runs,
 * and gives the licence back. Status 0: it had the licence to the end; 2: the words aren't as above; 3: there was none for it;
 * 5: the daemon isn't there, took it back, or went away.
 */
#include <poll.h>
#include <signal.h>
#include <stdio.h>
#include <stdlib.h>
#include <string.h>
#include <sys/socket.h>
#include <sys/un.h>
#include <unistd.h>

enum { USAGE = 2, DENIED = 3, LOST = 5, BEAT_MILLISECONDS = 60000, QUEUE_MILLISECONDS = 1000 };

static FILE *link_to(const char *path) {
    struct sockaddr_un at = {.sun_family = AF_UNIX};
    if (strlen(path) >= sizeof at.sun_path) return NULL;
    strcpy(at.sun_path, path);
    int link = socket(AF_UNIX, SOCK_STREAM, 0);
    if (link < 0 || connect(link, (struct sockaddr *)&at, sizeof at) < 0) return NULL;
    return fdopen(link, "r+");
}

/* The reply line is left in `line`; a closed link ends the program. */
static void ask(FILE *licences, char line[256], const char *verb, const char *feature, const char *version) {
    fseek(licences, 0, SEEK_CUR);
    fprintf(licences, "%s %s %s\n", verb, feature, version);
    fflush(licences);
    if (!fgets(line, 256, licences)) exit(LOST);
}

static int begins(const char *line, const char *word) { return strncmp(line, word, strlen(word)) == 0; }

/* Whether standard input ended within the time. */
static int is_over(int milliseconds) {
    struct pollfd input = {.fd = 0, .events = POLLIN};
    char rest[512];
    return poll(&input, 1, milliseconds) > 0 && read(0, rest, sizeof rest) <= 0;
}

int main(int count, char **words) {
    if (count != 4) return fputs("usage: client SOCKET FEATURE VERSION\n", stderr), USAGE;
    /* A write to a daemon that went is a fault of the write, and doesn't end the program. */
    signal(SIGPIPE, SIG_IGN);
    FILE *licences = link_to(words[1]);
    if (!licences) return perror(words[1]), LOST;
    const char *feature = words[2], *user = getenv("USER");
    char line[256], host[65] = "";
    gethostname(host, 64);
    fprintf(licences, "HELLO %s %s :0 none\n", user ? user : "nobody", host);
    if (!fgets(line, sizeof line, licences)) return LOST;
    ask(licences, line, "CHECKOUT", feature, words[3]);
    if (begins(line, "NOSEAT")) ask(licences, line, "QUEUE", feature, words[3]);
    while (begins(line, "QUEUED")) {
        if (is_over(QUEUE_MILLISECONDS)) return DENIED;
        ask(licences, line, "BEAT", feature, "");
    }
    fputs(line, stdout);
    fflush(stdout);
    if (!begins(line, "GRANTED") && !begins(line, "RETAKEN")) return DENIED;
    while (!is_over(BEAT_MILLISECONDS)) {
        ask(licences, line, "BEAT", feature, "");
        if (begins(line, "NOTHELD")) return LOST;
    }
    ask(licences, line, "CHECKIN", feature, "");
    return 0;
}
