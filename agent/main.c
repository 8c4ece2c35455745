/* An agent's command line, its socket, and the connection, of which there is one at a time. */
#include "agent.h"
#include <poll.h>
#include <pwd.h>
#include <signal.h>
#include <sys/prctl.h>

#define LOOK_EVERY 200 /* milliseconds, at the database's files */

const char *realm;
static int listener, connection = -1;
/* what was read of a line */
static char input[LONGEST_LINE];
static size_t input_length;
static volatile sig_atomic_t signals; /* SIGTERM or SIGINT, and the alarm after it */

static void take_signal(int number) {
    if (signals++ == 0)
        alarm(1); /* so long the answer under way may take to be read */
}

void tell(const char *format, ...) {
    struct pollfd file = {STDERR_FILENO, POLLOUT, 0};
    char line[LONGEST_LINE];
    va_list values;
    va_start(values, format);
    vsnprintf(line, sizeof line - 1, format, values);
    va_end(values);
    strcat(line, "\n");
    if (poll(&file, 1, 0) == 1 && file.revents == POLLOUT && write(STDERR_FILENO, line, strlen(line)) < 0)
        return;
}

/* ends the connection, and tells why if the peer is to blame */
static void end_connection(const char *why) {
    if (why != NULL)
        tell("a connection was closed: %s", why);
    close(connection);
    connection = -1;
    explicit_bzero(input, sizeof input);
    input_length = 0;
    output_wipe();
}

/* answers a line once its end is there; reads byte by byte, so that the next one waits until that was taken */
static void read_line(void) {
    ssize_t count;
    while ((count = recv(connection, &input[input_length], 1, MSG_DONTWAIT)) == 1 && input[input_length] != '\n')
        if (++input_length == sizeof input) {
            end_connection("a line is too long");
            return;
        }
    if (count < 0 && (errno == EAGAIN || errno == EINTR))
        return;
    if (count == 1) {
        input[input_length] = '\0';
        int is_request = strlen(input) == input_length && answer(input); /* a byte 0 stands in no request */
        explicit_bzero(input, sizeof input);
        input_length = 0;
        if (!is_request)
            end_connection("a line is no request");
    } else {
        end_connection(input_length > 0 ? "a line has no end" : NULL);
    }
}

/* sends as far as the peer takes it */
static void send_output(void) {
    ssize_t count = send(connection, output.bytes + output.sent, output.length - output.sent, MSG_DONTWAIT);
    output.sent += count > 0 ? (size_t)count : 0;
    if (output.sent == output.length)
        output_wipe();
    else if (count < 0 && errno != EAGAIN && errno != EINTR)
        end_connection(NULL);
}

static void take_connection(uid_t user) {
    struct ucred peer;
    socklen_t size = sizeof peer;
    int file = accept4(listener, NULL, NULL, SOCK_CLOEXEC);
    if (file < 0)
        return;
    int is_users = getsockopt(file, SOL_SOCKET, SO_PEERCRED, &peer, &size) == 0 && peer.uid == user;
    if (!is_users || connection >= 0) {
        tell("a connection was closed: %s", is_users ? "there is one already" : "it is another user's");
        close(file);
        return;
    }
    connection = file;
    files_are_changed = 0; /* what was written before isn't told */
}

static void serve(uid_t user) {
    while (signals == 0 || (signals == 1 && output.length > 0)) {
        struct pollfd files[] = {{listener, POLLIN, 0}, {connection, output.length > 0 ? POLLOUT : POLLIN, 0}};
        if (poll(files, 2, LOOK_EVERY) < 0)
            continue;
        files_look();
        if (connection >= 0 && output.length == 0 && files_are_changed) {
            files_are_changed = 0;
            say("changed\n");
        }
        if (files[1].revents != 0 && output.length == 0)
            read_line();
        if (connection >= 0)
            send_output();
        if (files[0].revents != 0)
            take_connection(user);
    }
}

/* makes the socket, which belongs to the user, and listens; whether it can */
static int listen_at(const char *path, uid_t user) {
    struct sockaddr_un address = {.sun_family = AF_UNIX};
    struct stat found;
    /* no file that is opened from now on takes the place of standard error, into which lines go */
    for (int file = 0; file >= 0 && file <= STDERR_FILENO;)
        file = open("/dev/null", O_RDWR);
    errno = ENAMETOOLONG;
    if (strlen(path) >= sizeof address.sun_path)
        return 0;
    memcpy(address.sun_path, path, strlen(path));
    listener = socket(AF_UNIX, SOCK_STREAM | SOCK_CLOEXEC | SOCK_NONBLOCK, 0);
    /* one that nobody listens at any more; anything else stays, and makes `bind` fail */
    if (lstat(path, &found) == 0 && S_ISSOCK(found.st_mode) &&
        connect(listener, (void *)&address, sizeof address) < 0 && errno == ECONNREFUSED)
        unlink(path);
    umask(0177); /* it never has another mode than 600, not even for a moment */
    return bind(listener, (void *)&address, sizeof address) == 0 && lchown(path, user, (gid_t)-1) == 0 &&
           listen(listener, 16) == 0;
}

static void take_signals(void) {
    signal(SIGTERM, take_signal);
    signal(SIGINT, take_signal);
    signal(SIGALRM, take_signal);
    signal(SIGPIPE, SIG_IGN);
}

int main(int count, char **words) {
    const char *path = NULL, *name = NULL, *fault = NULL;
    int at;
    for (at = 1; at + 1 < count && fault == NULL; at += 2)
        if (strcmp(words[at], "--socket") == 0)
            path = words[at + 1];
        else if (strcmp(words[at], "--user") == 0)
            name = words[at + 1];
        else if (strcmp(words[at], "--realm") == 0)
            realm = words[at + 1];
        else
            fault = strcmp(words[at], "--also") == 0 ? also_add(words[at + 1]) : "no such option";
    if (fault != NULL)
        tell("%s: %s", words[at - 1], fault);
    if (fault != NULL || at != count || path == NULL || name == NULL || realm == NULL || realm[0] == '\0') {
        tell("usage: %s --socket PATH --user NAME --realm REALM [--also PRINCIPAL]..", program_invocation_short_name);
        return 2;
    }
    const struct passwd *user = getpwnam(name);
    if (user == NULL) {
        tell("%s: no such user", name);
        return 1;
    }
    take_signals();
    /* keys go into no core, and nobody but root can look into the program */
    if (prctl(PR_SET_DUMPABLE, 0, 0, 0, 0) < 0 || !listen_at(path, user->pw_uid)) {
        tell("%s: %s", path, strerror(errno));
        return 1;
    }
    long error = database_open() ?: database_take("", 0); /* the name of no entry */
    fault = error != 0 ? message_of(error) : files_unwritable();
    if (fault != NULL)
        tell("the database can't be %s: %s", error != 0 ? "opened" : "written", fault);
    if (error != 0)
        database_close();
    tell("listening");
    serve(user->pw_uid);
    unlink(path);
    return 0;
}
