/* daemon.c: a drive in a process of its own: it maps the cartridge's files, mounts them, and answers the command blocks
 * that a transport hands it over a local socket. The example that a daemon's author copies; docs/DAEMON.md has the why.
 *
 *   daemon.c      options, the socket, signals, root          exchange.h    one command, and how it is answered
 *   cartridge.h   the files, and when their bytes are final   identity.h    INQUIRY and REPORT LUNS
 *   drive.h       the way of a command                        stock.h       what stock programs send otherwise
 *   wire.h        what passes over the socket                 tgt_module.c  the other end of it, in Debian's tgt
 */
#define _DEFAULT_SOURCE
#include "drive.h"
#include <grp.h>
#include <pwd.h>
#include <signal.h>
#include <stdlib.h>
#include <sys/prctl.h>

enum { DONE = 0, SYSTEM_REFUSED = 1, WRONG_USE = 2, TORN = 3 };

struct options {
    const char *socket, *log, *user, *files[2];
    int is_exact;
};

static const char usage[] =
    "daemon [OPTIONS] --socket PATH CARTRIDGE [SECOND]: a tape drive with this cartridge, of one or two partitions\n"
    "  --socket PATH   where the transport connects\n"
    "  --exact         translate nothing for stock tape programs\n"
    "  --log FILE      append a line for each command to FILE; without it they go to standard output\n"
    "  --user NAME     whose rights to keep, if started as root (default: nobody)\n"
    "It ends at SIGINT, SIGTERM or SIGHUP. Exit status: 0 stopped, 1 the system refused, 2 wrong use, 3 torn.\n";

/* ---- options */

/* The option's value, or NULL if this is another option. */
static const char *value_of(char **argument, const char *name)
{
    return strcmp(argument[0], name) == 0 ? argument[1] : NULL;
}

/* How many arguments were taken; 0 if none can be. */
static int take_option(struct options *o, char **argument)
{
    const char *value;
    if ((value = value_of(argument, "--socket")) != NULL)
        return o->socket = value, 2;
    if ((value = value_of(argument, "--log")) != NULL)
        return o->log = value, 2;
    if ((value = value_of(argument, "--user")) != NULL)
        return o->user = value, 2;
    if (strcmp(argument[0], "--exact") == 0)
        return o->is_exact = 1;
    if (argument[0][0] == '-' || o->files[1] != NULL)
        return 0;
    o->files[o->files[0] != NULL] = argument[0];
    return 1;
}

static int read_options(struct options *o, char **argument)
{
    *o = (struct options){.user = "nobody"};
    while (*argument != NULL) {
        int taken = take_option(o, argument);
        if (taken == 0) {
            fprintf(stderr, "daemon: cannot take '%s'%s%s\n\n", argument[0], argument[1] != NULL ? " " : "",
                    argument[1] != NULL ? argument[1] : "");
            return 0;
        }
        argument += taken;
    }
    return o->socket != NULL && o->files[0] != NULL;
}

/* ---- the cartridge */

/* Which of the partitions a mount alone refuses, and why. */
static void say_refused(const struct drive *d)
{
    for (int i = 0; i < 2 && d->tape[i].length > 0; i++) {
        uint8_t record[STORMTOGGLE_RECORD_LENGTH];
        const struct cartridge *p = &d->tape[i];
        stormtoggle_fresh(record, sizeof record);
        unsigned refusal =
            STORMTOGGLE_REFUSAL(stormtoggle_mount(record, sizeof record, p->lent, p->length, NULL, 0));
        if (refusal != 0)
            fprintf(stderr, "%s: refused %u: %s: it is torn, or no cartridge (tools/cartridge check says where)\n",
                    p->name, refusal, refusal_in_words(refusal));
    }
}

static int load(struct drive *d, const struct options *o)
{
    for (int i = 0; i < 2 && o->files[i] != NULL; i++)
        if (!open_cartridge(&d->tape[i], o->files[i]))
            return SYSTEM_REFUSED;
    stormtoggle_fresh(d->record, sizeof d->record);
    if (mount(d) == 0)
        return DONE;
    say_refused(d);
    return TORN;
}

/* ---- the wire */

struct buffer {
    uint8_t *bytes;
    size_t length;
};

/* Room for as much as the wire claims, which is within the limits. */
static int make_room(struct buffer *b, size_t length)
{
    if (length <= b->length)
        return 1;
    uint8_t *bytes = realloc(b->bytes, length);
    if (bytes == NULL)
        return 0;
    *b = (struct buffer){bytes, length};
    return 1;
}

struct connection {
    struct drive *drive;
    int socket;
    struct buffer sent, received;
};

static int send_reply(struct connection *c, const struct exchange *x)
{
    uint8_t head[REPLY_LENGTH];
    size_t sense_length = x->status == STORMTOGGLE_GOOD ? 0 : sizeof x->sense;
    write_reply(head, (struct reply){x->status, (uint32_t)sense_length, (uint32_t)x->received_length,
                                     (uint32_t)x->taken});
    return send_whole(c->socket, head, sizeof head) && send_whole(c->socket, x->sense, sense_length) &&
           send_whole(c->socket, x->received, x->received_length);
}

/* False when the other end is gone, or says what no transport says. A command that came in part is not carried out. */
static int serve_request(struct connection *c)
{
    uint8_t head[REQUEST_LENGTH], command[LONGEST_COMMAND] = {0};
    struct request r;
    if (!receive_whole(c->socket, head, sizeof head))
        return 0;
    if (!read_request(head, &r) || !make_room(&c->sent, r.sent_length) || !make_room(&c->received, r.room)) {
        fprintf(stderr, "daemon: a request that is none, or claims too much: its connection is closed\n");
        return 0;
    }
    if (!receive_whole(c->socket, command, r.command_length) ||
        !receive_whole(c->socket, c->sent.bytes, r.sent_length))
        return 0;
    struct exchange x = {.command = command, .command_length = r.command_length, .sent = c->sent.bytes,
                         .sent_length = r.sent_length, .received = c->received.bytes, .room = r.room};
    serve(c->drive, &x, r.unit, r.host);
    return send_reply(c, &x);
}

static void *serve_connection(void *argument)
{
    struct connection *c = argument;
    while (serve_request(c))
        ;
    close(c->socket);
    free(c->sent.bytes);
    free(c->received.bytes);
    free(c);
    return NULL;
}

struct listener {
    struct drive *drive;
    int socket;
};

/* A thread for each connection; the drive's lock lets one command in at a time. */
static void *listen_on(void *argument)
{
    struct listener *l = argument;
    for (;;) {
        struct connection *c = calloc(1, sizeof *c);
        pthread_t thread;
        int socket = accept(l->socket, NULL, NULL);
        if (c != NULL && socket >= 0) {
            *c = (struct connection){.drive = l->drive, .socket = socket};
            if (pthread_create(&thread, NULL, serve_connection, c) == 0) {
                pthread_detach(thread);
                continue;
            }
        }
        free(c);
        if (socket >= 0)
            close(socket);
        else
            usleep(10000); /* out of descriptors, perhaps: not for ever */
    }
    return NULL;
}

/* For this user alone. */
static int open_socket(const char *path, const struct passwd *user)
{
    struct sockaddr_un address;
    struct stat about;
    int fd = socket(AF_UNIX, SOCK_STREAM, 0);
    if (!local_address(&address, path)) {
        fprintf(stderr, "%s: is too long a name for a socket\n", path);
        return -1;
    }
    if (stat(path, &about) == 0 && S_ISSOCK(about.st_mode))
        unlink(path); /* left by a daemon that was killed: one that lives has the cartridge */
    umask(0177);
    if (fd < 0 || bind(fd, (struct sockaddr *)&address, sizeof address) != 0 || listen(fd, SOMAXCONN) != 0 ||
        (geteuid() == 0 && lchown(path, user->pw_uid, user->pw_gid) != 0)) {
        say_failed(path, "cannot be listened on");
        return -1;
    }
    return fd;
}

/* Files and socket are open by now, and nothing more needs root. */
static int drop_root(const struct passwd *user)
{
    if (geteuid() != 0)
        return 1;
    return setgroups(0, NULL) == 0 && setgid(user->pw_gid) == 0 && setuid(user->pw_uid) == 0 &&
           (user->pw_uid == 0 || setuid(0) != 0);
}

/* ---- the life of it */

/* Holds the lock to the end: the command under way is finished, and no other begins. The socket goes only if all is
 * final, for whoever does not learn the exit status. */
static int stop(struct drive *d, const char *socket)
{
    pthread_mutex_lock(&d->lock);
    int is_final = make_all_final(d);
    if (is_final)
        unlink(socket);
    fprintf(d->log, "stopped: what stands is %s\n", is_final ? "final" : "NOT FINAL");
    fflush(d->log);
    return is_final ? DONE : SYSTEM_REFUSED;
}

/* The signals that end the drive are blocked in every thread, so that one can wait for them: from the start, for one
 * that comes before the drive is ready ends it as soon as it is. Who reads the log may go, and the drive stays. */
static sigset_t block_ends(void)
{
    sigset_t ends;
    sigemptyset(&ends);
    sigaddset(&ends, SIGINT);
    sigaddset(&ends, SIGTERM);
    sigaddset(&ends, SIGHUP);
    pthread_sigmask(SIG_BLOCK, &ends, NULL);
    signal(SIGPIPE, SIG_IGN);
    return ends;
}

static int run(struct drive *d, const struct options *o, const sigset_t *ends)
{
    struct listener l = {.drive = d};
    const struct passwd *user = getpwnam(o->user);
    pthread_t thread;
    int which;
    if (user == NULL && geteuid() == 0) {
        fprintf(stderr, "daemon: there is no user %s\n", o->user);
        return SYSTEM_REFUSED;
    }
    l.socket = open_socket(o->socket, user);
    if (l.socket < 0)
        return SYSTEM_REFUSED;
    if (!drop_root(user) || prctl(PR_SET_NO_NEW_PRIVS, 1, 0, 0, 0) != 0) {
        say_failed(o->user, "its rights cannot be taken");
        return SYSTEM_REFUSED;
    }
    if (pthread_create(&thread, NULL, listen_on, &l) != 0)
        return SYSTEM_REFUSED;
    printf("mounted: %u partitions\n", d->record[STORMTOGGLE_RECORD_PARTITIONS]);
    fflush(stdout);
    sigwait(ends, &which);
    return stop(d, o->socket);
}

/* A standard stream that is closed gets a descriptor that is not a cartridge's: what is printed would go there. */
static int secure_streams(void)
{
    for (int i = 0; i <= 2; i++)
        if (fcntl(i, F_GETFD) < 0 && open("/dev/null", O_RDWR) != i)
            return 0;
    return 1;
}

int main(int count, char **arguments)
{
    static struct drive drive = {.lock = PTHREAD_MUTEX_INITIALIZER};
    struct options options;
    (void)count;
    if (!secure_streams())
        return SYSTEM_REFUSED;
    sigset_t ends = block_ends();
    if (arguments[1] != NULL && strcmp(arguments[1], "--help") == 0)
        return fputs(usage, stdout) == EOF;
    if (!read_options(&options, arguments + 1)) {
        fputs(usage, stderr);
        return WRONG_USE;
    }
    drive.is_exact = options.is_exact;
    drive.log = options.log == NULL ? stdout : fopen(options.log, "a");
    if (drive.log == NULL) {
        say_failed(options.log, "cannot be written");
        return SYSTEM_REFUSED;
    }
    setvbuf(drive.log, NULL, _IOLBF, BUFSIZ);
    int status = load(&drive, &options);
    return status == DONE ? run(&drive, &options, &ends) : status;
}
