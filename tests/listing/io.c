/* io.c: loaded before the C library by listing.sh, so that the listing program's calls of read and write end as
 * a system may let them end: for fewer bytes than they ask for, or interrupted.
 *
 *   IO_MOST     so many bytes at most are read or written by a call
 *   IO_TIMER    a signal that has a handler arrives every so many milliseconds; a call that waits then fails with EINTR
 *   IO_WITNESS  a file that gets a letter for each such ending: r and w for a short one, R and W for an interrupted one
 *
 * The witness tells that the program did meet what the run is for: it would not if it made its calls in another way.
 * The program has no handler of its own, and without one no signal interrupts a call: a handler comes with what is
 * loaded first, as here. That a call may fail otherwise (a full disk, a descriptor that does not wait) is not shown: 01
 * says nothing of it.
 */
#define _DEFAULT_SOURCE
#include <errno.h>
#include <fcntl.h>
#include <signal.h>
#include <stdlib.h>
#include <string.h>
#include <sys/syscall.h>
#include <sys/time.h>
#include <unistd.h>

static unsigned long number_in(const char *name)
{
    const char *digits = getenv(name);
    return digits == NULL ? 0 : strtoul(digits, NULL, 10);
}

/* The file is open for the letter only, so that the program has no descriptor more. */
static void witness(char letter)
{
    const char *path = getenv("IO_WITNESS");
    int file = path == NULL ? -1 : open(path, O_WRONLY | O_APPEND | O_CREAT, 0600);
    if (file < 0)
        return;
    (void)!syscall(SYS_write, file, &letter, 1);
    close(file);
}

/* The call itself; letters is what the witness gets if it ends short, and if it is interrupted. */
static ssize_t call(long number, int file, void *bytes, size_t length, const char *letters)
{
    size_t most = number_in("IO_MOST"), asked = most > 0 && most < length ? most : length;
    ssize_t done = syscall(number, file, bytes, asked);
    int error = errno;
    if (done < 0 && error == EINTR)
        witness(letters[1]);
    else if (done > 0 && (size_t)done < length)
        witness(letters[0]);
    errno = error;
    return done;
}

ssize_t read(int file, void *bytes, size_t length)
{
    return call(SYS_read, file, bytes, length, "rR");
}

ssize_t write(int file, const void *bytes, size_t length)
{
    return call(SYS_write, file, (void *)bytes, length, "wW");
}

static void on_timer(int signal_number)
{
    (void)signal_number;
}

/* Without SA_RESTART, so that the system does not go on with the call by itself. */
__attribute__((constructor)) static void set_timer(void)
{
    unsigned long milliseconds = number_in("IO_TIMER");
    struct sigaction action;
    struct itimerval every;
    if (milliseconds == 0)
        return;
    memset(&action, 0, sizeof action);
    action.sa_handler = on_timer;
    every.it_value.tv_sec = 0;
    every.it_value.tv_usec = (suseconds_t)milliseconds * 1000;
    every.it_interval = every.it_value;
    if (sigaction(SIGALRM, &action, NULL) != 0 || setitimer(ITIMER_REAL, &every, NULL) != 0)
        abort();
}
