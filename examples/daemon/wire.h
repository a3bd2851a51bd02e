/* wire.h: what passes between the daemon and the transport beside it, over a local stream socket: a request for each
 * command block, and its reply. Both sides hold each length that they are told against its limit before they use it.
 * Part of daemon.c and of tgt_module.c. */
#ifndef WIRE_H
#define WIRE_H

#include "../codes.h"
#include "../decode.h"
#include "stormtoggle.h"
#include <errno.h>
#include <string.h>
#include <sys/socket.h>
#include <sys/types.h>
#include <sys/un.h>

/* A command block has at most 260 bytes. One command moves at most so many bytes; what asks for more is refused, since
 * its buffer is too short. */
enum { LONGEST_COMMAND = 260, LARGEST_TRANSFER = 64 << 20 };

enum { WIRE_MARK = 0x53544754 };

/* A request: mark, command length, bytes sent, room to receive, unit number (8 bytes), host number; then the command
 * block and the bytes sent. A reply: mark, status, sense length, bytes received, bytes taken; then the sense and the
 * bytes received. Numbers have 4 bytes, big-endian, but for the unit's 8. */
enum { REQUEST_LENGTH = 28, REPLY_LENGTH = 20 };

struct request {
    uint32_t command_length, sent_length, room, host;
    uint64_t unit;
};
struct reply {
    uint32_t status, sense_length, received_length, taken;
};

static inline void write_request(uint8_t *at, struct request r)
{
    const uint8_t bytes[REQUEST_LENGTH] = {FOUR_BYTES(WIRE_MARK), FOUR_BYTES(r.command_length),
                                           FOUR_BYTES(r.sent_length), FOUR_BYTES(r.room),
                                           EIGHT_BYTES(r.unit), FOUR_BYTES(r.host)};
    memcpy(at, bytes, sizeof bytes);
}

/* False if it is none, or claims more than the limits allow. */
static inline int read_request(const uint8_t *at, struct request *r)
{
    *r = (struct request){number_at(at + 4), number_at(at + 8), number_at(at + 12), number_at(at + 24),
                          (uint64_t)number_at(at + 16) << 32 | number_at(at + 20)};
    return number_at(at) == WIRE_MARK && r->command_length <= LONGEST_COMMAND && r->sent_length <= LARGEST_TRANSFER &&
           r->room <= LARGEST_TRANSFER;
}

static inline void write_reply(uint8_t *at, struct reply r)
{
    const uint8_t bytes[REPLY_LENGTH] = {FOUR_BYTES(WIRE_MARK), FOUR_BYTES(r.status), FOUR_BYTES(r.sense_length),
                                         FOUR_BYTES(r.received_length), FOUR_BYTES(r.taken)};
    memcpy(at, bytes, sizeof bytes);
}

/* False if it is no reply to the request. */
static inline int read_reply(const uint8_t *at, const struct request *to, struct reply *r)
{
    *r = (struct reply){number_at(at + 4), number_at(at + 8), number_at(at + 12), number_at(at + 16)};
    return number_at(at) == WIRE_MARK && r->sense_length <= STORMTOGGLE_SENSE_LENGTH &&
           r->received_length <= to->room && r->taken <= to->sent_length;
}

/* ---- whole runs of bytes; false if the other side is gone, or silent for longer than the socket waits */

static inline int send_whole(int to, const uint8_t *bytes, size_t length)
{
    while (length > 0) {
        ssize_t sent = send(to, bytes, length, MSG_NOSIGNAL);
        if (sent < 0 && errno == EINTR)
            continue;
        if (sent <= 0)
            return 0;
        bytes += sent;
        length -= (size_t)sent;
    }
    return 1;
}

static inline int receive_whole(int from, uint8_t *bytes, size_t length)
{
    while (length > 0) {
        ssize_t got = recv(from, bytes, length, 0);
        if (got < 0 && errno == EINTR)
            continue;
        if (got <= 0)
            return 0;
        bytes += got;
        length -= (size_t)got;
    }
    return 1;
}

/* The address of a local socket; false if its path is too long for one. */
static inline int local_address(struct sockaddr_un *address, const char *path)
{
    memset(address, 0, sizeof *address);
    address->sun_family = AF_UNIX;
    if (strlen(path) >= sizeof address->sun_path)
        return 0;
    strcpy(address->sun_path, path);
    return 1;
}

#endif
