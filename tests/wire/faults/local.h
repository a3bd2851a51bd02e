/* local.h: what initiator.h gives, but past the transport: a host that connects to the daemon's own local socket. The
 * transport hands its hosts' commands on one after the other; hosts of this kind come to the daemon's threads at once.
 */
#ifndef LOCAL_H
#define LOCAL_H

#include <unistd.h>

/* The daemon's names for what passes over its socket, beside those that a host uses. */
#define request local_request
#define reply local_reply
#include "daemon/wire.h"
#undef request
#undef reply
#include "request.h"

enum { SCSI_STATUS_GOOD = STORMTOGGLE_GOOD, SCSI_STATUS_CHECK_CONDITION = STORMTOGGLE_CHECK_CONDITION };

struct initiator {
    int fd;
};

struct reply {
    int status;
    size_t sense_length;
    uint8_t sense[STORMTOGGLE_SENSE_LENGTH];
    size_t received;
};

/* The address is the socket's path. */
static inline struct initiator connect_to(const char *name, const char *address)
{
    struct sockaddr_un local;
    struct initiator i = {.fd = socket(AF_UNIX, SOCK_STREAM, 0)};
    (void)name;
    if (i.fd < 0 || !local_address(&local, address) || connect(i.fd, (struct sockaddr *)&local, sizeof local) != 0)
        give_up(address, strerror(errno));
    return i;
}

static inline void disconnect(struct initiator *i)
{
    close(i->fd);
    i->fd = -1;
}

static inline struct reply ask(const struct initiator *i, const struct request *r)
{
    uint8_t head[REQUEST_LENGTH], answer[REPLY_LENGTH];
    struct local_request sent = {.command_length = (uint32_t)r->command_length, .sent_length = (uint32_t)r->sent_length,
                                 .room = (uint32_t)r->room_length};
    struct local_reply came;
    struct reply reply = {.status = NO_ANSWER};
    write_request(head, sent);
    if (send_whole(i->fd, head, sizeof head) && send_whole(i->fd, r->command, r->command_length) &&
        send_whole(i->fd, r->sent, r->sent_length) && receive_whole(i->fd, answer, sizeof answer) &&
        read_reply(answer, &sent, &came) && receive_whole(i->fd, reply.sense, came.sense_length) &&
        receive_whole(i->fd, r->room, came.received_length)) {
        reply.status = (int)came.status;
        reply.sense_length = came.sense_length;
        reply.received = came.received_length;
    }
    return reply;
}

#endif
