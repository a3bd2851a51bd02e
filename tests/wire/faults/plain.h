/* plain.h: iSCSI by hand over a plain TCP socket, as far as a host needs it that breaks its rules: login, a SCSI
 * command, data that it sends, and all of it cut off after so many bytes. (RFC 7143 has the layouts.) */
#ifndef PLAIN_H
#define PLAIN_H

#include "codes.h"
#include "decode.h"
#include <errno.h>
#include <netdb.h>
#include <netinet/in.h>
#include <netinet/tcp.h>
#include <stdio.h>
#include <stdlib.h>
#include <string.h>
#include <sys/socket.h>
#include <sys/time.h>
#include <unistd.h>

/* The header of every protocol data unit, where its fields are, and the operation codes that are used here. */
enum { UNIT_HEADER = 48, UNIT_FLAGS = 1, UNIT_DATA_LENGTH = 5, UNIT_LUN = 8, UNIT_TAG = 16, UNIT_FIELD = 20 };
enum { UNIT_COMMAND_NUMBER = 24, UNIT_STATUS_NUMBER = 28, UNIT_COMMAND = 32, UNIT_DATA_NUMBER = 36 };
enum { UNIT_LOGIN_STATUS = 36, UNIT_OFFSET = 40, UNIT_DESIRED = 44 };
enum { SEND_COMMAND = 0x01, SEND_LOGIN = 0x43, SEND_DATA = 0x05, GET_LOGIN = 0x23, GET_READY = 0x31 };
enum { IS_FINAL = 0x80, IS_READ = 0x40, IS_WRITE = 0x20, LOGIN_AT_ONCE = 0x87 };
#define NOT_ASKED_FOR 0xffffffffu
enum { LOGIN_ROOM = 8192, SECONDS_PATIENT = 10 };

struct plain {
    int fd;
    uint64_t left; /* how many bytes it still sends */
    uint32_t command_number, status_number, tag;

    /* As negotiated. */
    int waits_for_ready, sends_with_command;
    uint32_t first_burst, segment;
};

/* Where a target is, by its URL. */
struct address {
    char host[64], port[16], target[256];
};

static inline int is_address(struct address *a, const char *url)
{
    return sscanf(url, "iscsi://%63[^:]:%15[0-9]/%255[^/]/", a->host, a->port, a->target) == 3;
}

/* ---- the socket */

static inline int connect_plainly(const struct address *to)
{
    struct addrinfo wish = {.ai_socktype = SOCK_STREAM}, *found;
    struct timeval patience = {.tv_sec = SECONDS_PATIENT};
    int fd = -1, at_once = 1;
    if (getaddrinfo(to->host, to->port, &wish, &found) != 0)
        return -1;
    fd = socket(found->ai_family, SOCK_STREAM, 0);
    if (fd >= 0 && connect(fd, found->ai_addr, found->ai_addrlen) != 0) {
        close(fd);
        fd = -1;
    }
    freeaddrinfo(found);
    if (fd >= 0) {
        setsockopt(fd, SOL_SOCKET, SO_RCVTIMEO, &patience, sizeof patience);
        setsockopt(fd, SOL_SOCKET, SO_SNDTIMEO, &patience, sizeof patience);
        setsockopt(fd, IPPROTO_TCP, TCP_NODELAY, &at_once, sizeof at_once);
    }
    return fd;
}

/* Goes away: with a farewell, or as a host does whose mains failed and that then gets a packet of an old connection. */
static inline void vanish(int fd, int by_reset)
{
    if (by_reset)
        setsockopt(fd, SOL_SOCKET, SO_LINGER, &(struct linger){1, 0}, sizeof(struct linger));
    close(fd);
}

/* False if the other end is gone, or if all that was to be sent is. */
static inline int send_plainly(struct plain *p, const uint8_t *bytes, size_t length)
{
    size_t sent = 0, most = length < p->left ? length : (size_t)p->left;
    while (sent < most) {
        ssize_t now = send(p->fd, bytes + sent, most - sent, MSG_NOSIGNAL);
        if (now <= 0)
            return 0;
        sent += (size_t)now;
        p->left -= (uint64_t)now;
    }
    return most == length;
}

static inline int receive_plainly(int fd, uint8_t *bytes, size_t length)
{
    while (length > 0) {
        ssize_t got = recv(fd, bytes, length, 0);
        if (got <= 0)
            return 0;
        bytes += got;
        length -= (size_t)got;
    }
    return 1;
}

/* ---- units */

static inline void put_number(uint8_t *at, uint32_t number)
{
    memcpy(at, (uint8_t[]){FOUR_BYTES(number)}, 4);
}

static inline size_t padded(size_t length)
{
    return (length + 3) / 4 * 4;
}

/* The data is padded to words. */
static inline int send_unit(struct plain *p, uint8_t *header, const uint8_t *data, size_t length)
{
    static const uint8_t nothing[4];
    memcpy(header + UNIT_DATA_LENGTH, (uint8_t[]){THREE_BYTES(length)}, 3);
    put_number(header + UNIT_STATUS_NUMBER, p->status_number);
    return send_plainly(p, header, UNIT_HEADER) && send_plainly(p, data, length) &&
           send_plainly(p, nothing, padded(length) - length);
}

/* Its data, as much of it as there is room for. */
static inline int receive_unit(struct plain *p, uint8_t *header, uint8_t *data, size_t room)
{
    if (!receive_plainly(p->fd, header, UNIT_HEADER))
        return 0;
    size_t length = padded(number_at(header + UNIT_DATA_LENGTH - 1) & 0xffffff);
    return length <= room && receive_plainly(p->fd, data, length);
}

/* ---- login */

/* A key's value in the text of a login, which is a row of strings; NULL if it is not there. */
static inline const char *value_in(const char *text, size_t length, const char *key)
{
    size_t key_length = strlen(key);
    for (size_t at = 0; at < length; at += strlen(text + at) + 1)
        if (strncmp(text + at, key, key_length) == 0 && text[at + key_length] == '=')
            return text + at + key_length + 1;
    return NULL;
}

static inline uint32_t number_in(const char *text, size_t length, const char *key, uint32_t otherwise)
{
    const char *value = value_in(text, length, key);
    return value == NULL ? otherwise : (uint32_t)strtoul(value, NULL, 10);
}

static inline int yes_in(const char *text, size_t length, const char *key, int otherwise)
{
    const char *value = value_in(text, length, key);
    return value == NULL ? otherwise : strcmp(value, "Yes") == 0;
}

/* Each line of the wish ends a string. */
static inline size_t text_of(char *text, const char *name, const char *target, int waits, int sends_with_command)
{
    int length = snprintf(text, LOGIN_ROOM,
                          "InitiatorName=%s\nTargetName=%s\nSessionType=Normal\nHeaderDigest=None\nDataDigest=None\n"
                          "InitialR2T=%s\nImmediateData=%s\nMaxRecvDataSegmentLength=262144\nMaxBurstLength=262144\n"
                          "FirstBurstLength=65536\nMaxConnections=1\nMaxOutstandingR2T=1\nErrorRecoveryLevel=0\n",
                          name, target, waits ? "Yes" : "No", sends_with_command ? "Yes" : "No");
    for (int i = 0; i < length; i++)
        if (text[i] == '\n')
            text[i] = '\0';
    return (size_t)length;
}

static inline int answer_login(struct plain *p, int waits, int sends_with_command)
{
    uint8_t header[UNIT_HEADER];
    char text[LOGIN_ROOM + 1] = {0};
    if (!receive_unit(p, header, (uint8_t *)text, LOGIN_ROOM) || header[0] != GET_LOGIN ||
        header[UNIT_LOGIN_STATUS] != 0)
        return 0;
    p->status_number = number_at(header + UNIT_COMMAND_NUMBER) + 1;
    p->waits_for_ready = yes_in(text, LOGIN_ROOM, "InitialR2T", waits);
    p->sends_with_command = yes_in(text, LOGIN_ROOM, "ImmediateData", sends_with_command);
    p->first_burst = number_in(text, LOGIN_ROOM, "FirstBurstLength", 65536);
    p->segment = number_in(text, LOGIN_ROOM, "MaxRecvDataSegmentLength", 8192);
    return p->segment > 0;
}

/* Connects and logs in, with these wishes for how data is sent; false if that fails. */
static inline int log_in(struct plain *p, const struct address *to, const char *name, int waits, int sends_with_command)
{
    uint8_t header[UNIT_HEADER] = {SEND_LOGIN, LOGIN_AT_ONCE, [UNIT_LUN] = 0x80, [UNIT_LUN + 5] = 1};
    char text[LOGIN_ROOM];
    size_t length = text_of(text, name, to->target, waits, sends_with_command);
    *p = (struct plain){.fd = connect_plainly(to), .left = UINT64_MAX, .command_number = 1, .tag = 1};
    if (p->fd < 0)
        return 0;
    put_number(header + UNIT_COMMAND_NUMBER, p->command_number);
    if (send_unit(p, header, (uint8_t *)text, length) && answer_login(p, waits, sends_with_command))
        return 1;
    close(p->fd);
    return 0;
}

/* ---- a command */

/* With its first data, if it has some. */
static inline int send_command(struct plain *p, uint8_t flags, uint16_t lun, const uint8_t *command, size_t length,
                               uint32_t transfer, const uint8_t *data, size_t data_length)
{
    uint8_t header[UNIT_HEADER] = {SEND_COMMAND, flags, [UNIT_LUN] = BYTE(lun, 8), BYTE(lun, 0)};
    put_number(header + UNIT_TAG, ++p->tag);
    put_number(header + UNIT_FIELD, transfer);
    put_number(header + UNIT_COMMAND_NUMBER, p->command_number++);
    memcpy(header + UNIT_COMMAND, command, length);
    return send_unit(p, header, data, data_length);
}

/* Data from this offset on, in as many units as the target's segments need; the last says that it is the last. */
static inline int send_data(struct plain *p, uint16_t lun, uint32_t ready, const uint8_t *data, uint32_t offset,
                            uint32_t length)
{
    uint32_t number = 0, most = p->segment;
    while (length > 0) {
        uint32_t now = length < most ? length : most;
        uint8_t header[UNIT_HEADER] = {SEND_DATA, [UNIT_LUN] = BYTE(lun, 8), BYTE(lun, 0)};
        header[UNIT_FLAGS] = now == length ? IS_FINAL : 0;
        put_number(header + UNIT_TAG, p->tag);
        put_number(header + UNIT_FIELD, ready);
        put_number(header + UNIT_DATA_NUMBER, number++);
        put_number(header + UNIT_OFFSET, offset);
        if (!send_unit(p, header, data + offset, now))
            return 0;
        offset += now;
        length -= now;
    }
    return 1;
}

#endif
