/* initiator.h: a host on the wire. Connects to a drive by its URL, sends one command block at a time, and gives back
 * all that came as the answer. Over libiscsi. */
#ifndef INITIATOR_H
#define INITIATOR_H

#include "request.h"
#include <iscsi/iscsi.h>
#include <iscsi/scsi-lowlevel.h>
#include <string.h>

enum { LONGEST_COMMAND = 16, LONGEST_SENSE = 252, SECONDS_TO_WAIT = 30 };

/* What room holds before a command: a byte that is still this was, most likely, not received. */
enum { UNTOUCHED = 0xa5 };

struct initiator {
    struct iscsi_context *context;
    int lun;
};

struct reply {
    int status;
    size_t sense_length;
    uint8_t sense[LONGEST_SENSE]; /* that came with the status */
    size_t received;              /* bytes in the room, by the residual */
    enum scsi_residual residual_kind;
    size_t residual;
};

/* ---- a session */

/* Connects and logs in, and sends no command: a host that asked anything would meet the attention that a test waits
 * for. A lost connection stays lost, so that no command is sent twice. */
static inline struct initiator connect_to(const char *name, const char *address)
{
    struct iscsi_context *context = iscsi_create_context(name);
    if (context == NULL)
        give_up("making an iSCSI context", "out of memory");
    struct iscsi_url *url = iscsi_parse_full_url(context, address);
    if (url == NULL)
        give_up(address, iscsi_get_error(context));
    struct initiator initiator = {.context = context, .lun = url->lun};
    iscsi_set_session_type(context, ISCSI_SESSION_NORMAL);
    iscsi_set_header_digest(context, ISCSI_HEADER_DIGEST_NONE);
    iscsi_set_timeout(context, SECONDS_TO_WAIT);
    iscsi_set_noautoreconnect(context, 1);
    if (iscsi_set_targetname(context, url->target) != 0 || iscsi_connect_sync(context, url->portal) != 0 ||
        iscsi_login_sync(context) != 0)
        give_up(address, iscsi_get_error(context));
    iscsi_destroy_url(url);
    return initiator;
}

static inline void disconnect(struct initiator *initiator)
{
    iscsi_logout_sync(initiator->context);
    iscsi_destroy_context(initiator->context);
    initiator->context = NULL;
}

/* ---- a command */

/* The sense comes behind two bytes with its length. */
static inline void take_sense(struct reply *reply, const struct scsi_data *came)
{
    if (reply->status != SCSI_STATUS_CHECK_CONDITION || came->data == NULL || came->size < 2)
        return;
    size_t length = (size_t)came->data[0] << 8 | came->data[1];
    reply->sense_length = at_most(at_most(length, (size_t)came->size - 2), LONGEST_SENSE);
    memcpy(reply->sense, came->data + 2, reply->sense_length);
}

static inline struct reply reply_of(const struct scsi_task *task, size_t room_length)
{
    struct reply reply = {.status = task->status, .residual_kind = task->residual_status, .residual = task->residual};
    size_t missing = reply.residual_kind == SCSI_RESIDUAL_UNDERFLOW ? reply.residual : 0;
    reply.received = room_length - at_most(missing, room_length);
    take_sense(&reply, &task->datain);
    return reply;
}

/* Data goes straight into the room, or from where it lies, whatever the status. */
static inline struct scsi_task *task_of(const struct request *request)
{
    uint8_t command[LONGEST_COMMAND] = {0};
    size_t sent = request->sent_length, room = request->room_length;
    int direction = sent > 0 ? SCSI_XFER_WRITE : room > 0 ? SCSI_XFER_READ : SCSI_XFER_NONE;
    memcpy(command, request->command, request->command_length);
    struct scsi_task *task = scsi_create_task((int)request->command_length, command, direction, (int)(sent + room));
    if (task == NULL)
        give_up("making a task", "out of memory");
    if (sent > 0 && scsi_task_add_data_out_buffer(task, (int)sent, (uint8_t *)(uintptr_t)request->sent) != 0)
        give_up("lending what is sent", "out of memory");
    if (room > 0 && scsi_task_add_data_in_buffer(task, (int)room, request->room) != 0)
        give_up("lending the room", "out of memory");
    return task;
}

/* Sends the command block and waits for the whole answer. */
static inline struct reply ask(const struct initiator *initiator, const struct request *request)
{
    struct reply reply = {.status = NO_ANSWER};
    if (request->command_length > LONGEST_COMMAND || (request->sent_length > 0 && request->room_length > 0))
        give_up("a request", "its command block is too long, or its data goes both ways");
    struct scsi_task *task = task_of(request);
    if (request->room_length > 0)
        memset(request->room, UNTOUCHED, request->room_length);
    if (iscsi_scsi_command_sync(initiator->context, initiator->lun, task, NULL) != NULL && task->status >= 0 &&
        task->status <= 0xff)
        reply = reply_of(task, request->room_length);
    scsi_free_scsi_task(task);
    return reply;
}

#endif
