/* The mailbox: eight callers before the CmdResp word, and the firmware behind it. */
#include "plain.h"

#include <string.h>

enum { LARGEST_COMMAND = 0x3FF };

/* Commands of the firmware. */
enum {
    DISABLE_INTERFACE = 0x80,
    QUERY_INTERFACE = 0x81,
    SET_PART_1 = 0x82,
    SET_PART_2 = 0x83,
    SET_PART_3 = 0x84,
    ENABLE_DELIVERY = 0x85
};

/* Statuses of a response. */
enum { SUCCESS = 0, INVALID_COMMAND = 1, INVALID_PARAMETER = 2, INVALID_STATE = 3, FAILURE = 0x1F };

void plain_mailbox_fresh(struct plain_mailbox *mailbox)
{
    memset(mailbox, 0, sizeof *mailbox);
    mailbox->firmware.interface_on = true;
}

/* Callers 0 to 7 alone, each found once in line and register where its place waits and else nowhere; commands of ten bits. */
static bool consistent(const struct plain_mailbox *mailbox)
{
    uint8_t found[PLAIN_CALLERS] = {0};

    if (mailbox->count > PLAIN_CALLERS)
        return false;
    for (uint32_t i = 0; i < mailbox->count; i++) {
        const struct plain_post *post = &mailbox->line[i];

        if (post->caller >= PLAIN_CALLERS || post->command > LARGEST_COMMAND)
            return false;
        found[post->caller]++;
    }
    if (mailbox->phase != PLAIN_IDLE) {
        if (mailbox->caller >= PLAIN_CALLERS)
            return false;
        /* Bits 31:26 of a command word make its command larger. */
        if (mailbox->phase == PLAIN_COMMAND && mailbox->word >> 16 > LARGEST_COMMAND)
            return false;
        found[mailbox->caller]++;
    }
    for (int i = 0; i < PLAIN_CALLERS; i++)
        if (found[i] != (mailbox->places[i].state == PLAIN_WAITING))
            return false;
    return true;
}

/* Holds a part. Whichever makes the descriptor whole, it is saved under the ID in part 3. */
static void hold(struct plain_firmware *firmware, int part, uint16_t data)
{
    firmware->held[part] = true;
    firmware->parts[part] = data;
    if (firmware->held[0] && firmware->held[1] && firmware->held[2]) {
        struct plain_interrupt *interrupt = &firmware->interrupts[firmware->parts[2] >> 10];

        memcpy(interrupt->parts, firmware->parts, sizeof interrupt->parts);
        interrupt->saved = true;
        memset(firmware->held, 0, sizeof firmware->held);
    }
}

static uint32_t set_delivery(struct plain_firmware *firmware, uint16_t data)
{
    struct plain_interrupt *interrupt = &firmware->interrupts[data >> 10];

    if (firmware->interface_on)
        return INVALID_STATE;
    if (data & 0x3FE)
        return FAILURE;
    if (!interrupt->saved)
        return INVALID_PARAMETER;
    interrupt->delivery = data & 1;
    return SUCCESS;
}

static uint32_t respond(struct plain_firmware *firmware, uint32_t word)
{
    uint32_t command = word >> 16 & LARGEST_COMMAND, status = SUCCESS;
    uint16_t data = (uint16_t)word, answer = data;

    switch (command) {
    case DISABLE_INTERFACE:
        firmware->interface_on = false;
        break;
    case QUERY_INTERFACE:
        answer = firmware->interface_on;
        break;
    case SET_PART_1:
    case SET_PART_2:
    case SET_PART_3:
        hold(firmware, (int)(command - SET_PART_1), data);
        break;
    case ENABLE_DELIVERY:
        status = set_delivery(firmware, data);
        break;
    default:
        status = INVALID_COMMAND;
    }
    return UINT32_C(1) << 31 | status << 26 | command << 16 | answer;
}

int plain_post(struct plain_mailbox *mailbox, uint32_t caller, uint32_t command, uint16_t data)
{
    if (!consistent(mailbox))
        return PLAIN_FIELD;
    if (caller >= PLAIN_CALLERS || command > LARGEST_COMMAND)
        return PLAIN_RANGE;
    if (mailbox->places[caller].state != PLAIN_FREE)
        return PLAIN_OUTSTANDING;
    mailbox->places[caller].state = PLAIN_WAITING;
    mailbox->line[mailbox->count++] = (struct plain_post){caller, (uint16_t)command, data};
    return PLAIN_OK;
}

int plain_load(struct plain_mailbox *mailbox, bool *acted)
{
    if (!consistent(mailbox))
        return PLAIN_FIELD;
    *acted = mailbox->phase == PLAIN_IDLE && mailbox->count > 0;
    if (*acted) {
        const struct plain_post *oldest = &mailbox->line[0];

        mailbox->phase = PLAIN_COMMAND;
        mailbox->caller = oldest->caller;
        mailbox->word = (uint32_t)oldest->command << 16 | oldest->data;
        mailbox->count--;
        memmove(&mailbox->line[0], &mailbox->line[1], mailbox->count * sizeof mailbox->line[0]);
    }
    return PLAIN_OK;
}

int plain_turn(struct plain_mailbox *mailbox, bool *acted)
{
    if (!consistent(mailbox))
        return PLAIN_FIELD;
    *acted = mailbox->phase == PLAIN_COMMAND;
    if (*acted) {
        mailbox->phase = PLAIN_RESPONSE;
        mailbox->word = respond(&mailbox->firmware, mailbox->word);
    }
    return PLAIN_OK;
}

int plain_unload(struct plain_mailbox *mailbox, bool *acted)
{
    if (!consistent(mailbox))
        return PLAIN_FIELD;
    *acted = mailbox->phase == PLAIN_RESPONSE;
    if (*acted) {
        struct plain_place *place = &mailbox->places[mailbox->caller];

        place->state = PLAIN_READY;
        place->word = mailbox->word;
        mailbox->phase = PLAIN_IDLE;
    }
    return PLAIN_OK;
}

int plain_take(struct plain_mailbox *mailbox, uint32_t caller, uint32_t *word)
{
    struct plain_place *place;

    if (!consistent(mailbox))
        return PLAIN_FIELD;
    if (caller >= PLAIN_CALLERS)
        return PLAIN_RANGE;
    place = &mailbox->places[caller];
    if (place->state == PLAIN_FREE)
        return PLAIN_ABSENT;
    if (place->state == PLAIN_WAITING)
        return PLAIN_NOT_YET;
    *word = place->word;
    place->state = PLAIN_FREE;
    return PLAIN_OK;
}
