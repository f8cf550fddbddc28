/* The header and the library from C: its names, its examples, a session on a small profile, recordings, and calls that are refused. */
#include "indraveck.h"

#include "check.h"

#include <string.h>

/* 2,048 of user area and 16 of config */
#define FLASH_BYTES 2064
#define RECORDING_BYTES 100
#define GUARD 16

static uint8_t sent[4 * INDRAVECK_BUFFER_BYTES];
static size_t sent_len;

static void send_to_host(const uint8_t *bytes, size_t length)
{
    memcpy(sent + sent_len, bytes, length);
    sent_len += length;
}

#include "example.c"

/* what the example of reading hands on: each direction and the number of its bytes, and all bytes behind each other */
static char said[200];
static uint8_t seen[2 * INDRAVECK_BUFFER_BYTES];
static size_t seen_len;

static void on_record(uint32_t direction, const uint8_t *bytes, size_t length)
{
    sprintf(said + strlen(said), "%02X %d, ", (unsigned)direction, (int)length);
    memcpy(seen + seen_len, bytes, length);
    seen_len += length;
}

#include "recording.c"

/* A user area that is larger than one packet, all but its first 16 bytes in the window, and the least config area. */
static void small_profile(uint8_t *profile)
{
    uint8_t *user, *config;

    two_areas(profile, &user, &config);
    profile[INDRAVECK_PROFILE_AT_BFV + 1] = 7;
    put_four(profile + INDRAVECK_PROFILE_AT_LOW, 16);
    put_four(profile + INDRAVECK_PROFILE_AT_HIGH, 2048);
    put_four(user + INDRAVECK_AREA_AT_EAD, 2047);
    put_four(user + INDRAVECK_AREA_AT_EAU, 16);
    put_four(user + INDRAVECK_AREA_AT_WAU, 8);
    put_four(config + INDRAVECK_AREA_AT_SAD, 0x1000);
    put_four(config + INDRAVECK_AREA_AT_EAD, 0x100F);
}

/* A device of the example, started on a blank image, with everything else in it a pattern. */
static void blank_device(struct device *d)
{
    memset(d, 0x5A, sizeof *d);
    small_profile(d->profile);
    memset(d->image, 0xFF, sizeof d->image);
    check(begin(d) == INDRAVECK_ACCEPTED, "a device is started");
    sent_len = 0;
}

static void answers(struct device *d, const uint8_t *input, size_t input_len, const uint8_t *expected, size_t length, const char *what)
{
    sent_len = 0;
    check(answer(d, input, input_len) == INDRAVECK_ACCEPTED && sent_len == length && memcmp(sent, expected, length) == 0, what);
}

static const uint8_t wake[] = {0x00, 0x00, 0x55};
static const uint8_t awake[] = {0x00, 0xC3};
/* a write of 10h to 1Fh, and its two packets */
static const uint8_t write_request[] = {0x01, 0x00, 0x09, 0x13, 0x00, 0x00, 0x00, 0x10, 0x00, 0x00, 0x00, 0x1F, 0xB5, 0x03};
static const uint8_t write_data[] = {0x81, 0x00, 0x09, 0x13, 1, 2, 3, 4, 5, 6, 7, 8, 0xC0, 0x03};
static const uint8_t write_ok[] = {0x81, 0x00, 0x02, 0x13, 0x00, 0xEB, 0x03};

/* The names are constants for the preprocessor too, and no two refusals share a number. */
static void names(void)
{
    char version[32];
    uint32_t refusal;
    int known = 0;

#if INDRAVECK_ACCEPTED != 0 || INDRAVECK_UNFIT_STATE != 5 || 100 * INDRAVECK_VERSION_MAJOR + INDRAVECK_VERSION_MINOR < 4 \
    || INDRAVECK_RECORD_HOST != 0x48 || INDRAVECK_RECORD_END != 6
#error "the preprocessor does not see the header's numbers"
#endif
    sprintf(version, "%d.%d.%d", INDRAVECK_VERSION_MAJOR, INDRAVECK_VERSION_MINOR, INDRAVECK_VERSION_PATCH);
    check(strcmp(version, INDRAVECK_VERSION) == 0, "the version's numbers are those of its string");
    for (refusal = 0; refusal < 7; refusal++) {
        switch (refusal) {
        case INDRAVECK_ACCEPTED:
        case INDRAVECK_WRONG_IMAGE_LENGTH:
        case INDRAVECK_SHORT_RECEIVE_BUFFER:
        case INDRAVECK_SHORT_REPLY_BUFFER:
        case INDRAVECK_UNACCEPTABLE_PROFILE:
        case INDRAVECK_UNFIT_STATE:
            known++;
        }
    }
    check(known == 6, "every answer from 0 to 5 has a name");
    for (known = 0, refusal = 0; refusal < 256; refusal++) {
        switch (refusal) {
        case INDRAVECK_RECORD_NOT_READ:
        case INDRAVECK_RECORD_BAD_MARK:
        case INDRAVECK_RECORD_BAD_DIRECTION:
        case INDRAVECK_RECORD_BAD_LENGTH:
        case INDRAVECK_RECORD_CUT_SHORT:
        case INDRAVECK_RECORD_NO_ROOM:
        case INDRAVECK_RECORD_END:
        case INDRAVECK_RECORD_WRITTEN:
        case INDRAVECK_RECORD_HOST:
        case INDRAVECK_RECORD_DEVICE:
        case INDRAVECK_RECORD_RESET:
            known++;
        }
    }
    check(known == 11, "no two answers about records share a number");
    check(INDRAVECK_PROFILE_AT_AREAS + INDRAVECK_PROFILE_AREAS * INDRAVECK_AREA_BYTES == INDRAVECK_PROFILE_BYTES, "the areas fill the profile");
    check(INDRAVECK_STATE_AT_HELD + 4 == INDRAVECK_STATE_BYTES, "the held count ends the state");
}

/* What a host sees of a profile stands where the names say. */
static void profile_fields(void)
{
    static const uint8_t ask_signature[] = {0x01, 0x00, 0x01, 0x3A, 0xC5, 0x03};
    static const uint8_t signature[] = {0x81, 0x00, 0x0D, 0x3A, 0x03, 0x93, 0x87, 0x00, 0x00, 0x3D, 0x09, 0x00, 2, 1, 0, 7, 0x4C, 0x03};
    static const uint8_t ask_area[] = {0x01, 0x00, 0x02, 0x3B, 0x01, 0xC2, 0x03};
    static const uint8_t area[] = {0x81, 0x00, 0x12, 0x3B, 2, 0, 0, 0x10, 0, 0, 0, 0x10, 0x0F, 0, 0, 0, 0, 0, 0, 0, 0, 0x82, 0x03};
    static const uint8_t erase_below[] = {0x01, 0x00, 0x09, 0x12, 0, 0, 0, 0, 0, 0, 0, 0x0F, 0xD6, 0x03};
    static const uint8_t outside[] = {0x81, 0x00, 0x02, 0x92, 0xDA, 0x92, 0x03};
    struct device d;

    blank_device(&d);
    answers(&d, wake, sizeof wake, awake, sizeof awake, "a wake-up is answered");
    answers(&d, ask_signature, sizeof ask_signature, signature, sizeof signature, "SCI, RMB, NOA, TYP and BFV are the profile's");
    answers(&d, ask_area, sizeof ask_area, area, sizeof area, "KOA, SAD, EAD, EAU and WAU are the area's");
    answers(&d, erase_below, sizeof erase_below, outside, sizeof outside, "an erase below the window is refused");
}

static void state_is(const struct device *d, uint8_t stage, uint8_t low_pulses, uint32_t next, uint32_t left, uint32_t held, const char *what)
{
    const uint8_t *state = d->state;

    check(state[INDRAVECK_STATE_AT_STAGE] == stage && state[INDRAVECK_STATE_AT_LOW_PULSES] == low_pulses
              && four(state + INDRAVECK_STATE_AT_NEXT) == next && four(state + INDRAVECK_STATE_AT_LEFT) == left
              && four(state + INDRAVECK_STATE_AT_HELD) == held,
          what);
}

/* Each stage but authentication, and each low pulse, by the names of the state's parts. */
static void stages(void)
{
    static const uint8_t read_request[] = {0x01, 0x00, 0x09, 0x15, 0x00, 0x00, 0x00, 0x00, 0x00, 0x00, 0x07, 0xFF, 0xDC, 0x03};
    struct device d;

    blank_device(&d);
    state_is(&d, INDRAVECK_STAGE_SETTING, INDRAVECK_LOW_PULSES_NONE, 0, 0, 0, "a device starts in setting");
    check(d.state[INDRAVECK_STATE_AT_ABCS] == 0 && d.state[INDRAVECK_STATE_AT_BRR] == 0xC2 && d.state[INDRAVECK_STATE_AT_MDDR] == 0xFF,
          "a fresh line setting is that for 9,600");
    answer(&d, wake, 1);
    state_is(&d, INDRAVECK_STAGE_SETTING, INDRAVECK_LOW_PULSES_ONE, 0, 0, 0, "one low pulse");
    answer(&d, wake + 1, 1);
    state_is(&d, INDRAVECK_STAGE_SETTING, INDRAVECK_LOW_PULSES_ACKNOWLEDGED, 0, 0, 0, "low pulses are acknowledged");
    answer(&d, wake + 2, 1);
    state_is(&d, INDRAVECK_STAGE_COMMAND, 0, 0, 0, 0, "55h leads to command stage");
    answer(&d, read_request, sizeof read_request);
    state_is(&d, INDRAVECK_STAGE_READING, 0, 0x400, 0x400, 0, "half of a read is done");
    answer(&d, write_data, sizeof write_data);
    state_is(&d, INDRAVECK_STAGE_COMMAND, 0, 0, 0, 0, "another packet ends a read");
    answer(&d, write_request, sizeof write_request);
    state_is(&d, INDRAVECK_STAGE_WRITING, 0, 0x10, 0x10, 0, "a write is under way");
    answer(&d, write_data, sizeof write_data);
    answer(&d, write_data, 5);
    state_is(&d, INDRAVECK_STAGE_WRITING, 0, 0x18, 0x08, 5, "half of it is done, and five bytes are held");
    check(memcmp(d.receive, write_data, 5) == 0, "the held bytes stand at the receive buffer's front");
}

static void an_id_code(void)
{
    static const uint8_t id[16] = {0xC0, 1, 2, 3, 4, 5, 6, 7, 8, 9, 10, 11, 12, 13, 14, 15};
    struct device d;

    blank_device(&d);
    memcpy(d.image + FLASH_BYTES - 16, id, 16);
    answers(&d, wake, sizeof wake, awake, sizeof awake, "a wake-up is answered");
    state_is(&d, INDRAVECK_STAGE_AUTHENTICATION, 0, 0, 0, 0, "an ID code leads to authentication");
    check(memcmp(d.state + INDRAVECK_STATE_AT_ID, id, 16) == 0, "the ID code is latched");
}

/* Only image, state and held bytes go over to the next feed; all else is overwritten behind every byte. */
static void what_is_kept(void)
{
    struct device d, other;
    uint8_t line[sizeof wake + sizeof write_request + 2 * sizeof write_data];
    size_t at, held;

    memcpy(line, wake, sizeof wake);
    memcpy(line + sizeof wake, write_request, sizeof write_request);
    memcpy(line + sizeof wake + sizeof write_request, write_data, sizeof write_data);
    memcpy(line + sizeof line - sizeof write_data, write_data, sizeof write_data);
    blank_device(&d);
    for (at = 0; at < sizeof line; at++) {
        memset(&other, (int)(0x81 + at), sizeof other);
        held = four(d.state + INDRAVECK_STATE_AT_HELD);
        memcpy(other.profile, d.profile, sizeof d.profile);
        memcpy(other.image, d.image, sizeof d.image);
        memcpy(other.state, d.state, sizeof d.state);
        memcpy(other.receive, d.receive, held);
        check(answer(&other, line + at, 1) == INDRAVECK_ACCEPTED, "a device that was moved is fed");
        memcpy(&d, &other, sizeof d);
    }
    check(sent_len == 2 + 3 * sizeof write_ok && memcmp(sent + 2 + 2 * sizeof write_ok, write_ok, sizeof write_ok) == 0,
          "a device that was moved behind every byte answers all the same");
    check(memcmp(d.image + 0x10, write_data + 4, 8) == 0 && memcmp(d.image + 0x18, write_data + 4, 8) == 0, "and stores all the same");
}

/* A slice of length 0 may have any pointer: null, and one that lends nothing. */
static void empty_slices(const uint8_t *profile, uint8_t *image, uint8_t *nowhere)
{
    uint8_t state[INDRAVECK_STATE_BYTES];
    uint8_t buffer[INDRAVECK_RECORD_HEAD_BYTES];
    uint64_t start = 99, length = 99, read = 99;
    uint32_t ended = 99;

    check(indraveck_start(nowhere, 0, image, FLASH_BYTES, state, 33) == INDRAVECK_UNACCEPTABLE_PROFILE, "start without a profile");
    check(indraveck_start(profile, 156, nowhere, 0, state, 33) == INDRAVECK_WRONG_IMAGE_LENGTH, "start without an image");
    check(indraveck_start(profile, 156, image, FLASH_BYTES, nowhere, 0) == INDRAVECK_UNFIT_STATE, "start without a state");
    check(indraveck_start(nowhere, 0, nowhere, 0, nowhere, 0) == INDRAVECK_UNACCEPTABLE_PROFILE, "start without anything");
    check(indraveck_reset(nowhere, 0, nowhere, 0, nowhere, 0) == INDRAVECK_UNACCEPTABLE_PROFILE, "reset without anything");
    check(indraveck_payload(nowhere, 0, 0, &start, &length) == 0 && start == 0 && length == 0, "payload of nothing");
    check(indraveck_payload(nowhere, 0, 6, &start, &length) == 0, "payload of more than there is");
    check(indraveck_payload(nowhere, 0, (size_t)-1, &start, &length) == 0, "payload of any count");
    check(indraveck_replay(profile, 156, image, FLASH_BYTES, nowhere, 0, &read, &ended) == INDRAVECK_ACCEPTED && read == 0
              && ended == INDRAVECK_RECORD_END,
          "replay of nothing");
    check(indraveck_replay(nowhere, 0, nowhere, 0, nowhere, 0, &read, &ended) == INDRAVECK_UNACCEPTABLE_PROFILE
              && ended == INDRAVECK_RECORD_NOT_READ,
          "replay without anything");
    start = length = 99;
    check(indraveck_read_record(nowhere, 0, 0, &start, &length) == INDRAVECK_RECORD_END && start == 0 && length == 0, "the end of nothing");
    check(indraveck_read_record(nowhere, 0, 1, &start, &length) == INDRAVECK_RECORD_CUT_SHORT && start == 1 && length == 1,
          "a place behind nothing");
    check(indraveck_write_record(nowhere, 0, 0, INDRAVECK_RECORD_RESET, nowhere, 0, &length) == INDRAVECK_RECORD_NO_ROOM && length == 0,
          "a record without a buffer");
    check(indraveck_write_record(buffer, sizeof buffer, 0, INDRAVECK_RECORD_RESET, nowhere, 0, &length) == INDRAVECK_RECORD_WRITTEN
              && length == 5,
          "a reset without bytes");
    check(indraveck_write_record(nowhere, 0, 0, INDRAVECK_RECORD_HOST, nowhere, 0, &length) == INDRAVECK_RECORD_BAD_LENGTH && length == 0,
          "a record without anything");
}

static void empty_feeds(struct device *d, uint8_t *nowhere)
{
    uint8_t reply[INDRAVECK_BUFFER_BYTES];
    uint64_t consumed = 99, count = 99;

    check(indraveck_feed(d->profile, 156, d->image, FLASH_BYTES, d->state, 33, d->receive, 1030, reply, 1030, nowhere, 0, &consumed, &count)
                  == INDRAVECK_ACCEPTED && consumed == 0 && count == 0,
          "feed without input");
    check(indraveck_feed(d->profile, 156, d->image, FLASH_BYTES, d->state, 33, nowhere, 0, reply, 1030, wake, 3, &consumed, &count)
              == INDRAVECK_SHORT_RECEIVE_BUFFER, "feed without a receive buffer");
    check(indraveck_feed(d->profile, 156, d->image, FLASH_BYTES, d->state, 33, d->receive, 1030, nowhere, 0, wake, 3, &consumed, &count)
              == INDRAVECK_SHORT_REPLY_BUFFER, "feed without a reply buffer");
    check(indraveck_feed(d->profile, 156, d->image, FLASH_BYTES, nowhere, 0, d->receive, 1030, reply, 1030, wake, 3, &consumed, &count)
              == INDRAVECK_UNFIT_STATE, "feed without a state");
    check(indraveck_feed(nowhere, 0, nowhere, 0, nowhere, 0, nowhere, 0, nowhere, 0, nowhere, 0, &consumed, &count)
              == INDRAVECK_UNACCEPTABLE_PROFILE, "feed without anything");
}

static void any_pointer(uint8_t *nowhere)
{
    struct device d;

    blank_device(&d);
    empty_slices(d.profile, d.image, nowhere);
    empty_feeds(&d, nowhere);
}

/* A recording of an erase of 10h to 1Fh that was answered OK changes the image; a refusal leaves it. */
static const uint8_t erase_ok[] = {
    0x52, 0x4C, 0x48, 0x00, 0x0E, 0x01, 0x00, 0x09, 0x12, 0x00, 0x00, 0x00, 0x10, 0x00, 0x00, 0x00, 0x1F, 0xB6, 0x03,
    0x52, 0x4C, 0x44, 0x00, 0x07, 0x81, 0x00, 0x02, 0x12, 0x00, 0xEC, 0x03};

static void replays(const uint8_t *profile)
{
    const uint8_t *recording = erase_ok;
    uint8_t image[FLASH_BYTES], before[FLASH_BYTES], expected[FLASH_BYTES];
    uint64_t read = 99;
    uint32_t ended = 99;

    memset(image, 0x5A, sizeof image);
    memcpy(before, image, sizeof image);
    memcpy(expected, image, sizeof image);
    memset(expected + 0x10, 0xFF, 0x10);
    check(indraveck_replay(profile, 155, image, FLASH_BYTES, recording, 31, &read, &ended) == 4 && read == 0
              && ended == INDRAVECK_RECORD_NOT_READ,
          "a replay with a short profile is refusal 4");
    read = ended = 99;
    check(indraveck_replay(profile, 156, image, FLASH_BYTES - 1, recording, 31, &read, &ended) == 1 && read == 0
              && ended == INDRAVECK_RECORD_NOT_READ,
          "a replay on a short image is refusal 1");
    check(memcmp(image, before, FLASH_BYTES) == 0, "a refused replay leaves the image");
    check(indraveck_replay(profile, 156, image, FLASH_BYTES, recording, 30, &read, &ended) == 0 && read == 19
              && ended == INDRAVECK_RECORD_CUT_SHORT,
          "a record that is cut is not read");
    check(memcmp(image, before, FLASH_BYTES) == 0, "an erase without its answer changes nothing");
    check(indraveck_replay(profile, 156, image, FLASH_BYTES, recording, 31, &read, &ended) == 0 && read == 31
              && ended == INDRAVECK_RECORD_END,
          "a whole recording is read");
    check(memcmp(image, expected, FLASH_BYTES) == 0, "an erase that was answered OK is replayed");
}

/* Why a replay ends: the session is replayed up to the record that cannot be read, and `ended` says why. */
static void replays_end(const uint8_t *profile)
{
    static const struct {
        uint8_t bytes[6];
        size_t len;
        uint32_t ended;
    } rows[] = {
        {{0}, 0, INDRAVECK_RECORD_END},
        {{0x52, 0x4D}, 2, INDRAVECK_RECORD_BAD_MARK},
        {{0x52, 0x4C, 0x49}, 3, INDRAVECK_RECORD_BAD_DIRECTION},
        {{0x52, 0x4C, 0x44, 0x00, 0x00}, 5, INDRAVECK_RECORD_BAD_LENGTH},
        {{0x52, 0x4C, 0x52, 0x00, 0x01, 0x00}, 6, INDRAVECK_RECORD_BAD_LENGTH},
        {{0x52, 0x4C, 0x48, 0x04, 0x07}, 5, INDRAVECK_RECORD_BAD_LENGTH},
        {{0x52, 0x4C, 0x48, 0x04, 0x06}, 5, INDRAVECK_RECORD_CUT_SHORT},
    };
    uint8_t image[FLASH_BYTES], recording[sizeof erase_ok + 6];
    uint64_t read;
    uint32_t ended;
    size_t row;

    memcpy(recording, erase_ok, sizeof erase_ok);
    for (row = 0; row < sizeof rows / sizeof rows[0]; row++) {
        memset(image, 0x5A, sizeof image);
        memcpy(recording + sizeof erase_ok, rows[row].bytes, rows[row].len);
        read = ended = 99;
        check(indraveck_replay(profile, 156, image, FLASH_BYTES, recording, sizeof erase_ok + rows[row].len, &read, &ended)
                      == INDRAVECK_ACCEPTED && read == sizeof erase_ok && ended == rows[row].ended,
              "a replay says why it ended");
        check(image[0x0F] == 0x5A && image[0x10] == 0xFF && image[0x1F] == 0xFF && image[0x20] == 0x5A,
              "what stands before the end is replayed");
    }
}

/* Every answer of read_record, and the places that come with it. */
static void records_read(void)
{
    static const struct {
        uint8_t bytes[8];
        size_t len, at;
        uint32_t answer;
        uint64_t from, to;
    } rows[] = {
        {{0x52, 0x4C, 0x48, 0x00, 0x02, 0x01, 0x00}, 7, 0, INDRAVECK_RECORD_HOST, 5, 7},
        {{0x00, 0x52, 0x4C, 0x44, 0x00, 0x01, 0xC3, 0x52}, 8, 1, INDRAVECK_RECORD_DEVICE, 6, 7},
        {{0x52, 0x4C, 0x52, 0x00, 0x00}, 5, 0, INDRAVECK_RECORD_RESET, 5, 5},
        {{0x52, 0x4C, 0x52, 0x00, 0x00}, 5, 5, INDRAVECK_RECORD_END, 5, 5},
        {{0x52, 0x4C, 0x52, 0x00, 0x00}, 5, 6, INDRAVECK_RECORD_CUT_SHORT, 6, 6},
        {{0x52, 0x4C, 0x52, 0x00, 0x00}, 5, (size_t)-1, INDRAVECK_RECORD_CUT_SHORT, (size_t)-1, (size_t)-1},
        /* the mark */
        {{0x52}, 1, 0, INDRAVECK_RECORD_CUT_SHORT, 0, 0},
        {{0x00}, 1, 0, INDRAVECK_RECORD_CUT_SHORT, 0, 0},
        {{0x52, 0x00}, 2, 0, INDRAVECK_RECORD_BAD_MARK, 0, 0},
        {{0x4C, 0x52}, 2, 0, INDRAVECK_RECORD_BAD_MARK, 0, 0},
        {{0x00, 0x4C, 0x49, 0xFF, 0xFF}, 5, 0, INDRAVECK_RECORD_BAD_MARK, 0, 0},
        {{0x52, 0x4C, 0x52, 0x00, 0x00}, 5, 1, INDRAVECK_RECORD_BAD_MARK, 1, 1},
        /* the direction */
        {{0x52, 0x4C}, 2, 0, INDRAVECK_RECORD_CUT_SHORT, 0, 0},
        {{0x52, 0x4C, 0x49}, 3, 0, INDRAVECK_RECORD_BAD_DIRECTION, 0, 0},
        {{0x52, 0x4C, 0x00, 0xFF, 0xFF}, 5, 0, INDRAVECK_RECORD_BAD_DIRECTION, 0, 0},
        /* the length */
        {{0x52, 0x4C, 0x48}, 3, 0, INDRAVECK_RECORD_CUT_SHORT, 0, 0},
        {{0x52, 0x4C, 0x48, 0xFF}, 4, 0, INDRAVECK_RECORD_CUT_SHORT, 0, 0},
        {{0x52, 0x4C, 0x48, 0xFF, 0xFF}, 5, 0, INDRAVECK_RECORD_BAD_LENGTH, 0, 0},
        {{0x52, 0x4C, 0x48, 0x04, 0x07}, 5, 0, INDRAVECK_RECORD_BAD_LENGTH, 0, 0},
        {{0x52, 0x4C, 0x48, 0x00, 0x00}, 5, 0, INDRAVECK_RECORD_BAD_LENGTH, 0, 0},
        {{0x52, 0x4C, 0x44, 0x00, 0x00}, 5, 0, INDRAVECK_RECORD_BAD_LENGTH, 0, 0},
        {{0x52, 0x4C, 0x52, 0x00, 0x01, 0x00}, 6, 0, INDRAVECK_RECORD_BAD_LENGTH, 0, 0},
        /* the bytes */
        {{0x52, 0x4C, 0x48, 0x04, 0x06}, 5, 0, INDRAVECK_RECORD_CUT_SHORT, 0, 0},
        {{0x52, 0x4C, 0x44, 0x00, 0x02, 0x81}, 6, 0, INDRAVECK_RECORD_CUT_SHORT, 0, 0},
    };
    uint64_t from, to;
    size_t row;
    char what[40];

    for (row = 0; row < sizeof rows / sizeof rows[0]; row++) {
        sprintf(what, "row %d of what is read", (int)row);
        from = to = 99;
        check(indraveck_read_record(rows[row].bytes, rows[row].len, rows[row].at, &from, &to) == rows[row].answer
                  && from == rows[row].from && to == rows[row].to,
              what);
    }
}

/* Every answer of write_record, with the place that comes with it and every byte of the buffer, and around it. */
static void records_written(void)
{
    static const struct {
        size_t room, at;
        uint32_t direction;
        size_t count;
        uint32_t answer;
        uint64_t to;
    } rows[] = {
        {1100, 0, INDRAVECK_RECORD_HOST, 1, INDRAVECK_RECORD_WRITTEN, 6},
        {1100, 3, INDRAVECK_RECORD_DEVICE, 7, INDRAVECK_RECORD_WRITTEN, 15},
        {1100, 9, INDRAVECK_RECORD_RESET, 0, INDRAVECK_RECORD_WRITTEN, 14},
        /* the longest, and those that fill the buffer up */
        {1035, 0, INDRAVECK_RECORD_HOST, 1030, INDRAVECK_RECORD_WRITTEN, 1035},
        {1042, 7, INDRAVECK_RECORD_DEVICE, 1030, INDRAVECK_RECORD_WRITTEN, 1042},
        {5, 0, INDRAVECK_RECORD_RESET, 0, INDRAVECK_RECORD_WRITTEN, 5},
        {1034, 0, INDRAVECK_RECORD_HOST, 1030, INDRAVECK_RECORD_NO_ROOM, 0},
        {1041, 7, INDRAVECK_RECORD_DEVICE, 1030, INDRAVECK_RECORD_NO_ROOM, 7},
        {4, 0, INDRAVECK_RECORD_RESET, 0, INDRAVECK_RECORD_NO_ROOM, 0},
        /* only its head would fit, nothing would, and places that no buffer has */
        {20, 15, INDRAVECK_RECORD_HOST, 1, INDRAVECK_RECORD_NO_ROOM, 15},
        {20, 20, INDRAVECK_RECORD_HOST, 1, INDRAVECK_RECORD_NO_ROOM, 20},
        {20, 21, INDRAVECK_RECORD_RESET, 0, INDRAVECK_RECORD_NO_ROOM, 21},
        {20, (size_t)-1, INDRAVECK_RECORD_HOST, 1, INDRAVECK_RECORD_NO_ROOM, (size_t)-1},
        {20, (size_t)-6, INDRAVECK_RECORD_HOST, 1, INDRAVECK_RECORD_NO_ROOM, (size_t)-6},
        {20, (size_t)-5, INDRAVECK_RECORD_RESET, 0, INDRAVECK_RECORD_NO_ROOM, (size_t)-5},
        /* bad directions: also those that are answers, and those with a good low byte */
        {1100, 2, 0, 1, INDRAVECK_RECORD_BAD_DIRECTION, 2},
        {1100, 2, 2, 1, INDRAVECK_RECORD_BAD_DIRECTION, 2},
        {1100, 2, 5, 1, INDRAVECK_RECORD_BAD_DIRECTION, 2},
        {1100, 2, 7, 1, INDRAVECK_RECORD_BAD_DIRECTION, 2},
        {1100, 2, 0x49, 1, INDRAVECK_RECORD_BAD_DIRECTION, 2},
        {1100, 2, 0x148, 1, INDRAVECK_RECORD_BAD_DIRECTION, 2},
        {1100, 2, 0xFFFFFFFF, 1, INDRAVECK_RECORD_BAD_DIRECTION, 2},
        /* bad lengths */
        {1100, 2, INDRAVECK_RECORD_HOST, 0, INDRAVECK_RECORD_BAD_LENGTH, 2},
        {1100, 2, INDRAVECK_RECORD_DEVICE, 0, INDRAVECK_RECORD_BAD_LENGTH, 2},
        {1100, 2, INDRAVECK_RECORD_HOST, 1031, INDRAVECK_RECORD_BAD_LENGTH, 2},
        {1100, 2, INDRAVECK_RECORD_RESET, 1, INDRAVECK_RECORD_BAD_LENGTH, 2},
        /* the direction before the length, and that before the room */
        {0, (size_t)-1, 0x49, 0, INDRAVECK_RECORD_BAD_DIRECTION, (size_t)-1},
        {0, (size_t)-1, INDRAVECK_RECORD_RESET, 1031, INDRAVECK_RECORD_BAD_LENGTH, (size_t)-1},
    };
    uint8_t lent[GUARD + 1100 + GUARD], expected[sizeof lent], bytes[1031];
    uint64_t to;
    size_t row, at;
    char what[40];

    for (at = 0; at < sizeof bytes; at++)
        bytes[at] = (uint8_t)(7 * at + 1);
    for (row = 0; row < sizeof rows / sizeof rows[0]; row++) {
        sprintf(what, "row %d of what is written", (int)row);
        memset(lent, 0xA5, sizeof lent);
        memset(expected, 0xA5, sizeof expected);
        if (rows[row].answer == INDRAVECK_RECORD_WRITTEN) {
            uint8_t *head = expected + GUARD + rows[row].at;
            head[0] = 0x52;
            head[1] = 0x4C;
            head[2] = (uint8_t)rows[row].direction;
            head[3] = (uint8_t)(rows[row].count >> 8);
            head[4] = (uint8_t)rows[row].count;
            memcpy(head + INDRAVECK_RECORD_HEAD_BYTES, bytes, rows[row].count);
        }
        to = 99;
        check(indraveck_write_record(lent + GUARD, rows[row].room, rows[row].at, rows[row].direction, bytes, rows[row].count, &to)
                      == rows[row].answer && to == rows[row].to,
              what);
        check(memcmp(lent, expected, sizeof lent) == 0, what);
    }
}

/* The header's examples: a recording that grows until it is full, and is read from its beginning. */
static void a_recording(void)
{
    struct recording r;
    size_t at = 99, full;

    memset(&r, 0xA5, sizeof r);
    r.len = 0;
    said[0] = '\0';
    check(each_record(r.bytes, r.len, &at) == INDRAVECK_RECORD_END && at == 0 && said[0] == '\0', "no byte at all is a recording");
    check(append(&r, INDRAVECK_RECORD_HOST, wake, sizeof wake) == INDRAVECK_RECORD_WRITTEN && r.len == 8, "a host record is appended");
    check(append(&r, INDRAVECK_RECORD_DEVICE, awake, sizeof awake) == INDRAVECK_RECORD_WRITTEN && r.len == 15,
          "a device record is appended");
    check(append(&r, INDRAVECK_RECORD_RESET, NULL, 0) == INDRAVECK_RECORD_WRITTEN && r.len == 20, "a reset is appended");
    check(append(&r, INDRAVECK_RECORD_RESET, wake, sizeof wake) == INDRAVECK_RECORD_BAD_LENGTH && r.len == 20, "a reset with bytes is not");
    check(append(&r, 0, wake, sizeof wake) == INDRAVECK_RECORD_BAD_DIRECTION && r.len == 20, "a record without a direction is not");
    seen_len = 0;
    check(each_record(r.bytes, r.len, &at) == INDRAVECK_RECORD_END && at == 20, "what was appended is read");
    check(strcmp(said, "48 3, 44 2, 52 0, ") == 0, "each record with its direction and its length");
    check(seen_len == 5 && memcmp(seen, wake, 3) == 0 && memcmp(seen + 3, awake, 2) == 0, "and with its bytes");

    while (append(&r, INDRAVECK_RECORD_HOST, write_data, sizeof write_data) == INDRAVECK_RECORD_WRITTEN)
        ;
    full = r.len;
    check(full == 96 && r.bytes[96] == 0xA5 && r.bytes[99] == 0xA5, "what does not fit whole leaves nothing behind");
    check(append(&r, INDRAVECK_RECORD_RESET, NULL, 0) == INDRAVECK_RECORD_NO_ROOM && r.len == full, "a full recording stays as it is");
    said[0] = '\0';
    seen_len = 0;
    check(each_record(r.bytes, 19, &at) == INDRAVECK_RECORD_CUT_SHORT && at == 15, "a cut recording is read up to the cut");
    check(strcmp(said, "48 3, 44 2, ") == 0, "and no further");
    r.bytes[8] = 0x00;
    said[0] = '\0';
    check(each_record(r.bytes, r.len, &at) == INDRAVECK_RECORD_BAD_MARK && at == 8 && strcmp(said, "48 3, ") == 0, "a bad mark ends it");
}

/* All that a call is lent, with bytes between that nobody may touch. */
struct lent {
    uint8_t guard0[GUARD], profile[INDRAVECK_PROFILE_BYTES];
    uint8_t guard1[GUARD], image[FLASH_BYTES];
    uint8_t guard2[GUARD], state[INDRAVECK_STATE_BYTES];
    uint8_t guard3[GUARD], receive[INDRAVECK_BUFFER_BYTES];
    uint8_t guard4[GUARD], reply[INDRAVECK_BUFFER_BYTES];
    uint8_t guard5[GUARD];
};

static int untouched(const uint8_t *guard)
{
    size_t at;

    for (at = 0; at < GUARD; at++)
        if (guard[at] != 0xA5)
            return 0;
    return 1;
}

static uint32_t feed(struct lent *l, size_t receive_len, const uint8_t *input, size_t input_len, uint64_t *consumed, uint64_t *count)
{
    return indraveck_feed(l->profile, 156, l->image, FLASH_BYTES, l->state, 33, l->receive, receive_len, l->reply, 1030,
                          input, input_len, consumed, count);
}

static void starts(struct lent *l)
{
    static const uint8_t zeros[INDRAVECK_STATE_BYTES] = {0};

    memset(l, 0xA5, sizeof *l);
    small_profile(l->profile);
    memset(l->image, 0xFF, FLASH_BYTES);
    check(indraveck_start(l->profile, 155, l->image, FLASH_BYTES, l->state, 33) == 4, "a short profile is refusal 4");
    check(memcmp(l->state, zeros, 33) == 0, "a refused start leaves the zero state");
    check(indraveck_start(l->profile, 156, l->image, FLASH_BYTES - 1, l->state, 33) == 1, "a short image is refusal 1");
    check(indraveck_start(l->profile, 156, l->image, FLASH_BYTES, l->state, 32) == 5, "a short state is refusal 5");
    check(indraveck_start(l->profile, 156, l->image, FLASH_BYTES, l->state, 33) == 0, "start is accepted");
}

static void session(struct lent *l)
{
    static const uint8_t line[] = {0x00, 0x00, 0x55, 0x01, 0x00, 0x01, 0x00, 0xFF, 0x03};
    static const uint8_t status[] = {0x81, 0x00, 0x02, 0x00, 0x00, 0xFE, 0x03};
    uint64_t consumed = 99, count = 99;

    check(feed(l, 1029, line, 9, &consumed, &count) == 2, "a short receive buffer is refusal 2");
    check(consumed == 0 && count == 0, "a refused feed consumes and answers nothing");
    check(feed(l, 1030, line, 9, &consumed, &count) == 0 && consumed == 2 && count == 1 && l->reply[0] == 0x00,
          "two low pulses are answered");
    check(feed(l, 1030, line + 2, 7, &consumed, &count) == 0 && consumed == 1 && count == 1 && l->reply[0] == 0xC3,
          "55h is answered by C3h");
    check(feed(l, 1030, line + 3, 6, &consumed, &count) == 0 && consumed == 6 && count == 7 && memcmp(l->reply, status, 7) == 0,
          "an inquiry is answered OK");
    check(indraveck_payload(l->receive, 1030, 6, &consumed, &count) == 1 && consumed == 3 && count == 1, "its payload is COM");
    check(indraveck_payload(l->receive, 1030, 5, &consumed, &count) == 0 && consumed == 0 && count == 0, "five bytes are no packet");
    check(indraveck_reset(l->profile, 156, l->image, FLASH_BYTES, l->state, 33) == 0 && l->state[0] == 0, "reset leads to setting");
    check(untouched(l->guard0) && untouched(l->guard1) && untouched(l->guard2) && untouched(l->guard3) && untouched(l->guard4)
              && untouched(l->guard5),
          "nothing outside the lent slices is touched");
}

int main(void)
{
    struct lent lent;

    names();
    profile_fields();
    stages();
    an_id_code();
    what_is_kept();
    any_pointer(NULL);
    any_pointer((uint8_t *)(uintptr_t)1);
    starts(&lent);
    session(&lent);
    replays(lent.profile);
    replays_end(lent.profile);
    records_read();
    records_written();
    a_recording();
    if (failures == 0)
        printf("the library answers C as its header says\n");
    return failures != 0;
}
