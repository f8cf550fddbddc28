/* The host's end from C: the line examples from the host's side, replies cut behind every byte, refusals, and the header's example with a
 * stand-in at the other end of the line. */
#include "indraveck.h"

#include "check.h"

#include <string.h>

/* the bench profile: 64 KB of user area, 256 bytes of config */
#define FLASH_BYTES 65792
#define GUARD 16

/* What the device sends waits here until the host receives it, `piece` bytes at a time. */
static uint8_t line[4 * INDRAVECK_BUFFER_BYTES];
static size_t line_len, line_at, piece;

static void send_to_host(const uint8_t *bytes, size_t length)
{
    memcpy(line + line_len, bytes, length);
    line_len += length;
}

#include "example.c"

static struct device device;
static int unplugged;

static void send_to_device(const uint8_t *packet, size_t length)
{
    line_len = line_at = 0;
    if (!unplugged)
        check(answer(&device, packet, length) == INDRAVECK_ACCEPTED, "a stand-in takes a packet");
}

static size_t receive(uint8_t *back, size_t size)
{
    size_t count = line_len - line_at;

    if (count > piece)
        count = piece;
    if (count > size)
        count = size;
    memcpy(back, line + line_at, count);
    line_at += count;
    return count;
}

/* what the example hands on */
static uint8_t got[4 * INDRAVECK_BUFFER_BYTES];
static size_t got_len;

static void on_data(const uint8_t *bytes, size_t length)
{
    memcpy(got + got_len, bytes, length);
    got_len += length;
}

#include "ask.c"

static const uint8_t total_erase[16] = {0x41, 0x4C, 0x65, 0x52, 0x41, 0x53, 0x45, 255, 255, 255, 255, 255, 255, 255, 255, 255};
static const uint8_t code[16] = {0xF0, 0xF1, 0xF2, 0xF3, 0xE4, 0xE5, 0xE6, 0xE7, 0xD8, 0xD9, 0xDA, 0xDB, 0xCC, 0xCD, 0xCE, 0xCF};
static const uint8_t eight[8] = {1, 2, 3, 4, 5, 6, 7, 8};

/* The packets of all requests. */
static const struct {
    uint32_t request, first, second;
    const uint8_t *bytes;
    size_t bytes_len;
    uint8_t packet[22];
    size_t length;
} packets[] = {
    {INDRAVECK_REQUEST_SIGNATURE, 0, 0, NULL, 0, {0x01, 0x00, 0x01, 0x3A, 0xC5, 0x03}, 6},
    {INDRAVECK_REQUEST_INQUIRY, 0, 0, NULL, 0, {0x01, 0x00, 0x01, 0x00, 0xFF, 0x03}, 6},
    {INDRAVECK_REQUEST_ERASE, 0x4000, 0x7FFF, NULL, 0,
     {0x01, 0x00, 0x09, 0x12, 0x00, 0x00, 0x40, 0x00, 0x00, 0x00, 0x7F, 0xFF, 0x27, 0x03}, 14},
    {INDRAVECK_REQUEST_ERASE, 0x4000, 0x3FFFFF, NULL, 0,
     {0x01, 0x00, 0x09, 0x12, 0x00, 0x00, 0x40, 0x00, 0x00, 0x3F, 0xFF, 0xFF, 0x68, 0x03}, 14},
    {INDRAVECK_REQUEST_WRITE, 0x4000, 0x3FFFFF, NULL, 0,
     {0x01, 0x00, 0x09, 0x13, 0x00, 0x00, 0x40, 0x00, 0x00, 0x3F, 0xFF, 0xFF, 0x67, 0x03}, 14},
    {INDRAVECK_REQUEST_READ, 0x4000, 0x3FFFFF, NULL, 0,
     {0x01, 0x00, 0x09, 0x15, 0x00, 0x00, 0x40, 0x00, 0x00, 0x3F, 0xFF, 0xFF, 0x65, 0x03}, 14},
    {INDRAVECK_REQUEST_READ, 0, 0x3FF, NULL, 0, {0x01, 0x00, 0x09, 0x15, 0, 0, 0, 0, 0, 0, 0x03, 0xFF, 0xE0, 0x03}, 14},
    {INDRAVECK_REQUEST_READ, 0, 0x400, NULL, 0, {0x01, 0x00, 0x09, 0x15, 0, 0, 0, 0, 0, 0, 0x04, 0x00, 0xDE, 0x03}, 14},
    /* a reversed range is the device's to refuse */
    {INDRAVECK_REQUEST_READ, 0x400, 0, NULL, 0, {0x01, 0x00, 0x09, 0x15, 0, 0, 0x04, 0x00, 0, 0, 0, 0, 0xDE, 0x03}, 14},
    {INDRAVECK_REQUEST_AREA, 0, 0, NULL, 0, {0x01, 0x00, 0x02, 0x3B, 0x00, 0xC3, 0x03}, 7},
    {INDRAVECK_REQUEST_AREA, 1, 0, NULL, 0, {0x01, 0x00, 0x02, 0x3B, 0x01, 0xC2, 0x03}, 7},
    {INDRAVECK_REQUEST_AREA, 2, 0, NULL, 0, {0x01, 0x00, 0x02, 0x3B, 0x02, 0xC1, 0x03}, 7},
    {INDRAVECK_REQUEST_AREA, 255, 0, NULL, 0, {0x01, 0x00, 0x02, 0x3B, 0xFF, 0xC4, 0x03}, 7},
    {INDRAVECK_REQUEST_BAUD, 2000000, 0, NULL, 0, {0x01, 0x00, 0x05, 0x34, 0x00, 0x1E, 0x84, 0x80, 0xA5, 0x03}, 10},
    {INDRAVECK_REQUEST_BAUD, 0, 0, NULL, 0, {0x01, 0x00, 0x05, 0x34, 0x00, 0x00, 0x00, 0x00, 0xC7, 0x03}, 10},
    {INDRAVECK_REQUEST_AUTHENTICATE, 0, 0, code, 16,
     {0x01, 0x00, 0x11, 0x30, 0xF0, 0xF1, 0xF2, 0xF3, 0xE4, 0xE5, 0xE6,
      0xE7, 0xD8, 0xD9, 0xDA, 0xDB, 0xCC, 0xCD, 0xCE, 0xCF, 0xC7, 0x03}, 22},
    {INDRAVECK_REQUEST_AUTHENTICATE, 0, 0, total_erase, 16,
     {0x01, 0x00, 0x11, 0x30, 0x41, 0x4C, 0x65, 0x52, 0x41, 0x53, 0x45,
      0xFF, 0xFF, 0xFF, 0xFF, 0xFF, 0xFF, 0xFF, 0xFF, 0xFF, 0xAB, 0x03}, 22},
    {INDRAVECK_REQUEST_WRITE_DATA, 0, 0, eight, 8, {0x81, 0x00, 0x09, 0x13, 1, 2, 3, 4, 5, 6, 7, 8, 0xC0, 0x03}, 14},
    {INDRAVECK_REQUEST_WRITE_DATA, 0, 0, eight, 1, {0x81, 0x00, 0x02, 0x13, 0x01, 0xEA, 0x03}, 7},
    {INDRAVECK_REQUEST_NEXT, 1, 0, NULL, 0, {0x81, 0x00, 0x02, 0x15, 0x00, 0xE9, 0x03}, 7},
    {INDRAVECK_REQUEST_NEXT, 0xFFFFFFFF, 0, NULL, 0, {0x81, 0x00, 0x02, 0x15, 0x00, 0xE9, 0x03}, 7},
};

/* What replies say to requests, and with which of their bytes that is decided. */
static const struct {
    uint32_t request, first, second;
    uint8_t reply[24];
    size_t length;
    uint32_t verdict;
    size_t decided;
} replies[] = {
    /* the line examples */
    {INDRAVECK_REQUEST_SIGNATURE, 0, 0, {0x81, 0, 0x0D, 0x3A, 0x03, 0x93, 0x87, 0, 0, 0x3D, 0x09, 0, 2, 1, 1, 0, 0x52, 0x03}, 18, 1, 18},
    {INDRAVECK_REQUEST_INQUIRY, 0, 0, {0x81, 0x00, 0x02, 0x00, 0x00, 0xFE, 0x03}, 7, 1, 7},
    {INDRAVECK_REQUEST_INQUIRY, 0, 0, {0x81, 0x00, 0x02, 0x80, 0xC3, 0xBB, 0x03}, 7, 256 + 0xC3, 7},
    {INDRAVECK_REQUEST_INQUIRY, 0, 0, {0x81, 0x00, 0x02, 0x80, 0xC2, 0xBC, 0x03}, 7, 256 + 0xC2, 7},
    {INDRAVECK_REQUEST_INQUIRY, 0, 0, {0x81, 0x00, 0x02, 0x80, 0xC1, 0xBD, 0x03}, 7, 256 + 0xC1, 7},
    {INDRAVECK_REQUEST_ERASE, 0, 0, {0x81, 0x00, 0x02, 0x80, 0xC1, 0xBD, 0x03}, 7, 2, 7},
    {INDRAVECK_REQUEST_INQUIRY, 0, 0, {0x81, 0x00, 0x02, 0xD5, 0xC0, 0x69, 0x03}, 7, 2, 7},
    {INDRAVECK_REQUEST_ERASE, 0x4000, 0x7FFF, {0x81, 0x00, 0x02, 0x12, 0x00, 0xEC, 0x03}, 7, 1, 7},
    {INDRAVECK_REQUEST_AREA, 2, 0, {0x81, 0x00, 0x02, 0xBB, 0xD0, 0x73, 0x03}, 7, 256 + 0xD0, 7},
    {INDRAVECK_REQUEST_AREA, 1, 0,
     {0x81, 0, 0x12, 0x3B, 2, 1, 0, 0, 0, 1, 0, 0, 0xFF, 0, 0, 0, 0, 0, 0, 0, 0x10, 0xA0, 0x03}, 23, 1, 23},
    /* the OK of each status reply; bytes of a wake-up before it are skipped, also 01h */
    {INDRAVECK_REQUEST_WRITE, 0, 0x7F, {0x00, 0xC3, 0x81, 0x00, 0x02, 0x13, 0x00, 0xEB, 0x03}, 9, 1, 9},
    {INDRAVECK_REQUEST_WRITE_DATA, 0, 0, {0x01, 0x81, 0x00, 0x02, 0x13, 0x00, 0xEB, 0x03}, 8, 1, 8},
    {INDRAVECK_REQUEST_AUTHENTICATE, 0, 0, {0x81, 0x00, 0x02, 0x30, 0x00, 0xCE, 0x03}, 7, 1, 7},
    {INDRAVECK_REQUEST_BAUD, 9600, 0, {0x81, 0x00, 0x02, 0x34, 0x00, 0xCA, 0x03}, 7, 1, 7},
    /* a read of one byte looks like a status, whatever it is */
    {INDRAVECK_REQUEST_READ, 5, 5, {0x81, 0x00, 0x02, 0x15, 0xFF, 0xEA, 0x03}, 7, 1, 7},
    {INDRAVECK_REQUEST_READ, 5, 5, {0x81, 0x00, 0x02, 0x15, 0xD0, 0x19, 0x03}, 7, 1, 7},
    {INDRAVECK_REQUEST_NEXT, 1, 0, {0x81, 0x00, 0x02, 0x15, 0x00, 0xE9, 0x03}, 7, 1, 7},
    {INDRAVECK_REQUEST_NEXT, 3, 0, {0x81, 0x00, 0x04, 0x15, 0xAA, 0xBB, 0xCC, 0xB6, 0x03}, 9, 1, 9},
    {INDRAVECK_REQUEST_READ, 0, 2, {0x81, 0x00, 0x02, 0x95, 0xD0, 0x99, 0x03}, 7, 256 + 0xD0, 7},
    /* data of another length, and none where none is due */
    {INDRAVECK_REQUEST_NEXT, 4, 0, {0x81, 0x00, 0x04, 0x15, 0xAA, 0xBB, 0xCC, 0xB6, 0x03}, 9, 2, 9},
    {INDRAVECK_REQUEST_READ, 0, 1, {0x81, 0x00, 0x04, 0x15, 0xAA, 0xBB, 0xCC, 0xB6, 0x03}, 9, 2, 9},
    {INDRAVECK_REQUEST_READ, 1, 0, {0x81, 0x00, 0x01, 0x15, 0xEA, 0x03}, 6, 2, 6},
    {INDRAVECK_REQUEST_NEXT, 0, 0, {0x81, 0x00, 0x01, 0x15, 0xEA, 0x03}, 6, 2, 6},
    {INDRAVECK_REQUEST_READ, 1, 0, {0x81, 0x00, 0x02, 0x95, 0xD0, 0x99, 0x03}, 7, 256 + 0xD0, 7},
    /* a status that is neither an OK nor an error, any code, and one that is too long */
    {INDRAVECK_REQUEST_ERASE, 0, 0, {0x81, 0x00, 0x02, 0x12, 0xD0, 0x1C, 0x03}, 7, 2, 7},
    {INDRAVECK_REQUEST_ERASE, 0, 0, {0x81, 0x00, 0x02, 0x92, 0x00, 0x6C, 0x03}, 7, 2, 7},
    {INDRAVECK_REQUEST_ERASE, 0, 0, {0x81, 0x00, 0x02, 0x92, 0x01, 0x6B, 0x03}, 7, 257, 7},
    {INDRAVECK_REQUEST_ERASE, 0, 0, {0x81, 0x00, 0x02, 0x92, 0xFF, 0x6D, 0x03}, 7, 511, 7},
    {INDRAVECK_REQUEST_ERASE, 0, 0, {0x81, 0x00, 0x03, 0x92, 0xD0, 0x00, 0x9B, 0x03}, 8, 2, 8},
    /* the reply to another request: of an erase to a write, of a write to a read */
    {INDRAVECK_REQUEST_WRITE, 0, 0, {0x81, 0x00, 0x02, 0x12, 0x00, 0xEC, 0x03}, 7, 2, 7},
    {INDRAVECK_REQUEST_NEXT, 1, 0, {0x81, 0x00, 0x02, 0x93, 0xC1, 0xAA, 0x03}, 7, 2, 7},
    /* SUM, ETX, and a length that no packet has, with what would be a good reply behind it */
    {INDRAVECK_REQUEST_INQUIRY, 0, 0, {0x81, 0x00, 0x02, 0x00, 0x00, 0xFF, 0x03}, 7, 2, 7},
    {INDRAVECK_REQUEST_INQUIRY, 0, 0, {0x81, 0x00, 0x02, 0x00, 0x00, 0xFE, 0x04}, 7, 2, 7},
    {INDRAVECK_REQUEST_INQUIRY, 0, 0, {0x81, 0x00, 0x00, 0x81, 0x00, 0x02, 0x00, 0x00, 0xFE, 0x03}, 10, 2, 3},
    {INDRAVECK_REQUEST_INQUIRY, 0, 0, {0x81, 0x04, 0x02, 0x81, 0x00, 0x02, 0x00, 0x00, 0xFE, 0x03}, 10, 2, 3},
    {INDRAVECK_REQUEST_INQUIRY, 0, 0, {0x81, 0xFF, 0xFF}, 3, 2, 3},
    /* the first packet decides, and nothing behind it counts */
    {INDRAVECK_REQUEST_INQUIRY, 0, 0, {0x81, 0x00, 0x02, 0x12, 0x00, 0xEC, 0x03, 0x81, 0x00, 0x02, 0x00, 0x00, 0xFE, 0x03}, 14, 2, 7},
    {INDRAVECK_REQUEST_ERASE, 0, 0, {0x81, 0x00, 0x02, 0x12, 0x00, 0xEC, 0x03, 0x81, 0x00, 0x02, 0x92, 0xD0, 0x9C, 0x03}, 14, 1, 7},
    /* no reply at all, and parts of one */
    {INDRAVECK_REQUEST_INQUIRY, 0, 0, {0}, 0, 0, 0},
    {INDRAVECK_REQUEST_INQUIRY, 0, 0, {0x00, 0x00, 0xC3, 0x01, 0x00, 0x01, 0x00, 0xFF, 0x03}, 9, 0, 9},
    {INDRAVECK_REQUEST_INQUIRY, 0, 0, {0x81, 0x00, 0x02, 0x00, 0x00, 0xFE}, 6, 0, 6},
    {INDRAVECK_REQUEST_INQUIRY, 0, 0, {0x81, 0x04, 0x01, 0x00, 0x00, 0xFE, 0x03}, 7, 0, 7},
};

/* The names are constants for the preprocessor too, and no two answers or verdicts share a number. */
static void names(void)
{
    uint32_t number;
    int requests = 0, answers = 0, verdicts = 0;

#if INDRAVECK_VERDICT_UNANSWERED != 0 || INDRAVECK_VERDICT_PASSED != 1 || INDRAVECK_HOST_DONE != 1 || INDRAVECK_REQUEST_NEXT != 10
#error "the preprocessor does not see the header's numbers"
#endif
    for (number = 0; number < 512; number++) {
        switch (number) {
        case INDRAVECK_REQUEST_INQUIRY:
        case INDRAVECK_REQUEST_ERASE:
        case INDRAVECK_REQUEST_WRITE:
        case INDRAVECK_REQUEST_READ:
        case INDRAVECK_REQUEST_AUTHENTICATE:
        case INDRAVECK_REQUEST_BAUD:
        case INDRAVECK_REQUEST_SIGNATURE:
        case INDRAVECK_REQUEST_AREA:
        case INDRAVECK_REQUEST_WRITE_DATA:
        case INDRAVECK_REQUEST_NEXT:
            requests++;
        }
        switch (number) {
        case INDRAVECK_HOST_DONE:
        case INDRAVECK_HOST_WRONG_AMOUNT:
        case INDRAVECK_HOST_NOTHING_LEFT:
        case INDRAVECK_HOST_NO_ROOM:
        case INDRAVECK_HOST_NO_REQUEST:
        case INDRAVECK_HOST_WRONG_LENGTH:
            answers++;
        }
        switch (number) {
        case INDRAVECK_VERDICT_UNANSWERED:
        case INDRAVECK_VERDICT_PASSED:
        case INDRAVECK_VERDICT_WRONG_REPLY:
        case INDRAVECK_VERDICT_NO_JUDGE:
        case INDRAVECK_VERDICT_REFUSED:
            verdicts++;
        }
    }
    check(requests == 10 && answers == 6 && verdicts == 5, "no two requests, answers or verdicts share a number");
    check(INDRAVECK_JUDGE_AT_DATA + INDRAVECK_AREA_BYTES == INDRAVECK_JUDGE_BYTES, "an area's data ends the judge");
    check(INDRAVECK_SIGNATURE_AT_BFV + 2 <= INDRAVECK_AREA_BYTES, "a signature's data has room there too");
}

/* Every packet into buffers of all lengths, from none on: the packet and nothing behind it, or nothing. */
static void packets_built(void)
{
    uint8_t lent[GUARD + 40 + GUARD], expected[sizeof lent];
    uint64_t length;
    size_t row, room, built = 0;
    char what[60];

    for (row = 0; row < sizeof packets / sizeof packets[0]; row++)
        for (room = 0; room <= 40; room++) {
            int fits = room >= packets[row].length;
            sprintf(what, "packet %d into %d bytes", (int)row, (int)room);
            memset(lent, 0xA5, sizeof lent);
            memset(expected, 0xA5, sizeof expected);
            if (fits)
                memcpy(expected + GUARD, packets[row].packet, packets[row].length);
            length = 99;
            check(indraveck_build(lent + GUARD, room, packets[row].request, packets[row].first, packets[row].second, packets[row].bytes,
                                  packets[row].bytes_len, &length) == (fits ? INDRAVECK_HOST_DONE : INDRAVECK_HOST_NO_ROOM)
                      && length == (fits ? packets[row].length : 0),
                  what);
            check(memcmp(lent, expected, sizeof lent) == 0, what);
            built += fits;
        }
    check(built > 500, "packets were built");
}

/* The longest packet, and all amounts of data on both sides of its bounds. */
static void data_packets(void)
{
    uint8_t data[1026], buffer[INDRAVECK_BUFFER_BYTES + 1];
    uint8_t sum;
    uint64_t length;
    size_t at, count;

    for (at = 0; at < sizeof data; at++)
        data[at] = (uint8_t)(7 * at + 1);
    for (count = 0; count <= sizeof data; count++) {
        uint32_t expected = count >= 1 && count <= 1024 ? INDRAVECK_HOST_DONE : INDRAVECK_HOST_WRONG_AMOUNT;
        memset(buffer, 0xA5, sizeof buffer);
        length = 9999;
        check(indraveck_build(buffer, INDRAVECK_BUFFER_BYTES, INDRAVECK_REQUEST_WRITE_DATA, 0, 0, data, count, &length) == expected,
              "data of a write is 1 to 1,024 bytes");
        if (expected == INDRAVECK_HOST_DONE) {
            for (sum = 0, at = 1; at < count + 5; at++)
                sum = (uint8_t)(sum + buffer[at]);
            check(length == count + 6 && buffer[0] == 0x81 && buffer[1] == (count + 1) >> 8 && buffer[2] == ((count + 1) & 0xFF)
                      && buffer[3] == 0x13 && memcmp(buffer + 4, data, count) == 0 && sum == 0 && buffer[count + 5] == 0x03
                      && buffer[count + 6] == 0xA5,
                  "a data packet has its data, SUM and ETX");
        } else {
            check(length == 0 && buffer[0] == 0xA5, "another amount builds nothing");
        }
    }
    check(count == 1027, "all amounts were tried");
}

/* What is refused and in which order, with a buffer that stays as it was and a length that is written. */
static void refused_requests(void)
{
    static const struct {
        uint32_t request, first, second;
        size_t bytes_len, room;
        uint32_t answer;
    } rows[] = {
        /* numbers that are no request, with wrong amounts and no room */
        {0, 0, 0, 0, 40, INDRAVECK_HOST_NO_REQUEST},
        {11, 0, 0, 0, 40, INDRAVECK_HOST_NO_REQUEST},
        {257, 0, 0, 0, 40, INDRAVECK_HOST_NO_REQUEST},
        {0xFFFFFFFF, 0xFFFFFFFF, 0xFFFFFFFF, 17, 0, INDRAVECK_HOST_NO_REQUEST},
        {0x12, 0, 0, 0, 40, INDRAVECK_HOST_NO_REQUEST},
        {INDRAVECK_REQUEST_INQUIRY, 1, 0, 0, 40, INDRAVECK_HOST_NO_REQUEST},
        {INDRAVECK_REQUEST_INQUIRY, 0, 1, 0, 40, INDRAVECK_HOST_NO_REQUEST},
        {INDRAVECK_REQUEST_AUTHENTICATE, 1, 0, 16, 40, INDRAVECK_HOST_NO_REQUEST},
        {INDRAVECK_REQUEST_BAUD, 9600, 1, 0, 40, INDRAVECK_HOST_NO_REQUEST},
        {INDRAVECK_REQUEST_SIGNATURE, 1, 0, 0, 40, INDRAVECK_HOST_NO_REQUEST},
        {INDRAVECK_REQUEST_AREA, 256, 0, 0, 40, INDRAVECK_HOST_NO_REQUEST},
        {INDRAVECK_REQUEST_AREA, 0, 1, 0, 40, INDRAVECK_HOST_NO_REQUEST},
        {INDRAVECK_REQUEST_WRITE_DATA, 1, 0, 8, 40, INDRAVECK_HOST_NO_REQUEST},
        {INDRAVECK_REQUEST_NEXT, 0, 1, 1, 0, INDRAVECK_HOST_NO_REQUEST},
        /* the amount before all else */
        {INDRAVECK_REQUEST_INQUIRY, 0, 0, 1, 40, INDRAVECK_HOST_WRONG_AMOUNT},
        {INDRAVECK_REQUEST_ERASE, 0, 0, 8, 40, INDRAVECK_HOST_WRONG_AMOUNT},
        {INDRAVECK_REQUEST_AUTHENTICATE, 0, 0, 0, 40, INDRAVECK_HOST_WRONG_AMOUNT},
        {INDRAVECK_REQUEST_AUTHENTICATE, 0, 0, 15, 40, INDRAVECK_HOST_WRONG_AMOUNT},
        {INDRAVECK_REQUEST_AUTHENTICATE, 0, 0, 17, 40, INDRAVECK_HOST_WRONG_AMOUNT},
        {INDRAVECK_REQUEST_WRITE_DATA, 0, 0, 0, 0, INDRAVECK_HOST_WRONG_AMOUNT},
        {INDRAVECK_REQUEST_NEXT, 0, 0, 1, 0, INDRAVECK_HOST_WRONG_AMOUNT},
        {INDRAVECK_REQUEST_NEXT, 7, 0, 1, 0, INDRAVECK_HOST_WRONG_AMOUNT},
        /* what is left before the room */
        {INDRAVECK_REQUEST_NEXT, 0, 0, 0, 0, INDRAVECK_HOST_NOTHING_LEFT},
        {INDRAVECK_REQUEST_NEXT, 0, 0, 0, 40, INDRAVECK_HOST_NOTHING_LEFT},
        {INDRAVECK_REQUEST_NEXT, 1, 0, 0, 6, INDRAVECK_HOST_NO_ROOM},
        {INDRAVECK_REQUEST_INQUIRY, 0, 0, 0, 0, INDRAVECK_HOST_NO_ROOM},
        {INDRAVECK_REQUEST_AUTHENTICATE, 0, 0, 16, 21, INDRAVECK_HOST_NO_ROOM},
        {INDRAVECK_REQUEST_WRITE_DATA, 0, 0, 17, 22, INDRAVECK_HOST_NO_ROOM},
    };
    uint8_t lent[40], before[40];
    uint64_t length;
    size_t row;
    char what[40];

    memset(before, 0xA5, sizeof before);
    for (row = 0; row < sizeof rows / sizeof rows[0]; row++) {
        sprintf(what, "row %d of what is not built", (int)row);
        memset(lent, 0xA5, sizeof lent);
        length = 99;
        check(indraveck_build(lent, rows[row].room, rows[row].request, rows[row].first, rows[row].second, line, rows[row].bytes_len, &length)
                      == rows[row].answer && length == 0,
              what);
        check(memcmp(lent, before, sizeof lent) == 0, what);
    }
}

/* A judge between bytes that nobody may touch. */
struct lent {
    uint8_t guard0[GUARD], judge[INDRAVECK_JUDGE_BYTES], guard1[GUARD];
};

static int untouched(const struct lent *l)
{
    size_t at;

    for (at = 0; at < GUARD; at++)
        if (l->guard0[at] != 0xA5 || l->guard1[at] != 0xA5)
            return 0;
    return 1;
}

static void begin_judge(struct lent *l, size_t row)
{
    memset(l, 0xA5, sizeof *l);
    check(indraveck_judge_begin(l->judge, sizeof l->judge, replies[row].request, replies[row].first, replies[row].second)
              == INDRAVECK_HOST_DONE,
          "every request has a judge");
    check(indraveck_judge_verdict(l->judge, sizeof l->judge) == INDRAVECK_VERDICT_UNANSWERED, "a judge starts unanswered");
}

/* Gives the judge a part of the reply. What it has to answer follows from where its packet begins, how long it is and which byte decides. */
static void take_part(struct lent *l, size_t row, size_t start, size_t from, size_t to, const char *what)
{
    const uint8_t *reply = replies[row].reply;
    size_t decided = replies[row].decided, behind = to < decided ? to : decided;
    size_t taken = behind > from ? behind - from : 0;
    size_t place = from + taken;
    uint32_t expected = to < decided || decided == 0 ? INDRAVECK_VERDICT_UNANSWERED : replies[row].verdict;
    uint64_t count = 99, first = 99, last = 99;

    check(indraveck_judge_take(l->judge, sizeof l->judge, reply + from, to - from, &count, &first, &last) == expected, what);
    check(indraveck_judge_verdict(l->judge, sizeof l->judge) == expected && count == taken, what);
    check(first <= last && last <= count, what);
    /* of a whole packet the data stands between RES and SUM */
    if (replies[row].verdict != 0 && decided > start + 5) {
        size_t data = start + 4, sum = decided - 2;
        size_t begins = data < from ? from : data > place ? place : data;
        size_t ends = sum < from ? from : sum > place ? place : sum;
        check(first == begins - from && last == ends - from, what);
    }
    check(untouched(l), what);
}

static void replies_judged(void)
{
    struct lent l;
    size_t row, cut, other, at, cuts = 0;
    char what[60];

    for (row = 0; row < sizeof replies / sizeof replies[0]; row++) {
        size_t length = replies[row].length, start = 0;
        while (start < length && replies[row].reply[start] != 0x81)
            start++;
        for (cut = 0; cut <= length; cut++)
            for (other = cut; other <= length; other++) {
                sprintf(what, "reply %d cut at %d and %d", (int)row, (int)cut, (int)other);
                begin_judge(&l, row);
                take_part(&l, row, start, 0, cut, what);
                take_part(&l, row, start, cut, other, what);
                take_part(&l, row, start, other, length, what);
                cuts++;
            }
        sprintf(what, "reply %d byte by byte", (int)row);
        begin_judge(&l, row);
        for (at = 0; at < length; at++)
            take_part(&l, row, start, at, at + 1, what);
    }
    check(cuts > 2000, "replies were cut");
}

/* The longest reply: a read of 1,024 bytes and more, in pieces of all lengths; one byte less or more of data is a wrong reply. */
static void a_long_reply(void)
{
    static uint8_t reply[INDRAVECK_BUFFER_BYTES];
    uint8_t judge[INDRAVECK_JUDGE_BYTES];
    uint64_t taken, from, to;
    uint32_t verdict;
    size_t at, by, seen;
    static const struct {
        uint32_t request, first, second, verdict;
    } rows[] = {
        {INDRAVECK_REQUEST_READ, 0, 0x3FF, INDRAVECK_VERDICT_PASSED},
        {INDRAVECK_REQUEST_READ, 0, 0x400, INDRAVECK_VERDICT_PASSED},
        {INDRAVECK_REQUEST_READ, 0, 0xFFFFFFFF, INDRAVECK_VERDICT_PASSED},
        {INDRAVECK_REQUEST_READ, 0, 0x3FE, INDRAVECK_VERDICT_WRONG_REPLY},
        {INDRAVECK_REQUEST_READ, 1, 0, INDRAVECK_VERDICT_WRONG_REPLY},
        {INDRAVECK_REQUEST_NEXT, 1024, 0, INDRAVECK_VERDICT_PASSED},
        {INDRAVECK_REQUEST_NEXT, 0xFFFFFFFF, 0, INDRAVECK_VERDICT_PASSED},
        {INDRAVECK_REQUEST_NEXT, 1023, 0, INDRAVECK_VERDICT_WRONG_REPLY},
        {INDRAVECK_REQUEST_WRITE_DATA, 0, 0, INDRAVECK_VERDICT_WRONG_REPLY},
    };
    size_t row;

    reply[0] = 0x81;
    reply[1] = 0x04;
    reply[2] = 0x01;
    reply[3] = 0x15;
    for (at = 4; at < 1028; at++)
        reply[at] = (uint8_t)(0x81 + 7 * at);
    for (at = 1; at < 1028; at++)
        reply[1028] = (uint8_t)(reply[1028] - reply[at]);
    reply[1029] = 0x03;
    for (row = 0; row < sizeof rows / sizeof rows[0]; row++)
        for (by = 1; by <= sizeof reply; by += by < 70 ? 1 : 137) {
            check(indraveck_judge_begin(judge, sizeof judge, rows[row].request, rows[row].first, rows[row].second) == INDRAVECK_HOST_DONE,
                  "a read has a judge");
            verdict = 99;
            for (at = 0, seen = 0; at < sizeof reply; at += by) {
                size_t count = sizeof reply - at < by ? sizeof reply - at : by;
                check(at == 0 || verdict == INDRAVECK_VERDICT_UNANSWERED, "nothing decides before the last byte");
                verdict = indraveck_judge_take(judge, sizeof judge, reply + at, count, &taken, &from, &to);
                check(taken == count && from <= to && to <= taken, "a part of a long reply is taken whole");
                check(from == to || at + from == 4 + seen, "its data comes in order");
                seen += (size_t)(to - from);
            }
            check(verdict == rows[row].verdict && seen == 1024, "a long reply is judged");
        }
}

/* What a judge keeps, by the names of its places. */
static void kept(void)
{
    uint8_t judge[INDRAVECK_JUDGE_BYTES];
    const uint8_t *data = judge + INDRAVECK_JUDGE_AT_DATA;
    uint64_t taken, from, to;

    indraveck_judge_begin(judge, sizeof judge, INDRAVECK_REQUEST_SIGNATURE, 0, 0);
    indraveck_judge_take(judge, sizeof judge, replies[0].reply, replies[0].length, &taken, &from, &to);
    check(judge[INDRAVECK_JUDGE_AT_VERDICT] == 0 && judge[INDRAVECK_JUDGE_AT_VERDICT + 1] == INDRAVECK_VERDICT_PASSED, "the verdict");
    check(judge[INDRAVECK_JUDGE_AT_REQUEST] == INDRAVECK_REQUEST_SIGNATURE && four(judge + INDRAVECK_JUDGE_AT_FIRST) == 0
              && four(judge + INDRAVECK_JUDGE_AT_SECOND) == 0,
          "the request");
    check(four(judge + INDRAVECK_JUDGE_AT_COUNT) == 18 && judge[INDRAVECK_JUDGE_AT_LENGTH] == 0 && judge[INDRAVECK_JUDGE_AT_LENGTH + 1] == 13
              && judge[INDRAVECK_JUDGE_AT_RES] == 0x3A && judge[INDRAVECK_JUDGE_AT_SUM] == 0,
          "count, length, RES and sum of a reply");
    check(four(data + INDRAVECK_SIGNATURE_AT_SCI) == 60000000 && four(data + INDRAVECK_SIGNATURE_AT_RMB) == 4000000
              && data[INDRAVECK_SIGNATURE_AT_NOA] == 2 && data[INDRAVECK_SIGNATURE_AT_TYP] == 1 && data[INDRAVECK_SIGNATURE_AT_BFV] == 1
              && data[INDRAVECK_SIGNATURE_AT_BFV + 1] == 0,
          "what a signature says");

    indraveck_judge_begin(judge, sizeof judge, INDRAVECK_REQUEST_AREA, 1, 0);
    check(judge[INDRAVECK_JUDGE_AT_REQUEST] == INDRAVECK_REQUEST_AREA && four(judge + INDRAVECK_JUDGE_AT_FIRST) == 1, "the area's number");
    indraveck_judge_take(judge, sizeof judge, replies[9].reply, replies[9].length, &taken, &from, &to);
    check(data[INDRAVECK_AREA_AT_KOA] == INDRAVECK_KIND_CONFIG && four(data + INDRAVECK_AREA_AT_SAD) == 0x01000000
              && four(data + INDRAVECK_AREA_AT_EAD) == 0x010000FF && four(data + INDRAVECK_AREA_AT_EAU) == 0
              && four(data + INDRAVECK_AREA_AT_WAU) == 0x10,
          "what an area says");

    indraveck_judge_begin(judge, sizeof judge, INDRAVECK_REQUEST_READ, 0x11223344, 0x55667788);
    check(four(judge + INDRAVECK_JUDGE_AT_FIRST) == 0x11223344 && four(judge + INDRAVECK_JUDGE_AT_SECOND) == 0x55667788, "SAD and EAD");
    indraveck_judge_take(judge, sizeof judge, replies[18].reply, 6, &taken, &from, &to);
    check(four(judge + INDRAVECK_JUDGE_AT_COUNT) == 6 && judge[INDRAVECK_JUDGE_AT_RES] == 0x95 && data[0] == 0xD0 && data[1] == 0,
          "part of a reply");
}

/* Bytes that are no judge: cleared ones, wrong lengths, and each of the numbers that decides. */
static void no_judges(void)
{
    uint8_t good[INDRAVECK_JUDGE_BYTES + 1], judge[INDRAVECK_JUDGE_BYTES + 1];
    uint64_t taken, from, to;
    size_t length, value, judges = 0;

    memset(good, 0xA5, sizeof good);
    memset(judge, 0xA5, sizeof judge);
    for (length = 0; length <= sizeof judge; length++) {
        if (length == INDRAVECK_JUDGE_BYTES)
            continue;
        check(indraveck_judge_begin(judge, length, INDRAVECK_REQUEST_INQUIRY, 0, 0) == INDRAVECK_HOST_WRONG_LENGTH
                  && memcmp(judge, good, sizeof judge) == 0,
              "a judge has 36 bytes");
        check(indraveck_judge_begin(judge, length, INDRAVECK_REQUEST_INQUIRY, 1, 0) == INDRAVECK_HOST_NO_REQUEST, "the request comes first");
    }
    check(indraveck_judge_begin(judge, INDRAVECK_JUDGE_BYTES, 0, 0, 0) == INDRAVECK_HOST_NO_REQUEST && memcmp(judge, good, sizeof judge) == 0,
          "no request has no judge");
    check(indraveck_judge_begin(good, INDRAVECK_JUDGE_BYTES, INDRAVECK_REQUEST_AREA, 7, 0) == INDRAVECK_HOST_DONE, "an area has one");

    memset(judge, 0, sizeof judge);
    check(indraveck_judge_verdict(judge, INDRAVECK_JUDGE_BYTES) == INDRAVECK_VERDICT_NO_JUDGE, "cleared bytes are no judge");
    for (length = 0; length <= sizeof good; length++)
        check(indraveck_judge_verdict(good, length)
                  == (length == INDRAVECK_JUDGE_BYTES ? INDRAVECK_VERDICT_UNANSWERED : INDRAVECK_VERDICT_NO_JUDGE),
              "a judge of another length is none");

    for (value = 0; value < 0x10000; value++) {
        uint32_t verdict = value <= 2 || (value > 256 && value < 512) ? (uint32_t)value : INDRAVECK_VERDICT_NO_JUDGE;
        memcpy(judge, good, sizeof judge);
        judge[INDRAVECK_JUDGE_AT_VERDICT] = (uint8_t)(value >> 8);
        judge[INDRAVECK_JUDGE_AT_VERDICT + 1] = (uint8_t)value;
        check(indraveck_judge_verdict(judge, INDRAVECK_JUDGE_BYTES) == verdict, "each number is that verdict or none");
        judges += verdict != INDRAVECK_VERDICT_NO_JUDGE;
        taken = from = to = 99;
        check(indraveck_judge_take(judge, INDRAVECK_JUDGE_BYTES, eight, 8, &taken, &from, &to) == verdict, "taking says the same");
        check(taken == (verdict == INDRAVECK_VERDICT_UNANSWERED ? 8 : 0) && from == to && to == taken, "and takes nothing behind a verdict");
    }
    check(judges == 258, "there are 258 verdicts");
    for (value = 0; value < 256; value++) {
        memcpy(judge, good, sizeof judge);
        judge[INDRAVECK_JUDGE_AT_REQUEST] = (uint8_t)value;
        /* those with one number or two of their own */
        check(indraveck_judge_verdict(judge, INDRAVECK_JUDGE_BYTES)
                  == (value == 2 || value == 3 || value == 4 || value == 6 || value == 8 || value == 10 ? INDRAVECK_VERDICT_UNANSWERED
                                                                                                       : INDRAVECK_VERDICT_NO_JUDGE),
              "each number is a request with these numbers or none");
    }
    memcpy(judge, good, sizeof judge);
    put_four(judge + INDRAVECK_JUDGE_AT_FIRST, 256);
    taken = from = to = 99;
    check(indraveck_judge_take(judge, INDRAVECK_JUDGE_BYTES, replies[9].reply, 23, &taken, &from, &to) == INDRAVECK_VERDICT_NO_JUDGE
              && taken == 0 && from == 0 && to == 0,
          "no judge takes nothing");
    put_four(good + INDRAVECK_JUDGE_AT_FIRST, 256);
    check(memcmp(judge, good, sizeof judge) == 0, "and is left");
}

/* A slice of length 0 may have any pointer: null, and one that lends nothing. */
static void any_pointer(uint8_t *nowhere)
{
    uint8_t judge[INDRAVECK_JUDGE_BYTES], buffer[6];
    uint64_t length = 99, taken = 99, from = 99, to = 99;

    check(indraveck_build(buffer, sizeof buffer, INDRAVECK_REQUEST_INQUIRY, 0, 0, nowhere, 0, &length) == INDRAVECK_HOST_DONE && length == 6,
          "a packet without bytes beside it");
    check(indraveck_build(nowhere, 0, INDRAVECK_REQUEST_INQUIRY, 0, 0, nowhere, 0, &length) == INDRAVECK_HOST_NO_ROOM && length == 0,
          "a packet without a buffer");
    check(indraveck_build(nowhere, 0, INDRAVECK_REQUEST_WRITE_DATA, 0, 0, nowhere, 0, &length) == INDRAVECK_HOST_WRONG_AMOUNT, "no data");
    check(indraveck_judge_begin(nowhere, 0, INDRAVECK_REQUEST_INQUIRY, 0, 0) == INDRAVECK_HOST_WRONG_LENGTH, "a judge without bytes");
    check(indraveck_judge_verdict(nowhere, 0) == INDRAVECK_VERDICT_NO_JUDGE, "no bytes are no judge");
    check(indraveck_judge_take(nowhere, 0, nowhere, 0, &taken, &from, &to) == INDRAVECK_VERDICT_NO_JUDGE && taken == 0, "and take nothing");
    indraveck_judge_begin(judge, sizeof judge, INDRAVECK_REQUEST_INQUIRY, 0, 0);
    taken = from = to = 99;
    check(indraveck_judge_take(judge, sizeof judge, nowhere, 0, &taken, &from, &to) == INDRAVECK_VERDICT_UNANSWERED && taken == 0 && from == 0
              && to == 0,
          "nothing is unanswered");
}

static void bench_profile(uint8_t *profile)
{
    uint8_t *user, *config;

    two_areas(profile, &user, &config);
    profile[INDRAVECK_PROFILE_AT_BFV] = 1;
    put_four(user + INDRAVECK_AREA_AT_EAD, 0xFFFF);
    put_four(user + INDRAVECK_AREA_AT_EAU, 0x2000);
    put_four(user + INDRAVECK_AREA_AT_WAU, 0x80);
    put_four(config + INDRAVECK_AREA_AT_SAD, 0x01000000);
    put_four(config + INDRAVECK_AREA_AT_EAD, 0x010000FF);
    put_four(config + INDRAVECK_AREA_AT_WAU, 0x10);
}

static void asks(uint32_t request, uint32_t first, uint32_t second, const uint8_t *bytes, size_t bytes_len, uint32_t expected, const char *what)
{
    uint32_t verdict = 99;

    got_len = 0;
    check(ask(request, first, second, bytes, bytes_len, &verdict) == INDRAVECK_HOST_DONE && verdict == expected, what);
}

/* The header's example with a stand-in, whose replies come in pieces of `by` bytes. */
static void a_session(size_t by)
{
    static const uint8_t wake[] = {0x00, 0x00, 0x55};
    const uint32_t passed = INDRAVECK_VERDICT_PASSED, refused = INDRAVECK_VERDICT_REFUSED;
    uint8_t data[1024];
    uint32_t verdict = 99;
    size_t at;

    piece = by;
    for (at = 0; at < sizeof data; at++)
        data[at] = (uint8_t)(at / 3);
    bench_profile(device.profile);
    memset(device.image, 0x00, sizeof device.image);
    memset(device.image + 0x10000, 0xFF, 256);
    check(begin(&device) == INDRAVECK_ACCEPTED, "the bench profile is acceptable");

    /* a rack that is off, and a device that was not woken up */
    unplugged = 1;
    asks(INDRAVECK_REQUEST_INQUIRY, 0, 0, NULL, 0, INDRAVECK_VERDICT_UNANSWERED, "nobody answers");
    unplugged = 0;
    asks(INDRAVECK_REQUEST_INQUIRY, 0, 0, NULL, 0, INDRAVECK_VERDICT_UNANSWERED, "a device that sleeps does not answer");
    send_to_device(wake, sizeof wake);
    check(line_len == 2 && line[1] == 0xC3, "a device is woken up");

    asks(INDRAVECK_REQUEST_INQUIRY, 0, 0, NULL, 0, passed, "an inquiry passes");
    asks(INDRAVECK_REQUEST_SIGNATURE, 0, 0, NULL, 0, passed, "a signature passes");
    check(got_len == 12 && four(got) == 60000000, "and comes back");
    asks(INDRAVECK_REQUEST_AREA, 1, 0, NULL, 0, passed, "area 1 passes");
    check(got_len == 17 && got[0] == INDRAVECK_KIND_CONFIG, "and comes back");
    asks(INDRAVECK_REQUEST_AREA, 2, 0, NULL, 0, refused + 0xD0, "area 2 is refused");
    asks(INDRAVECK_REQUEST_BAUD, 1000000, 0, NULL, 0, passed, "a baud rate passes");
    asks(INDRAVECK_REQUEST_BAUD, 4000000, 0, NULL, 0, refused + 0xD4, "another is refused");
    asks(INDRAVECK_REQUEST_AUTHENTICATE, 0, 0, code, 16, refused + 0xC3, "a code is not wanted");
    asks(INDRAVECK_REQUEST_WRITE, 0x2000, 0x27FF, NULL, 0, passed, "a write passes");
    asks(INDRAVECK_REQUEST_WRITE_DATA, 0, 0, data, sizeof data, refused + 0xE2, "its data is refused where flash is not blank");
    asks(INDRAVECK_REQUEST_ERASE, 0x2000, 0x3FFF, NULL, 0, passed, "an erase passes");
    asks(INDRAVECK_REQUEST_ERASE, 0x2000, 0x3FFE, NULL, 0, refused + 0xD0, "an erase of no whole unit is refused");
    asks(INDRAVECK_REQUEST_WRITE, 0x2000, 0x27FF, NULL, 0, passed, "a write passes");
    asks(INDRAVECK_REQUEST_WRITE_DATA, 0, 0, data, sizeof data, passed, "and so does its data");
    asks(INDRAVECK_REQUEST_NEXT, 1, 0, NULL, 0, INDRAVECK_VERDICT_WRONG_REPLY, "a next packet in a write is answered as write data is");
    asks(INDRAVECK_REQUEST_READ, 0x2000, 0x2400, NULL, 0, passed, "a read passes");
    check(got_len == 1024 && memcmp(got, data, 1024) == 0, "with its first 1,024 bytes");
    asks(INDRAVECK_REQUEST_NEXT, 1, 0, NULL, 0, passed, "and so does its next packet");
    check(got_len == 1 && got[0] == 0xFF, "with the last byte");
    asks(INDRAVECK_REQUEST_READ, 0x2400, 0x2000, NULL, 0, refused + 0xD0, "a reversed read is refused");

    line_len = line_at = 99;
    check(ask(INDRAVECK_REQUEST_NEXT, 0, 0, NULL, 0, &verdict) == INDRAVECK_HOST_NOTHING_LEFT && verdict == INDRAVECK_VERDICT_UNANSWERED,
          "what cannot be built is unanswered");
    verdict = 99;
    check(ask(0, 0, 0, NULL, 0, &verdict) == INDRAVECK_HOST_NO_REQUEST && verdict == INDRAVECK_VERDICT_UNANSWERED, "and so is no request");
    check(line_len == 99 && line_at == 99, "and nothing is sent");
}

int main(void)
{
    names();
    packets_built();
    data_packets();
    refused_requests();
    replies_judged();
    a_long_reply();
    kept();
    no_judges();
    any_pointer(NULL);
    any_pointer((uint8_t *)(uintptr_t)1);
    a_session(1);
    a_session(7);
    a_session(INDRAVECK_BUFFER_BYTES);
    if (failures == 0)
        printf("the host's end answers C as its header says\n");
    return failures != 0;
}
