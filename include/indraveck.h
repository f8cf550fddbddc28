/* The proved stand-in for a microcontroller in serial boot mode, and the host's end of its line, for C99 and C++. Link libindraveck.a.
 *
 * Bytes that a host sends go in, reply bytes come out, and the flash is an array of yours. Eleven functions: start, feed and reset are
 * the device, payload looks into a packet; build and judge_begin, judge_take and judge_verdict are the host's end, which sends requests
 * to a device and judges its replies; read_record and write_record are a recorded line record by record, replay does one over again. A
 * device that answers what it received:
 *
 *     struct device {
 *         uint8_t profile[INDRAVECK_PROFILE_BYTES];
 *         uint8_t image[FLASH_BYTES]; // the areas' bytes, joined in the profile's order
 *         uint8_t state[INDRAVECK_STATE_BYTES];
 *         uint8_t receive[INDRAVECK_BUFFER_BYTES];
 *     };
 *
 *     uint32_t begin(struct device *d)
 *     {
 *         return indraveck_start(d->profile, sizeof d->profile, d->image, sizeof d->image, d->state, sizeof d->state);
 *     }
 *
 *     uint32_t answer(struct device *d, const uint8_t *input, size_t input_len)
 *     {
 *         uint8_t reply[INDRAVECK_BUFFER_BYTES];
 *         uint64_t consumed, reply_len;
 *
 *         while (input_len > 0) {
 *             uint32_t refusal = indraveck_feed(d->profile, sizeof d->profile, d->image, sizeof d->image,
 *                                               d->state, sizeof d->state, d->receive, sizeof d->receive,
 *                                               reply, sizeof reply, input, input_len, &consumed, &reply_len);
 *             if (refusal != INDRAVECK_ACCEPTED)
 *                 return refusal;
 *             if (reply_len > 0)
 *                 send_to_host(reply, (size_t)reply_len);
 *             input += consumed; // at least 1
 *             input_len -= (size_t)consumed;
 *         }
 *         return INDRAVECK_ACCEPTED;
 *     }
 *
 * What to keep between two feeds: profile, image, the state's bytes, and of the receive buffer the bytes that are held, at its front, as
 * many as the state's held count says. They may be moved or stored and brought back in other buffers. The reply buffer is free as
 * soon as the reply was sent, and so are the receive bytes behind those held.
 *
 * A host that sends a request and judges what comes back:
 *
 *     // INDRAVECK_HOST_DONE if the request was sent; *verdict is what came of it, and stays unanswered if nothing did
 *     uint32_t ask(uint32_t request, uint32_t first, uint32_t second, const uint8_t *bytes, size_t bytes_len, uint32_t *verdict)
 *     {
 *         uint8_t packet[INDRAVECK_BUFFER_BYTES], judge[INDRAVECK_JUDGE_BYTES], back[64];
 *         uint64_t length, taken, from, to;
 *         size_t count;
 *         uint32_t answer = indraveck_build(packet, sizeof packet, request, first, second, bytes, bytes_len, &length);
 *
 *         *verdict = INDRAVECK_VERDICT_UNANSWERED;
 *         if (answer != INDRAVECK_HOST_DONE)
 *             return answer; // nothing was sent
 *         indraveck_judge_begin(judge, sizeof judge, request, first, second); // done, as for the packet
 *         send_to_device(packet, (size_t)length);
 *         while (*verdict == INDRAVECK_VERDICT_UNANSWERED && (count = receive(back, sizeof back)) > 0) {
 *             *verdict = indraveck_judge_take(judge, sizeof judge, back, count, &taken, &from, &to);
 *             if (from < to)
 *                 on_data(back + from, (size_t)(to - from)); // worth something only if the verdict becomes passed
 *         }
 *         return INDRAVECK_HOST_DONE;
 *     }
 *
 * Beware of 0: it is this protocol's status code for OK, and for that very reason it is no verdict that says so. A verdict of yours that
 * starts at 0 says "unanswered". INDRAVECK_VERDICT_PASSED, which is 1, says "passed", and no other number does: compare with it, since
 * `if (verdict)` and `if (!verdict)` both ask something else.
 *
 * Pointers: a slice passes as a pointer and a length. The pointer of a slice with a length is not null and lends that many bytes; a
 * slice of length 0 may have any pointer, null too. consumed, reply_len, start, length, taken, from, to, read and ended are never null.
 * Nothing that is passed to one call overlaps. Within that every call is legal: wrong lengths and contents are refused with their
 * number, and nothing outside the lent slices is touched.
 *
 * Threads: the library keeps nothing from one call to the next, and calls nothing but memcpy and memset. Calls may run at once if what
 * one of them writes is used by no other; a profile, which is only read, may be shared.
 *
 * All numbers in profile, state, judge and recording go high byte first.
 */
#ifndef INDRAVECK_H
#define INDRAVECK_H

#include <stddef.h>
#include <stdint.h>

#ifdef __cplusplus
extern "C" {
#endif

#define INDRAVECK_VERSION_MAJOR 0
#define INDRAVECK_VERSION_MINOR 4
#define INDRAVECK_VERSION_PATCH 0
#define INDRAVECK_VERSION "0.4.0"

/* What start, reset, feed and replay answer: 0, or the number of the first refusal that applies, looked for in this order. */
#define INDRAVECK_ACCEPTED 0
#define INDRAVECK_UNACCEPTABLE_PROFILE 4 /* the profile is not acceptable, or is not 156 bytes */
#define INDRAVECK_WRONG_IMAGE_LENGTH 1   /* the image is not as long as the profile's areas together */
#define INDRAVECK_UNFIT_STATE 5          /* the state does not fit profile and held bytes, is no state, or is not 33 bytes */
#define INDRAVECK_SHORT_RECEIVE_BUFFER 2 /* it has fewer than 1,030 bytes */
#define INDRAVECK_SHORT_REPLY_BUFFER 3   /* it has fewer than 1,030 bytes */

/* The least length of a receive and of a reply buffer: that of the longest packet. */
#define INDRAVECK_BUFFER_BYTES 1030

/* The profile's bytes, and where in them each number starts. Areas that NOA does not count are ignored. */
#define INDRAVECK_PROFILE_BYTES 156
#define INDRAVECK_PROFILE_AT_NOA 0    /* 1 byte: how many areas there are */
#define INDRAVECK_PROFILE_AT_TYP 1    /* 1 byte */
#define INDRAVECK_PROFILE_AT_BFV 2    /* 2 bytes */
#define INDRAVECK_PROFILE_AT_SCI 4    /* 4 bytes: the clock of the line, in Hz */
#define INDRAVECK_PROFILE_AT_RMB 8    /* 4 bytes: the highest baud rate */
#define INDRAVECK_PROFILE_AT_LOW 12   /* 4 bytes: erase and write in user areas stay at or above it .. */
#define INDRAVECK_PROFILE_AT_HIGH 16  /* 4 bytes: .. and below this; equal numbers are no limit */
#define INDRAVECK_PROFILE_AT_AREAS 20 /* the areas, one behind the other */
#define INDRAVECK_PROFILE_AREAS 8     /* how many areas there is room for */

/* An area's bytes, and where in them each number starts. */
#define INDRAVECK_AREA_BYTES 17
#define INDRAVECK_AREA_AT_KOA 0  /* 1 byte: the kind, one of those below */
#define INDRAVECK_AREA_AT_SAD 1  /* 4 bytes: the first address */
#define INDRAVECK_AREA_AT_EAD 5  /* 4 bytes: the last address */
#define INDRAVECK_AREA_AT_EAU 9  /* 4 bytes: the erase unit in bytes; 0 if it cannot be erased */
#define INDRAVECK_AREA_AT_WAU 13 /* 4 bytes: the write unit in bytes; 0 if it cannot be written */

#define INDRAVECK_KIND_USER 0
#define INDRAVECK_KIND_DATA 1
#define INDRAVECK_KIND_CONFIG 2

/* The state's bytes, and where in them each number starts. A number that a stage has no use for is 0. */
#define INDRAVECK_STATE_BYTES 33
#define INDRAVECK_STATE_AT_STAGE 0      /* 1 byte: one of the stages below */
#define INDRAVECK_STATE_AT_LOW_PULSES 1 /* 1 byte: in setting, one of the values below */
#define INDRAVECK_STATE_AT_NEXT 2       /* 4 bytes: in writing and reading, the next address .. */
#define INDRAVECK_STATE_AT_LEFT 6       /* 4 bytes: .. and how many bytes are left, at least 1 */
#define INDRAVECK_STATE_AT_ID 10        /* 16 bytes: the ID code, as latched at the last wake-up */
#define INDRAVECK_STATE_AT_ABCS 26      /* 1 byte: of the line setting */
#define INDRAVECK_STATE_AT_BRR 27       /* 1 byte: of the line setting */
#define INDRAVECK_STATE_AT_MDDR 28      /* 1 byte: of the line setting; 0 if it is not used */
#define INDRAVECK_STATE_AT_HELD 29      /* 4 bytes: how many bytes of an incomplete packet the receive buffer holds */

#define INDRAVECK_STAGE_SETTING 0
#define INDRAVECK_STAGE_AUTHENTICATION 1
#define INDRAVECK_STAGE_COMMAND 2
#define INDRAVECK_STAGE_WRITING 3
#define INDRAVECK_STAGE_READING 4

#define INDRAVECK_LOW_PULSES_NONE 0
#define INDRAVECK_LOW_PULSES_ONE 1
#define INDRAVECK_LOW_PULSES_ACKNOWLEDGED 2

/* What a host may ask of a device. Beside its number a request has up to two numbers of its own, `first` and `second`; one that it does
 * not have is 0. None has the number 0. */
#define INDRAVECK_REQUEST_INQUIRY 1
#define INDRAVECK_REQUEST_ERASE 2        /* first SAD, second EAD */
#define INDRAVECK_REQUEST_WRITE 3        /* first SAD, second EAD */
#define INDRAVECK_REQUEST_READ 4         /* first SAD, second EAD: the read's first packet */
#define INDRAVECK_REQUEST_AUTHENTICATE 5 /* with the code's 16 bytes beside it */
#define INDRAVECK_REQUEST_BAUD 6         /* first BRT */
#define INDRAVECK_REQUEST_SIGNATURE 7
#define INDRAVECK_REQUEST_AREA 8         /* first the area's number, 0 to 255 */
#define INDRAVECK_REQUEST_WRITE_DATA 9   /* in a write: with the data beside it, 1 to 1,024 bytes */
#define INDRAVECK_REQUEST_NEXT 10        /* in a read: its next packet; first says how many bytes are still unread */

/* What build and judge_begin answer: that it is done, or the number of the first refusal that applies, looked for in the order that
 * stands at each function. Neither ever answers 0, so that a number which nobody wrote is not taken for an answer. */
#define INDRAVECK_HOST_DONE 1
#define INDRAVECK_HOST_WRONG_AMOUNT 2 /* the bytes lent beside the request are not as many as it has; only from build */
#define INDRAVECK_HOST_NOTHING_LEFT 3 /* a read's next packet, and nothing is unread; only from build */
#define INDRAVECK_HOST_NO_ROOM 4      /* the buffer is shorter than the packet; only from build */
#define INDRAVECK_HOST_NO_REQUEST 5   /* no request has these three numbers */
#define INDRAVECK_HOST_WRONG_LENGTH 6 /* the judge's bytes are not 36; only from judge_begin */

/* The verdicts. A refusal is INDRAVECK_VERDICT_REFUSED + its status code, which is 1 to 255: so 257 to 511. */
#define INDRAVECK_VERDICT_UNANSWERED 0  /* nothing came back that decides */
#define INDRAVECK_VERDICT_PASSED 1      /* the OK or the data that belongs to the request came back */
#define INDRAVECK_VERDICT_WRONG_REPLY 2 /* what came back is no reply to the request */
#define INDRAVECK_VERDICT_NO_JUDGE 3    /* these bytes are no judge, or not 36; a judge never says so */
#define INDRAVECK_VERDICT_REFUSED 256   /* with the status code added: an error reply to the request came back */

/* A judge's bytes, and where in them each number starts. It is all that a judge is: it may be moved, stored and copied, and a copy goes
 * on by itself. Bytes that were only cleared are no judge. */
#define INDRAVECK_JUDGE_BYTES 36
#define INDRAVECK_JUDGE_AT_VERDICT 0 /* 2 bytes */
#define INDRAVECK_JUDGE_AT_REQUEST 2 /* 1 byte: the request's number .. */
#define INDRAVECK_JUDGE_AT_FIRST 3   /* 4 bytes: .. and its own numbers */
#define INDRAVECK_JUDGE_AT_SECOND 7  /* 4 bytes */
#define INDRAVECK_JUDGE_AT_COUNT 11  /* 4 bytes: how many bytes of the reply came, from 81h on */
#define INDRAVECK_JUDGE_AT_LENGTH 15 /* 2 bytes: the reply's length bytes; each is 0 until it comes, as what follows here is */
#define INDRAVECK_JUDGE_AT_RES 17    /* 1 byte: RES */
#define INDRAVECK_JUDGE_AT_SUM 18    /* 1 byte: the sum, modulo 256, of the bytes that came behind 81h, SUM among them and ETX not */
#define INDRAVECK_JUDGE_AT_DATA 19   /* 17 bytes: the first of the reply's data, which are all of a status, a signature and an area */

/* Where each number starts in the data of a signature that passed. The data of an area that passed has the places of a profile's areas,
 * INDRAVECK_AREA_AT_KOA to INDRAVECK_AREA_AT_WAU. A judge judges none of these numbers: KOA may be any. */
#define INDRAVECK_SIGNATURE_AT_SCI 0  /* 4 bytes */
#define INDRAVECK_SIGNATURE_AT_RMB 4  /* 4 bytes */
#define INDRAVECK_SIGNATURE_AT_NOA 8  /* 1 byte */
#define INDRAVECK_SIGNATURE_AT_TYP 9  /* 1 byte */
#define INDRAVECK_SIGNATURE_AT_BFV 10 /* 2 bytes */

/* A recording is records one behind the other, with nothing before, between or behind them; no byte at all is one without records. A
 * record is a head of five bytes (the mark 52h 4Ch, a direction, a length in two bytes) and as many bytes as the length says: 1 to 1,030,
 * the length of the longest packet, and none for a reset. */
#define INDRAVECK_RECORD_HEAD_BYTES 5

/* The directions. */
#define INDRAVECK_RECORD_HOST 0x48   /* what a host sent */
#define INDRAVECK_RECORD_DEVICE 0x44 /* what the device sent */
#define INDRAVECK_RECORD_RESET 0x52  /* the device was reset */

/* What write_record answers, and read_record where it does not answer a direction, and what replay leaves in `ended`. Neither function
 * ever answers 0, so that a number which nobody wrote is not taken for an answer. */
#define INDRAVECK_RECORD_NOT_READ 0      /* nothing was read; only in `ended`, where the replay was refused */
#define INDRAVECK_RECORD_BAD_MARK 1      /* the record does not begin with 52h 4Ch */
#define INDRAVECK_RECORD_BAD_DIRECTION 2 /* its direction is none of the three */
#define INDRAVECK_RECORD_BAD_LENGTH 3    /* its length is not 1 to 1,030, or that of a reset not 0 */
#define INDRAVECK_RECORD_CUT_SHORT 4     /* the recording ends before the record does, or before the place */
#define INDRAVECK_RECORD_NO_ROOM 5       /* the buffer ends before the record would; only from write_record */
#define INDRAVECK_RECORD_END 6           /* all was read; only from read_record, and in `ended` */
#define INDRAVECK_RECORD_WRITTEN 7       /* the record was written; only from write_record */

/* Writes a fresh state; a refused start (4 or 1) writes 33 zeros. State bytes of another length are refused with 5 and left. */
uint32_t indraveck_start(const uint8_t *profile, size_t profile_len,
                         const uint8_t *image, size_t image_len,
                         uint8_t *state, size_t state_len);

/* Writes a fresh state, whatever the bytes held; a refused reset leaves them. The image stays. */
uint32_t indraveck_reset(const uint8_t *profile, size_t profile_len,
                         const uint8_t *image, size_t image_len,
                         uint8_t *state, size_t state_len);

/* Takes received bytes up to the one that completes the first reply. `consumed` and `reply_len` are always written: how many bytes
 * of the input were consumed, and how long the reply at the front of the reply buffer is (0 if there is none; then all of the input
 * was consumed). A refused feed writes two zeros there and changes nothing else. Receive bytes beyond those held may change. Empty
 * input changes nothing: such a feed only asks whether feeding would be refused. */
uint32_t indraveck_feed(const uint8_t *profile, size_t profile_len,
                        uint8_t *image, size_t image_len,
                        uint8_t *state, size_t state_len,
                        uint8_t *receive, size_t receive_len,
                        uint8_t *reply, size_t reply_size,
                        const uint8_t *input, size_t input_len,
                        uint64_t *consumed, uint64_t *reply_len);

/* Where the payload of the first `count` bytes of the receive buffer stands (COM or RES and what follows before SUM): 1, or 0 with
 * start and length 0 where it is empty, that is unless these bytes are exactly one whole packet with right length, ETX and SUM. Any
 * count may be asked for. A packet that was just answered still stands there, but a feed promises only the held bytes. */
uint32_t indraveck_payload(const uint8_t *receive, size_t receive_len, size_t count,
                           uint64_t *start, uint64_t *length);

/* Builds the packet of a request at the front of the buffer. Answers INDRAVECK_HOST_DONE; or why there is none, the first of these that
 * applies:
 *  - INDRAVECK_HOST_NO_REQUEST: `request`, `first` and `second`, which may be any numbers, are no request;
 *  - INDRAVECK_HOST_WRONG_AMOUNT: `bytes_len` is not what the request has: 16 for authenticate, 1 to 1,024 for write data, 0 otherwise;
 *  - INDRAVECK_HOST_NOTHING_LEFT: a read's next packet is asked for, and `first` says that 0 bytes are unread;
 *  - INDRAVECK_HOST_NO_ROOM: the packet does not fit whole. INDRAVECK_BUFFER_BYTES are enough for every packet.
 * Addresses, codes, rates and area numbers are not judged: that is the device's to do.
 *
 * `length` is always written: how many bytes the packet has, or 0 if there is none. Then nothing is written into the buffer either;
 * otherwise every byte behind the packet is as it was. */
uint32_t indraveck_build(uint8_t *buffer, size_t buffer_len,
                         uint32_t request, uint32_t first, uint32_t second,
                         const uint8_t *bytes, size_t bytes_len, uint64_t *length);

/* Writes a judge of the reply to a request, which is unanswered, whatever the bytes held. Answers INDRAVECK_HOST_DONE; or why there is
 * none, INDRAVECK_HOST_NO_REQUEST as for build before INDRAVECK_HOST_WRONG_LENGTH, and then the bytes are left. Begin one for each request
 * that is sent, with the same numbers; the bytes lent beside the request are not needed. A read's next packet with 0 bytes unread may
 * have a judge too, and nothing passes there. */
uint32_t indraveck_judge_begin(uint8_t *judge, size_t judge_len,
                               uint32_t request, uint32_t first, uint32_t second);

/* Gives a judge the bytes that came back, in any pieces, up to the one that decides. Answers the verdict behind them. Bytes that are no
 * judge are refused with INDRAVECK_VERDICT_NO_JUDGE and left.
 *
 * The first packet decides, and a verdict is final. Bytes before 81h are skipped. A length that is not 1 to 1,025 is a wrong reply at its
 * second byte; otherwise the packet decides with its last byte, and until then the request is unanswered:
 *  - passed: ETX and SUM are right, RES is that of the request, and it is a status 00h or, of a signature, an area or a read, as much
 *    data as there has to be: 12, 17, or 1,024 and at a read's end all that is left. Nothing passes a read with SAD above EAD;
 *  - refused: ETX and SUM are right, RES is that of the request with bit 7 set, and a status that is not 00h is all that follows;
 *  - a wrong reply in every other case.
 *
 * `taken`, `from` and `to` are always written. `taken` is how many of the bytes were taken: all while the request is unanswered, those up
 * to the deciding one when it decides, and none behind a verdict; what was not taken is the caller's. The bytes from bytes[from] up to
 * before bytes[to] are those among the taken that are the reply's data, which stands behind RES and before SUM; of a status it is the
 * status code. It is data of a reply that may still turn out wrong. Where there is none the two are equal: `taken` while it is still to
 * come, 0 if all of it came before, and the place behind RES if the reply has none. With no judge all three are 0. */
uint32_t indraveck_judge_take(uint8_t *judge, size_t judge_len,
                              const uint8_t *bytes, size_t bytes_len,
                              uint64_t *taken, uint64_t *from, uint64_t *to);

/* A judge's verdict: the one that judge_take answered last, or INDRAVECK_VERDICT_UNANSWERED before that; of bytes that are no judge
 * INDRAVECK_VERDICT_NO_JUDGE. Nothing changes. */
uint32_t indraveck_judge_verdict(const uint8_t *judge, size_t judge_len);

/* Reads the one record that begins at the place `at`. Answers its direction; or INDRAVECK_RECORD_END if `at` is the recording's length,
 * so that nothing is left; or why there is no record to be read, 1 to 4.
 *
 * `from` and `to` are always written. With a direction, the record's bytes are those from recording[from] up to before recording[to]
 * (for a reset the two are equal), and the next record begins at `to`. With any other answer both are `at`: the place stays. Nothing
 * else changes.
 *
 * Each field is judged as soon as it is whole, and before the next one is looked for:
 *  - the mark: with fewer than two bytes left the record is cut short, whatever they are; if it is not 52h 4Ch it is a bad mark;
 *  - the direction: with no byte left cut short; if it is none of the three a bad direction;
 *  - the length: with fewer than two bytes left cut short; if it is not 1 to 1,030, for a reset not 0, a bad length;
 *  - the bytes: with fewer left than the length says cut short.
 * So of the bytes 52 4C 49 the direction is bad, of 52 4C 48 FF FF the length, and 52 4C 48 FF are cut short. A place behind the
 * recording's end is cut short too, however far behind it is.
 *
 * All records of a recording:
 *
 *     // INDRAVECK_RECORD_END if on_record got them all; any other answer is why the record at *at cannot be read
 *     uint32_t each_record(const uint8_t *recording, size_t recording_len, size_t *at)
 *     {
 *         uint64_t from, to;
 *
 *         for (*at = 0;; *at = (size_t)to) {
 *             uint32_t answer = indraveck_read_record(recording, recording_len, *at, &from, &to);
 *             if (answer != INDRAVECK_RECORD_HOST && answer != INDRAVECK_RECORD_DEVICE && answer != INDRAVECK_RECORD_RESET)
 *                 return answer;
 *             on_record(answer, recording + from, (size_t)(to - from));
 *         }
 *     }
 */
uint32_t indraveck_read_record(const uint8_t *recording, size_t recording_len, size_t at,
                               uint64_t *from, uint64_t *to);

/* Writes one record into the buffer, beginning at the place `at`. Answers INDRAVECK_RECORD_WRITTEN; or why it was not written, the first
 * of these that applies:
 *  - INDRAVECK_RECORD_BAD_DIRECTION: `direction`, which may be any number, also above 255, is none of the three;
 *  - INDRAVECK_RECORD_BAD_LENGTH: `bytes_len`, which becomes the record's length, is not 1 to 1,030, for a reset not 0;
 *  - INDRAVECK_RECORD_NO_ROOM: the record does not fit whole: `at` + 5 + `bytes_len`, however large, is above `buffer_len`.
 *
 * `to` is always written: the place behind the record, where the next one goes, or `at` if it was not written. Then nothing is
 * written into the buffer either; otherwise every byte before `at` and from `to` on is as it was.
 *
 * A recording that grows:
 *
 *     struct recording {
 *         uint8_t bytes[RECORDING_BYTES];
 *         size_t len; // how many of them are the recording; 0 at first
 *     };
 *
 *     uint32_t append(struct recording *r, uint32_t direction, const uint8_t *bytes, size_t bytes_len)
 *     {
 *         uint64_t to;
 *         uint32_t answer = indraveck_write_record(r->bytes, sizeof r->bytes, r->len, direction, bytes, bytes_len, &to);
 *
 *         r->len = (size_t)to; // as it was, if the record was not written
 *         return answer;
 *     }
 */
uint32_t indraveck_write_record(uint8_t *buffer, size_t buffer_len, size_t at, uint32_t direction,
                                const uint8_t *bytes, size_t bytes_len, uint64_t *to);

/* Replays a recorded line on the image: what each request that was answered OK erased or wrote. A refused replay (4 or 1) leaves the
 * image.
 *
 * `read` and `ended` are always written: how many of the recording's bytes were read, and why no more. INDRAVECK_RECORD_END: it was read
 * to its end, and `read` is its length. INDRAVECK_RECORD_BAD_MARK to INDRAVECK_RECORD_CUT_SHORT: the record at the place `read` cannot be
 * read, for the reason that read_record gives; the records before it were replayed, and none behind it. INDRAVECK_RECORD_NOT_READ, with
 * `read` 0: the replay was refused. So a whole recording was replayed if the answer is INDRAVECK_ACCEPTED and `ended` is
 * INDRAVECK_RECORD_END.
 *
 * Each request is one host record, with the reply as the device record right behind it. A record without its partner does nothing: a host
 * record that no device record follows at once, a device record with no host record right before it. A request in two host records is
 * not put together, and does nothing: its first piece has no partner, and its second is no whole packet (one that happens to be counts
 * as the request). */
uint32_t indraveck_replay(const uint8_t *profile, size_t profile_len,
                          uint8_t *image, size_t image_len,
                          const uint8_t *recording, size_t recording_len,
                          uint64_t *read, uint32_t *ended);

#ifdef __cplusplus
}
#endif

#endif
