/* The examples of recordings in include/indraveck.h, word for word: rust/device/tests/header.rs compares them. */
// INDRAVECK_RECORD_END if on_record got them all; any other answer is why the record at *at cannot be read
uint32_t each_record(const uint8_t *recording, size_t recording_len, size_t *at)
{
    uint64_t from, to;

    for (*at = 0;; *at = (size_t)to) {
        uint32_t answer = indraveck_read_record(recording, recording_len, *at, &from, &to);
        if (answer != INDRAVECK_RECORD_HOST && answer != INDRAVECK_RECORD_DEVICE && answer != INDRAVECK_RECORD_RESET)
            return answer;
        on_record(answer, recording + from, (size_t)(to - from));
    }
}

struct recording {
    uint8_t bytes[RECORDING_BYTES];
    size_t len; // how many of them are the recording; 0 at first
};

uint32_t append(struct recording *r, uint32_t direction, const uint8_t *bytes, size_t bytes_len)
{
    uint64_t to;
    uint32_t answer = indraveck_write_record(r->bytes, sizeof r->bytes, r->len, direction, bytes, bytes_len, &to);

    r->len = (size_t)to; // as it was, if the record was not written
    return answer;
}
