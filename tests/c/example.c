/* The example in include/indraveck.h, word for word: rust/device/tests/header.rs compares them. */
struct device {
    uint8_t profile[INDRAVECK_PROFILE_BYTES];
    uint8_t image[FLASH_BYTES]; // the areas' bytes, joined in the profile's order
    uint8_t state[INDRAVECK_STATE_BYTES];
    uint8_t receive[INDRAVECK_BUFFER_BYTES];
};

uint32_t begin(struct device *d)
{
    return indraveck_start(d->profile, sizeof d->profile, d->image, sizeof d->image, d->state, sizeof d->state);
}

uint32_t answer(struct device *d, const uint8_t *input, size_t input_len)
{
    uint8_t reply[INDRAVECK_BUFFER_BYTES];
    uint64_t consumed, reply_len;

    while (input_len > 0) {
        uint32_t refusal = indraveck_feed(d->profile, sizeof d->profile, d->image, sizeof d->image,
                                          d->state, sizeof d->state, d->receive, sizeof d->receive,
                                          reply, sizeof reply, input, input_len, &consumed, &reply_len);
        if (refusal != INDRAVECK_ACCEPTED)
            return refusal;
        if (reply_len > 0)
            send_to_host(reply, (size_t)reply_len);
        input += consumed; // at least 1
        input_len -= (size_t)consumed;
    }
    return INDRAVECK_ACCEPTED;
}
