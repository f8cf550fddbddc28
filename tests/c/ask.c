/* The example of a host in include/indraveck.h, word for word: rust/device/tests/header.rs compares them. */
// INDRAVECK_HOST_DONE if the request was sent; *verdict is what came of it, and stays unanswered if nothing did
uint32_t ask(uint32_t request, uint32_t first, uint32_t second, const uint8_t *bytes, size_t bytes_len, uint32_t *verdict)
{
    uint8_t packet[INDRAVECK_BUFFER_BYTES], judge[INDRAVECK_JUDGE_BYTES], back[64];
    uint64_t length, taken, from, to;
    size_t count;
    uint32_t answer = indraveck_build(packet, sizeof packet, request, first, second, bytes, bytes_len, &length);

    *verdict = INDRAVECK_VERDICT_UNANSWERED;
    if (answer != INDRAVECK_HOST_DONE)
        return answer; // nothing was sent
    indraveck_judge_begin(judge, sizeof judge, request, first, second); // done, as for the packet
    send_to_device(packet, (size_t)length);
    while (*verdict == INDRAVECK_VERDICT_UNANSWERED && (count = receive(back, sizeof back)) > 0) {
        *verdict = indraveck_judge_take(judge, sizeof judge, back, count, &taken, &from, &to);
        if (from < to)
            on_data(back + from, (size_t)(to - from)); // worth something only if the verdict becomes passed
    }
    return INDRAVECK_HOST_DONE;
}
