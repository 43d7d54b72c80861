/* The library's writer with a slip behind it, of the number SLIP, for tests/batch/self-test. */
static tuulveski_written slipped_write(const uint8_t *prefix, size_t prefix_len, const uint8_t *batch, size_t batch_len, const uint8_t *chart,
                                       size_t chart_len, uint8_t *out, size_t out_len) {
    tuulveski_written w = tuulveski_write(prefix, prefix_len, batch, batch_len, chart, chart_len, out, out_len);
    switch (SLIP) {
    case 1: /* the byte past the file alters */
        if (w.answer == 0 && w.length < out_len) out[w.length] = 0;
        break;
    case 2: /* the area alters at RECORD */
        if (w.answer == 8 && out_len > 0) out[out_len - 1] = 0;
        break;
    case 3: /* the area alters at ROOM */
        if (w.answer == 9 && out_len > 0) out[0] = 'I';
        break;
    case 4: /* an exact fit is refused */
        if (w.answer == 0 && w.length == out_len) w = (tuulveski_written){9, 0};
        break;
    case 5: /* a length is given at ROOM */
        if (w.answer == 9) w.length = (uint32_t)out_len;
        break;
    case 6: /* RECORD and ROOM are one */
        if (w.answer == 9) w.answer = 8;
        break;
    case 7: /* the sum is not 0 */
        if (w.answer == 0) out[w.length - 3] = '1';
        break;
    case 8: /* the length leaves out the last LF */
        if (w.answer == 0) w.length--;
        break;
    }
    return w;
}
