/* A first program, in C11 and in C++: one packet out of a literal array, and the duration that it holds. */
#include <mishkeldur.h>
#include <stdio.h>

int main(void)
{
    /* A chunk of nine bytes with number 0; in it a binary TIME value: minus one minute. */
    static const uint8_t bytes[] = {9, 0, 0, 0, 8, 1, 0, 0, 0, 0, 0, 1, 0};
    uint8_t state[MK_STATE_SIZE], packet[64];
    size_t used = 0, len = 0, next = 0;
    int64_t micros = 0;
    uint8_t status = mk_open(state, sizeof state, sizeof packet);

    if (status == MK_OK)
        status = mk_read(state, sizeof state, bytes, sizeof bytes, NULL, 0, packet, sizeof packet, &used, &len);
    if (status == MK_OK)
        status = mk_read_duration(packet, len, 0, &micros, &next);
    if (status != MK_OK) {
        printf("refused %s\n", mk_refusal_text(status));
        return 1;
    }
    printf("mishkeldur %s: %lld microseconds\n", mk_version(), (long long)micros);
    return 0;
}
