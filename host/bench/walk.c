/* A binary row in plain C: one pass, each column's start, the NULL count and the bytes used. And length-encoded integers. */
#include <stddef.h>
#include <stdint.h>
#include <string.h>

int pc_lenenc_int(const uint8_t *s, size_t n, size_t at, uint64_t *value, size_t *next) {
    if (at >= n) return 8;
    uint8_t lead = s[at];
    size_t k;
    if (lead < 251) {
        *value = lead;
        *next = at + 1;
        return 0;
    }
    switch (lead) {
    case 0xfc: k = 2; break;
    case 0xfd: k = 3; break;
    case 0xfe: k = 8; break;
    default: return 9;
    }
    if (n - at - 1 < k) return 8;
    uint64_t v = 0;
    memcpy(&v, s + at + 1, k);
    *value = v;
    *next = at + 1 + k;
    return 0;
}

int pc_put_lenenc_int(uint8_t *d, size_t n, size_t at, uint64_t v, size_t *next) {
    size_t k = v < 251 ? 0 : v < 65536 ? 2 : v < 16777216 ? 3 : 8;
    if (at > n || n - at < k + 1) return 6;
    if (k == 0) {
        d[at] = (uint8_t)v;
    } else {
        d[at] = k == 2 ? 0xfc : k == 3 ? 0xfd : 0xfe;
        memcpy(d + at + 1, &v, k);
    }
    *next = at + 1 + k;
    return 0;
}

int pc_read_row(const uint8_t *s, size_t n, const uint8_t *types, size_t columns, size_t *starts, size_t *nulls, size_t *used) {
    size_t map = (columns + 9) / 8;
    if (n < 1) return 8;
    if (s[0] != 0) return 12;
    if (n - 1 < map) return 8;
    size_t at = 1 + map, count = 0;
    for (size_t i = 0; i < columns; i++) {
        starts[i] = at;
        if (s[1 + (i + 2) / 8] >> ((i + 2) % 8) & 1) {
            count++;
            continue;
        }
        uint64_t k;
        switch (types[i]) {
        case 1: k = 1; break;
        case 2: case 13: k = 2; break;
        case 3: case 9: case 4: k = 4; break;
        case 8: case 5: k = 8; break;
        case 6: k = 0; break;
        case 7: case 10: case 11: case 12: case 14:
            if (at >= n) return 8;
            k = 1 + (uint64_t)s[at];
            break;
        case 0: case 15: case 16: case 242: case 245: case 246: case 247: case 248: case 249: case 250: case 251: case 252: case 253:
        case 254: case 255: {
            int no = pc_lenenc_int(s, n, at, &k, &at);
            if (no) return no;
            break;
        }
        default: return 10;
        }
        if (n - at < k) return 8;
        at += k;
    }
    *nulls = count;
    *used = at;
    return 0;
}
