/* Writes an area against a reference area, reads it back strictly, and shows refusals. */
#include "jakepuro.h"

#include <stdio.h>

static void print_hex(const uint8_t *bytes, size_t length)
{
    for (size_t i = 0; i < length; i++)
        printf("%02x%s", bytes[i], i + 1 < length ? " " : "\n");
}

static void print_path(const jakepuro_path *path)
{
    const uint8_t *component = path->bytes;
    for (size_t i = 0; i < path->count; i++) {
        size_t length = jakepuro_path_component_length(path, i);
        printf("/%.*s", (int)length, (const char *)component);
        component += length;
    }
    printf("\n");
}

int main(void)
{
    /* Once, before any other call. */
    if (!jakepuro_version_matches()) {
        printf("the archive is of version %lu, the header of %d\n", (unsigned long)jakepuro_version(), JAKEPURO_VERSION);
        return 1;
    }

    /* The reference: any subspace, the paths below /blog, from 1000 on. A record of zeros is well formed. */
    jakepuro_area reference = {0};
    reference.any = 1;
    jakepuro_path_append(&reference.path, (const uint8_t *)"blog", 4);
    jakepuro_set_u64(reference.times.start, 1000);
    reference.times.end_open = 1;

    /* Inside it: /blog/idea, from 1005 to 2000. */
    jakepuro_area area = reference;
    jakepuro_path_append(&area.path, (const uint8_t *)"idea", 4);
    jakepuro_set_u64(area.times.start, 1005);
    area.times.end_open = 0;
    jakepuro_set_u64(area.times.end, 2000);

    uint8_t buffer[64];
    size_t written;
    uint8_t answer = jakepuro_area_area_encode(buffer, sizeof buffer, &area, &reference, &written);
    if (answer != JAKEPURO_OK) {
        printf("refused: %d\n", answer);
        return 1;
    }
    printf("%zu bytes: ", written);
    print_hex(buffer, written);

    jakepuro_area back;
    size_t consumed;
    answer = jakepuro_area_area_decode(buffer, written, 0, true, &reference, &back, &consumed);
    if (answer != JAKEPURO_OK || consumed != written || memcmp(&back, &area, sizeof area) != 0) {
        printf("not read back: %d\n", answer);
        return 1;
    }
    printf("read back: from %llu in ", (unsigned long long)jakepuro_get_u64(back.times.start));
    print_path(&back.path);

    answer = jakepuro_area_area_decode(buffer, written - 1, 0, true, &reference, &back, &consumed);
    printf("without its last byte: refused with %d, %zu consumed\n", answer, consumed);

    answer = jakepuro_area_area_encode(buffer, sizeof buffer, &reference, &area, &written);
    printf("the other way round: refused with %d, %zu written\n", answer, written);
    return 0;
}
