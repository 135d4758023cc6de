/* SPDX-License-Identifier: Apache-2.0 */
/* The library from C: a device stores two identities, and the hart claims them by stopei.
 * `examples/check-library` builds it, with the folder that `library` fills: cc library.c -I FOLDER
 * FOLDER/libaia.a
 */
#include "aia.h"

#include <inttypes.h>
#include <stdio.h>

/* Does `csrrw rd, CSR, value` on hart 0, and gives what was read. */
static uint64_t write_csr(struct aia **model, uint32_t csr, uint64_t value)
{
    uint64_t was;
    int32_t code = aia_csr(model, 0, csr, AIA_CSRRW, value, &was);
    if (code != AIA_DONE)
        fprintf(stderr, "CSR 0x%" PRIx32 ": code %" PRId32 "\n", csr, code);
    return was;
}

int main(void)
{
    struct aia *model = NULL;
    uint8_t answer[AIA_ANSWER];
    size_t written;

    if (aia_open(&model) != AIA_DONE || aia_machine(&model, 1, 0, 63, 1) != AIA_DONE)
        return 1;
    write_csr(&model, AIA_SISELECT, 0x70); /* eidelivery */
    write_csr(&model, AIA_SIREG, 1);
    write_csr(&model, AIA_SISELECT, 0xc0); /* eie0 */
    write_csr(&model, AIA_SIREG, ~(uint64_t)1);

    aia_store(&model, 0x28000000, 9); /* MSIs to the supervisor file of hart 0 */
    aia_store(&model, 0x28000000, 5);

    /* The same handle takes texts. */
    if (aia_line(&model, (const uint8_t *)"pins 0", 6, answer, sizeof answer, &written) == AIA_DONE)
        fwrite(answer, 1, written, stdout);
    for (int claims = 0; claims < 3; claims++)
        printf("0x%016" PRIx64 "\n", write_csr(&model, AIA_STOPEI, 0));
    aia_close(&model);
    return 0;
}
