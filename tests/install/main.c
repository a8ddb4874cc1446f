/* What a program sees of an installed beckethand: the version of the header and of the archive, what the C blocks of the README do, and
 * texts of answers. It is built as C and as C++, and tests/install/run holds what it writes to what it should.
 */
#include <stdio.h>

#include "blocks.h"

struct file {
    uint8_t bytes[BECKETHAND_SAN_LIMIT];
    size_t len;
};

/* a file of the current folder, which is samples/; 0 if it is not there or empty */
static int load(const char *name, struct file *f)
{
    FILE *stream = fopen(name, "rb");
    if (!stream)
        return 0;
    f->len = fread(f->bytes, 1, sizeof f->bytes, stream);
    fclose(stream);
    return f->len > 0;
}

int main(void)
{
    static struct file san, subject, nc, written;
    if (!load("san.der", &san) || !load("subject.der", &subject) || !load("nc.der", &nc))
        return 2;
    const uint8_t lengths[] = {(uint8_t)(nc.len >> 8), (uint8_t)nc.len};

    printf("version %d, of the archive %u\n", BECKETHAND_VERSION, (unsigned)beckethand_version());
    show_names(san.bytes, san.len);
    struct beckethand_written w = write_names(written.bytes, sizeof written.bytes);
    printf("written: %s\n", beckethand_answer_text((uint32_t)w.answer));
    show_names(written.bytes, w.length);
    printf("the sample's names: %d\n", may_send(san.bytes, san.len, subject.bytes, subject.len, nc.bytes, nc.len, lengths, 2));
    printf("the written names: %d\n", may_send(written.bytes, w.length, subject.bytes, subject.len, nc.bytes, nc.len, lengths, 2));
    printf("no subject: %d\n", may_send(written.bytes, w.length, NULL, 0, nc.bytes, nc.len, lengths, 2));
    printf("4: %s\n9: %s\n", beckethand_answer_text(BECKETHAND_SUBJECT_UNREADABLE), beckethand_answer_text(9));
    return 0;
}
