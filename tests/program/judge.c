/* The program from C: reads the four files of the current folder, a missing one as empty, and hands them to the archive's namecheck_run,
   whose answer is the exit status. It is for the test alone: it takes a file that cannot be read for a missing one. */
#include <stddef.h>
#include <stdint.h>
#include <stdio.h>

uint32_t namecheck_run(const uint8_t *san, size_t san_length, const uint8_t *subject, size_t subject_length, const uint8_t *constraints,
                       size_t constraints_length, const uint8_t *references, size_t references_length);

static size_t load(const char *path, uint8_t *buffer, size_t size)
{
    FILE *file = fopen(path, "rb");
    size_t count = 0;

    if (file != NULL) {
        count = fread(buffer, 1, size, file);
        fclose(file);
    }
    return count;
}

int main(void)
{
    static uint8_t san[16385], subject[4097], constraints[16385], references[5121];
    size_t a = load("san.der", san, sizeof san);
    size_t b = load("subject.der", subject, sizeof subject);
    size_t c = load("nc.der", constraints, sizeof constraints);
    size_t d = load("refs.rec", references, sizeof references);

    return (int)namecheck_run(san, a, subject, b, constraints, c, references, d);
}
