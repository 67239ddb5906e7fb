/* Plays tapes of fuzz.c, whose names are its words, without a fuzzer. */
#include <stdint.h>
#include <stdio.h>

int LLVMFuzzerTestOneInput(const uint8_t *data, size_t size);

int main(int count, char **names)
{
    static uint8_t tape[65536];
    for (int i = 1; i < count; i++) {
        FILE *file = fopen(names[i], "rb");
        if (file == NULL)
            return 1;
        size_t size = fread(tape, 1, sizeof tape, file);
        fclose(file);
        LLVMFuzzerTestOneInput(tape, size);
    }
    return 0;
}
