/* Gives the bytes of each file that is named to what libFuzzer calls, and each of their beginnings of up to 300 bytes. */
#include <stddef.h>
#include <stdint.h>
#include <stdio.h>
#include <stdlib.h>

int LLVMFuzzerTestOneInput(const uint8_t *data, size_t size);

int main(int count, char **names) {
    for (int k = 1; k < count; k++) {
        FILE *file = fopen(names[k], "rb");
        if (file == NULL || fseek(file, 0, SEEK_END) != 0)
            return 2;
        long size = ftell(file);
        uint8_t *bytes = malloc((size_t)size + 1);
        rewind(file);
        if (size < 0 || bytes == NULL || fread(bytes, 1, (size_t)size, file) != (size_t)size)
            return 2;
        fclose(file);
        LLVMFuzzerTestOneInput(bytes, (size_t)size);
        for (size_t part = 0; part < (size_t)size && part < 300; part++)
            LLVMFuzzerTestOneInput(bytes, part);
        free(bytes);
    }
    return 0;
}
