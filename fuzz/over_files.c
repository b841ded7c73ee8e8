/* Runs inputs of the fuzzer from files, without the fuzzer. */
#include <stdint.h>
#include <stdio.h>

#include "input.h"

int LLVMFuzzerTestOneInput(const uint8_t *data, size_t size);

int main(int count, char **names)
{
    static uint8_t input[MOST_INPUT + 1];
    for (int number = 1; number < count; number++) {
        FILE *file = fopen(names[number], "rb");
        if (file == NULL) {
            perror(names[number]);
            return 1;
        }
        size_t size = fread(input, 1, sizeof input, file);
        fclose(file);
        LLVMFuzzerTestOneInput(input, size);
    }
    printf("%d inputs, no difference\n", count - 1);
    return 0;
}
