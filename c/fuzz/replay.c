/* Gives each file that is named to the fuzz target, for compilers without libFuzzer: replay FILE.. */
#include "promises.h"

int LLVMFuzzerTestOneInput(const uint8_t *data, size_t size);

static void give(const char *path)
{
    static uint8_t data[1 << 16];
    FILE *file = fopen(path, "rb");
    if (!file) {
        perror(path);
        exit(1);
    }
    size_t size = fread(data, 1, sizeof data, file);
    fclose(file);
    LLVMFuzzerTestOneInput(data, size);
}

int main(int argc, char **argv)
{
    for (int i = 1; i < argc; i++) give(argv[i]);
    printf("%d inputs\n", argc - 1);
    return argc < 2;
}
