/* reached: standard input has lines with --target=NAME and behind each the paths of files. They are run without the fuzzer, and how much of the port
 * they reach together is printed: counters, functions, and the address of each part that nothing reached. Linked with fuzz.c and the covered
 * archive. */
#include <stdint.h>
#include <stdio.h>
#include <stdlib.h>
#include <string.h>

int LLVMFuzzerInitialize(int *count, char ***words);
int LLVMFuzzerTestOneInput(const uint8_t *data, size_t size);

/* What the compiler's counting calls. */
void __sanitizer_cov_8bit_counters_init(uint8_t *start, uint8_t *stop);
void __sanitizer_cov_pcs_init(const uintptr_t *start, const uintptr_t *stop);
void __sanitizer_cov_trace_cmp1(uint8_t a, uint8_t b);
void __sanitizer_cov_trace_cmp2(uint16_t a, uint16_t b);
void __sanitizer_cov_trace_cmp4(uint32_t a, uint32_t b);
void __sanitizer_cov_trace_cmp8(uint64_t a, uint64_t b);
void __sanitizer_cov_trace_const_cmp1(uint8_t a, uint8_t b);
void __sanitizer_cov_trace_const_cmp2(uint16_t a, uint16_t b);
void __sanitizer_cov_trace_const_cmp4(uint32_t a, uint32_t b);
void __sanitizer_cov_trace_const_cmp8(uint64_t a, uint64_t b);
void __sanitizer_cov_trace_switch(uint64_t value, uint64_t *cases);

void __sanitizer_cov_trace_cmp1(uint8_t a, uint8_t b) { (void)a, (void)b; }
void __sanitizer_cov_trace_cmp2(uint16_t a, uint16_t b) { (void)a, (void)b; }
void __sanitizer_cov_trace_cmp4(uint32_t a, uint32_t b) { (void)a, (void)b; }
void __sanitizer_cov_trace_cmp8(uint64_t a, uint64_t b) { (void)a, (void)b; }
void __sanitizer_cov_trace_const_cmp1(uint8_t a, uint8_t b) { (void)a, (void)b; }
void __sanitizer_cov_trace_const_cmp2(uint16_t a, uint16_t b) { (void)a, (void)b; }
void __sanitizer_cov_trace_const_cmp4(uint32_t a, uint32_t b) { (void)a, (void)b; }
void __sanitizer_cov_trace_const_cmp8(uint64_t a, uint64_t b) { (void)a, (void)b; }
void __sanitizer_cov_trace_switch(uint64_t value, uint64_t *cases) { (void)value, (void)cases; }

/* A counter each part of the code, beside it the part's address and 1 where a function begins. Counters go round, so what was seen is kept apart. */
static uint8_t *counters, *seen;
static size_t parts;
static const uintptr_t *places;

void __sanitizer_cov_8bit_counters_init(uint8_t *start, uint8_t *stop) {
    counters = start;
    parts = stop - start;
}

void __sanitizer_cov_pcs_init(const uintptr_t *start, const uintptr_t *stop) {
    (void)stop;
    places = start;
}

static void run(const char *path) {
    static uint8_t data[1 << 20];
    FILE *file = fopen(path, "rb");
    if (file == NULL) {
        perror(path);
        exit(2);
    }
    const size_t size = fread(data, 1, sizeof data, file);
    fclose(file);
    uint8_t *exact = malloc(size);
    if (exact == NULL)
        exit(2);
    memcpy(exact, data, size);
    memset(counters, 0, parts);
    LLVMFuzzerTestOneInput(exact, size);
    free(exact);
    for (size_t i = 0; i < parts; i++)
        seen[i] |= counters[i] != 0;
}

int main(int count, char **words) {
    size_t hit = 0, entered = 0, functions = 0;
    char line[4096];
    (void)count;
    seen = calloc(parts, 1);
    while (seen != NULL && fgets(line, sizeof line, stdin) != NULL) {
        char *one[] = {words[0], line}, **all = one;
        int two = 2;
        line[strcspn(line, "\n")] = 0;
        if (strncmp(line, "--", 2) == 0)
            LLVMFuzzerInitialize(&two, &all);
        else
            run(line);
    }
    for (size_t i = 0; i < parts; i++) {
        hit += seen[i];
        functions += places[2 * i + 1] & 1;
        entered += seen[i] & places[2 * i + 1];
    }
    printf("reached: %zu of %zu counters, %zu of %zu functions\n", hit, parts, entered, functions);
    for (size_t i = 0; i < parts; i++)
        if (!seen[i])
            printf("not reached: %zx\n", (size_t)places[2 * i]);
    return 0;
}
