// Altitude, identity and the code of an altitude: the proved functions beside the same in C. Both are compared on every input that is timed.
#define _POSIX_C_SOURCE 199309L
#include <stdbool.h>
#include <stdint.h>
#include <stdio.h>
#include <time.h>

enum { WORDS = 65536, ROUNDS = 400, LOWEST = -1000, HIGHEST = 126700, ELEVEN = 0x1ebf, TWELVE = 0x1fbf };

// The proved functions, of the crate exports.
int32_t altitude_number(uint16_t code, uint16_t confidence);
int32_t identity_number(uint16_t code, uint16_t confidence);
int32_t code_number(int32_t feet);

// ---- the same in C

static uint32_t bit(uint32_t word, int place) { return word >> place & 1; }

// h of C1 C2 C4, as a number of three digits
static const uint8_t hundreds[8] = {0, 1, 3, 2, 5, 0, 4, 0};

__attribute__((noinline)) static int32_t altitude_in_c(uint16_t code, uint16_t confidence)
{
    if ((confidence & ELEVEN) != ELEVEN)
        return 1;
    uint32_t h = hundreds[bit(code, 0) << 2 | bit(code, 2) << 1 | bit(code, 4)];
    if (h == 0 || bit(code, 8))
        return 2;
    uint32_t n = bit(code, 10) << 7 | bit(code, 12) << 6 | bit(code, 1) << 5 | bit(code, 3) << 4 | bit(code, 5) << 3 | bit(code, 7) << 2 | bit(code, 9) << 1 | bit(code, 11);
    n ^= n >> 4;
    n ^= n >> 2;
    n ^= n >> 1;
    int32_t feet = 100 * ((int32_t)(5 * n + (n & 1 ? 6 - h : h)) - 13);
    return feet < LOWEST ? 2 : feet;
}

static uint32_t digit(uint32_t code, int four, int two, int one) { return bit(code, four) << 2 | bit(code, two) << 1 | bit(code, one); }

__attribute__((noinline)) static int32_t identity_in_c(uint16_t code, uint16_t confidence)
{
    if ((confidence & TWELVE) != TWELVE)
        return 4096;
    return (int32_t)(digit(code, 5, 3, 1) << 9 | digit(code, 11, 9, 7) << 6 | digit(code, 4, 2, 0) << 3 | digit(code, 12, 10, 8));
}

__attribute__((noinline)) static int32_t code_in_c(int32_t feet)
{
    static const uint8_t groups[6] = {0, 0x10, 0x14, 0x04, 0x05, 0x01};
    if (feet < LOWEST || feet > HIGHEST || feet % 100 != 0)
        return -1;
    uint32_t steps = (uint32_t)(feet + 1200) / 100, n = steps / 5, h = steps % 5 + 1, g = n ^ n >> 1;
    uint32_t gray = bit(g, 7) << 10 | bit(g, 6) << 12 | bit(g, 5) << 1 | bit(g, 4) << 3 | bit(g, 3) << 5 | bit(g, 2) << 7 | bit(g, 1) << 9 | bit(g, 0) << 11;
    return (int32_t)(gray | groups[n & 1 ? 6 - h : h]);
}

// ---- comparing and timing

static uint16_t codes[WORDS], confidences[WORDS];
static int32_t feet[WORDS];
static volatile int32_t sink;

// Every code word in a mixed order, seven of eight sure and one with a random confidence; feet from -2,000 ft on, each fourth a multiple of 100.
static void draw(void)
{
    uint32_t state = 1;
    for (uint32_t i = 0; i < WORDS; i++) {
        state = state * 1664525 + 1013904223;
        codes[i] = (uint16_t)(i * 40503);
        confidences[i] = state >> 29 ? 0x7fff : (uint16_t)(state >> 8);
        feet[i] = (int32_t)(state >> 8) % 130000 - 2000;
        if (i % 4 == 0)
            feet[i] -= feet[i] % 100;
    }
}

typedef int32_t reader(uint16_t code, uint16_t confidence);
typedef int32_t writer(int32_t feet);

static double now(void)
{
    struct timespec t;
    clock_gettime(CLOCK_MONOTONIC, &t);
    return (double)t.tv_sec * 1e9 + (double)t.tv_nsec;
}

static double time_reader(reader *read)
{
    int32_t sum = 0;
    double start = now();
    for (int i = 0; i < WORDS; i++)
        sum += read(codes[i], confidences[i]);
    double end = now();
    sink = sum;
    return (end - start) / WORDS;
}

static double time_writer(writer *write)
{
    int32_t sum = 0;
    double start = now();
    for (int i = 0; i < WORDS; i++)
        sum += write(feet[i]);
    double end = now();
    sink = sum;
    return (end - start) / WORDS;
}

static double altitudes_in_c(void) { return time_reader(altitude_in_c); }
static double altitudes_proved(void) { return time_reader(altitude_number); }
static double identities_in_c(void) { return time_reader(identity_in_c); }
static double identities_proved(void) { return time_reader(identity_number); }
static double codes_in_c(void) { return time_writer(code_in_c); }
static double codes_proved(void) { return time_writer(code_number); }

// The least time of each in turn.
static void show(const char *name, double in_c(void), double proved(void))
{
    double a = 1e9, b = 1e9;
    for (int i = 0; i < ROUNDS; i++) {
        double x = in_c(), y = proved();
        a = x < a ? x : a;
        b = y < b ? y : b;
    }
    printf("| %s | %.2f | %.2f | %.2f |\n", name, a, b, b / a);
}

int main(void)
{
    int right[3] = {0}, wrong = 0;
    draw();
    for (int i = 0; i < WORDS; i++) {
        bool same[3] = {
            altitude_number(codes[i], confidences[i]) == altitude_in_c(codes[i], confidences[i]),
            identity_number(codes[i], confidences[i]) == identity_in_c(codes[i], confidences[i]),
            code_number(feet[i]) == code_in_c(feet[i]),
        };
        for (int k = 0; k < 3; k++)
            same[k] ? right[k]++ : wrong++;
    }
    printf("| ns a call | C | Proved | Proved / C |\n| --- | ---: | ---: | ---: |\n");
    show("altitude", altitudes_in_c, altitudes_proved);
    show("identity", identities_in_c, identities_proved);
    show("code of a number of feet", codes_in_c, codes_proved);
    printf("%d passed, %d failed\n", right[0] + right[1] + right[2], wrong);
    return wrong != 0;
}
