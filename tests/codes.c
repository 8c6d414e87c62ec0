// Asks the proved library 'exports', for tests/codes. A line of input is a question: altitude, identity, meaning or code, and the numbers to call it with.
// A line of output is the number that it answers.
#include <stdint.h>
#include <stdio.h>
#include <string.h>

// The proved functions, of the crate exports.
int32_t altitude_number(uint16_t code, uint16_t confidence);
int32_t identity_number(uint16_t code, uint16_t confidence);
int32_t meaning_number(uint8_t mode, uint16_t code, uint16_t confidence);
int32_t code_number(int32_t feet);

int main(void)
{
    char line[64], what[16];
    int a, b, c;
    while (fgets(line, sizeof line, stdin)) {
        int read = sscanf(line, "%15s %d %d %d", what, &a, &b, &c);
        if (read == 3 && strcmp(what, "altitude") == 0)
            printf("%d\n", altitude_number((uint16_t)a, (uint16_t)b));
        else if (read == 3 && strcmp(what, "identity") == 0)
            printf("%d\n", identity_number((uint16_t)a, (uint16_t)b));
        else if (read == 4 && strcmp(what, "meaning") == 0)
            printf("%d\n", meaning_number((uint8_t)a, (uint16_t)b, (uint16_t)c));
        else if (read == 2 && strcmp(what, "code") == 0)
            printf("%d\n", code_number(a));
        else
            return 1;
    }
    return 0;
}
