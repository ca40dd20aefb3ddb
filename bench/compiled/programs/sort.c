// Signed numbers sorted on the stack, and what they are in order: signed comparisons, loads and stores of four octets.
unsigned long long program(void) {
    volatile int numbers[60];
    unsigned int x = 77;
    for (int i = 0; i < 60; i++) {
        x = x * 1664525u + 1013904223u;
        numbers[i] = (int)x;
    }
    for (int i = 1; i < 60; i++) {
        int moved = numbers[i];
        int at = i;
        for (; at > 0 && numbers[at - 1] > moved; at--)
            numbers[at] = numbers[at - 1];
        numbers[at] = moved;
    }
    unsigned long long sum = 0;
    for (int i = 0; i < 60; i++)
        sum = sum * 31 + (unsigned long long)(long long)numbers[i];
    return sum;
}
