// The number below 300 whose chain of steps to 1 is the longest, and how long it is: loops, parity, multiplication.
unsigned long long program(void) {
    unsigned long long best = 0, longest = 0;
    for (unsigned long long start = 1; start < 300; start++) {
        unsigned long long steps = 0;
        for (unsigned long long n = start; n != 1; steps++)
            n = n % 2 ? 3 * n + 1 : n / 2;
        if (steps > longest) {
            longest = steps;
            best = start;
        }
    }
    return best * 1000 + longest;
}
