// it has more than one function: other program
__attribute__((noinline)) static unsigned long long other(unsigned long long x) {
    volatile int y = x;
    return y;
}
unsigned long long program(void) {
    return other(3);
}
