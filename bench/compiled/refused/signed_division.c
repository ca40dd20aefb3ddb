// it divides signed numbers
long long program(void) {
    volatile long long a = -7, b = 2;
    return a / b;
}
