// Orders of octets, rotations and signs: byte swaps of 16, 32 and 64 bits, arithmetic shifts, loads of each width.
unsigned long long program(void) {
    volatile unsigned long long word = 0x0123456789abcdefull;
    volatile short half = -32768;
    volatile signed char octet = -1;
    volatile int number = -2147483647 - 1;
    unsigned long long x = word;
    x ^= __builtin_bswap64(x);
    x += __builtin_bswap32((unsigned int)x);
    x ^= __builtin_bswap16((unsigned short)x);
    x = (x << 13) | (x >> 51);
    x += (unsigned long long)((long long)x >> 7);
    x += (unsigned long long)(long long)half + (unsigned long long)(long long)octet;
    x ^= (unsigned long long)(long long)(number >> 5);
    return x;
}
