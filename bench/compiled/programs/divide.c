// Greatest common divisors and powers modulo a prime: quotients and remainders of 64 and of 32 bits.
unsigned long long program(void) {
    volatile unsigned long long seed = 600851475143ull;
    volatile unsigned int small = 4000000007u;
    unsigned long long sum = 0;
    for (unsigned long long i = 1; i <= 200; i++) {
        unsigned long long a = seed + i * 7919, b = i * i * 31 + 5;
        while (b) {
            unsigned long long rest = a % b;
            a = b;
            b = rest;
        }
        sum += a * i;
    }
    unsigned long long power = 1, base = 3;
    for (unsigned int e = small; e; e /= 2) {
        if (e % 2)
            power = power * base % 1000000007ull;
        base = base * base % 1000000007ull;
    }
    return sum * 1000003 + power + small / 977u + small % 977u;
}
