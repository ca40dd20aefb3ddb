// CRC-32 of 1,000 octets, bit by bit: 32-bit shifts and exclusive or.
unsigned long long program(void) {
    volatile unsigned int seed = 12345;
    unsigned int x = seed, crc = 0xffffffffu;
    for (int i = 0; i < 1000; i++) {
        x = x * 1103515245u + 12345u;
        crc ^= x >> 24;
        for (int bit = 0; bit < 8; bit++)
            crc = (crc >> 1) ^ (0xedb88320u & (0u - (crc & 1u)));
    }
    return ~crc;
}
