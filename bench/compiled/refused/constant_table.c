// uses the address of .rodata
static const unsigned int t[8] = {3,1,4,1,5,9,2,6};
unsigned long long program(unsigned long long w, unsigned long long n) {
    return t[n & 7];
}
