// uses the address of .rodata
unsigned long long program(unsigned long long w, unsigned long long n) {
    unsigned int a[8] = {3,1,4,1,5,9,2,6};
    return a[n & 7];
}
