// uses the address of .bss
static unsigned long long count;
unsigned long long program(void) {
    return ++count;
}
