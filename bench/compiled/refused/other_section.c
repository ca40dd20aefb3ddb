// program is not in the section .text
__attribute__((section("inbound"))) unsigned long long program(void) {
    return 1;
}
