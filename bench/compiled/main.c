// Runs a program on this machine, and says what it answers as `xbgp exec` does.
#include <stdio.h>

unsigned long long program(void);

int main(void) {
    printf("r0 %llu\nend\n", program());
    return 0;
}
