/* choose-program.c: the program as it was compiled for x86-64-v2 where the processor has that, and else
 * as it was for every x86-64. */
#include "x86-64.h"

int main_v1(int count, char **words);
int main_v2(int count, char **words);

int main(int count, char **words) {
    return has_x86_64_v2() ? main_v2(count, words) : main_v1(count, words);
}
