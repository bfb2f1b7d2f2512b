/*
 * What memcheck must tell of, so that its silence elsewhere means something: a read past a block, and a block that is lost. What was read is
 * used, for memcheck leaves out a load that nothing comes of.
 */
#include <stdlib.h>

int main(void)
{
    volatile char *block = malloc(8);
    return block[8] == 1;
}
