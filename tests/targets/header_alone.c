/* A program of which compilers of C and C++ must have nothing to say. */
#include "forth83.h"

int main(void)
{
    return 0;
}
