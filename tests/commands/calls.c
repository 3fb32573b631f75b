/* The header of the test calls, as C and as C++: the name is C's in both. */
#include "netxurbil_test_calls.h"

int main(void) { return (int)calls(NULL, 0, NULL, 0); }
