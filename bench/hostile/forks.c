/* Many runs of the program that it is loaded before, of one start. */
#include "forks.h"

__attribute__((constructor)) static void start(void) { serve_forks(); }
