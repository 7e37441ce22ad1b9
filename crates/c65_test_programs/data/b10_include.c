#include "b11_included.h"
int main(void) { return twice(4); }
