// A library with two versions of a function.
__asm__(".symver versions_old, versions_function@VERSIONS_1");
__asm__(".symver versions_new, versions_function@@VERSIONS_2");

long versions_data = 7;
long versions_old(void) { return 1; }
long versions_new(void) { return versions_data; }
