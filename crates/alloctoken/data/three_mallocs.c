void *malloc(unsigned long);
int main(void) { void *a; a = malloc(1); a = malloc(2); a = malloc(3); return 0; }
