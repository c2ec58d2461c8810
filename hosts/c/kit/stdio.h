/* For the kit's compiler, which has no headers. */
int printf(const char *, ...);
