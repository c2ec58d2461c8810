/* For the kit's compiler, which has no headers: x86-64 Linux. */
typedef unsigned long size_t;
