/* For the kit's compiler, which has no headers: x86-64 Linux. */
typedef unsigned char uint8_t;
typedef unsigned uint32_t;
