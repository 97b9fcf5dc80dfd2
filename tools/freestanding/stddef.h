/* What the header needs of <stddef.h>. The kit's compiler comes without headers, but it knows the types. */
typedef __SIZE_TYPE__ size_t;
#define offsetof(type, member) __builtin_offsetof(type, member)
