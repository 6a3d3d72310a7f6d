/* For machines whose own C headers are not for x86-64: the little of <stddef.h> that vanshorley.h uses. */
typedef __SIZE_TYPE__ size_t;
