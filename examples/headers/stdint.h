/* For machines whose own C headers are not for x86-64: the little of <stdint.h> that vanshorley.h uses. */
typedef __UINT8_TYPE__ uint8_t;
typedef __UINT32_TYPE__ uint32_t;
typedef __UINT64_TYPE__ uint64_t;
