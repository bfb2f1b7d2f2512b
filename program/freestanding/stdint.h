/* The part of C's stdint.h that reedbiscuit.h asks for; the kit's clang comes without headers. */
typedef __UINT8_TYPE__ uint8_t;
typedef __UINT32_TYPE__ uint32_t;
