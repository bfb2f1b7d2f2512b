/* The part of C's stddef.h that reedbiscuit.h asks for; the kit's clang comes without headers. */
typedef __SIZE_TYPE__ size_t;
