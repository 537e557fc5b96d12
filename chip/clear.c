/* Today's compiler zeroes a function's local lists as it begins, those of more than some 128 bytes
   by a call. This is what it calls: the archive stands alone, with no C library. The names are the
   compiler's, for x86-64 and for ARM. Where a program has functions of these names they serve as
   well, so those for ARM give way to them. */
typedef __SIZE_TYPE__ size;
typedef __UINT32_TYPE__ word;
typedef __UINT64_TYPE__ words;

#ifdef __x86_64__
void *memset(void *to, int byte, size many)
{
    volatile unsigned char *at = to;
    size i = 0;
    if (byte == 0 && (size)to % 8 == 0)
        for (; i + 8 <= many; i += 8)
            *(volatile words *)(volatile void *)(at + i) = 0;
    for (; i < many; i++)
        at[i] = (unsigned char)byte;
    return to;
}
#else
static void clear(void *to, size many)
{
    volatile word *at = to;
    size i = 0;
    for (; i + 4 <= many / 4; i += 4) {
        at[i] = 0;
        at[i + 1] = 0;
        at[i + 2] = 0;
        at[i + 3] = 0;
    }
    for (i *= 4; i < many; i++)
        ((volatile unsigned char *)to)[i] = 0;
}

/* `to` is a multiple of 8. */
__attribute__((weak)) void __aeabi_memclr8(void *to, size many)
{
    clear(to, many);
}

/* What other targets call: never with another byte than 0. */
__attribute__((weak)) void *memset(void *to, int byte, size many)
{
    if (byte == 0 && (size)to % 4 == 0) {
        clear(to, many);
    } else {
        for (size i = 0; i < many; i++)
            ((volatile unsigned char *)to)[i] = (unsigned char)byte;
    }
    return to;
}
#endif
