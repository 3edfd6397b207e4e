/* Moves the code that is linked after it by SHIFT bytes. */
#define TEXT_OF(x) #x
#define TEXT(x) TEXT_OF(x)

#if SHIFT > 0
__asm__(".text\n\t.skip " TEXT(SHIFT));
#endif

extern int shift;
int shift = SHIFT;
