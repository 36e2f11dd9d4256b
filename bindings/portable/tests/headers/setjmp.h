/* What the portable library needs of setjmp.h, for systems whose headers are not here: see bindings/portable/check. */
typedef long long jmp_buf[64];
#if defined _WIN32
int setjmp(jmp_buf);
__attribute__((noreturn)) void longjmp(jmp_buf, int);
#else
int _setjmp(jmp_buf);
__attribute__((noreturn)) void _longjmp(jmp_buf, int);
#endif
