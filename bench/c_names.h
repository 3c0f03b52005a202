/* A function's name for the compiler at work: NAME(PREFIX, _fast) is gcc_fast or clang_fast. */
#define JOIN(a, b) a##b
#define NAME(a, b) JOIN(a, b)
