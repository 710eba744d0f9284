#ifndef SHIM_CTYPE_H
#define SHIM_CTYPE_H
#define _U 1
#define _L 2
#define _D 4
#define _C 8
#define _P 16
#define _S 32
#define _X 64
#define _SP 128
extern const unsigned char _ctype[];
#define is_of(c, classes) ((_ctype[(unsigned char)(c)] & (classes)) != 0)
#define isalnum(c) is_of(c, _U | _L | _D)
#define isalpha(c) is_of(c, _U | _L)
#define iscntrl(c) is_of(c, _C)
#define isgraph(c) is_of(c, _P | _U | _L | _D)
#define islower(c) is_of(c, _L)
#define isprint(c) is_of(c, _P | _U | _L | _D | _SP)
#define ispunct(c) is_of(c, _P)
#define isspace(c) is_of(c, _S)
#define isupper(c) is_of(c, _U)
#define isxdigit(c) is_of(c, _D | _X)
#define isascii(c) (((unsigned char)(c)) <= 0x7f)
static inline int isdigit(int c)
{
	return c >= '0' && c <= '9';
}
static inline unsigned char __tolower(unsigned char c)
{
	return isupper(c) ? c + 32 : c;
}
static inline unsigned char __toupper(unsigned char c)
{
	return islower(c) ? c - 32 : c;
}
#define tolower(c) __tolower(c)
#define toupper(c) __toupper(c)
static inline char _tolower(const char c)
{
	return c | 0x20;
}
#endif
