#ifndef SHIM_STRING_H
#define SHIM_STRING_H
#include <linux/types.h>
#include <linux/stdarg.h>
extern void *memcpy(void *to, const void *from, size_t count);
extern void *memmove(void *to, const void *from, size_t count);
extern void *memset(void *to, int byte, size_t count);
extern int memcmp(const void *a, const void *b, size_t count);
extern void *memchr(const void *in, int byte, size_t count);
extern void *memchr_inv(const void *in, int byte, size_t count);
extern void *memscan(void *in, int byte, size_t count);
extern int bcmp(const void *a, const void *b, size_t count);
extern size_t strlen(const char *text);
extern size_t strnlen(const char *text, size_t most);
extern int strcmp(const char *a, const char *b);
extern int strncmp(const char *a, const char *b, size_t most);
extern int strcasecmp(const char *a, const char *b);
extern int strncasecmp(const char *a, const char *b, size_t most);
extern char *strcpy(char *to, const char *from);
extern char *strncpy(char *to, const char *from, size_t most);
extern size_t strlcpy(char *to, const char *from, size_t size);
extern ssize_t strscpy(char *to, const char *from, size_t size);
extern char *stpcpy(char *to, const char *from);
extern char *strcat(char *to, const char *from);
extern char *strncat(char *to, const char *from, size_t most);
extern size_t strlcat(char *to, const char *from, size_t size);
extern char *strchr(const char *text, int byte);
extern char *strchrnul(const char *text, int byte);
extern char *strnchr(const char *text, size_t most, int byte);
extern char *strnchrnul(const char *text, size_t most, int byte);
extern char *strrchr(const char *text, int byte);
extern char *strstr(const char *text, const char *part);
extern char *strnstr(const char *text, const char *part, size_t most);
extern size_t strspn(const char *text, const char *of);
extern size_t strcspn(const char *text, const char *of);
extern char *strpbrk(const char *text, const char *of);
extern char *strsep(char **text, const char *of);
extern char *strim(char *text);
extern char *skip_spaces(const char *text);
extern char *kstrdup(const char *text, gfp_t flags);
extern char *kstrndup(const char *text, size_t most, gfp_t flags);
extern void *kmemdup(const void *block, size_t size, gfp_t flags);
extern char **argv_split(gfp_t flags, const char *text, int *count);
extern void argv_free(char **words);
extern bool sysfs_streq(const char *a, const char *b);
extern int match_string(const char *const *words, size_t count, const char *text);
extern void *kmemdup_nul(const char *text, size_t most, gfp_t flags);
extern void memzero_explicit(void *block, size_t size);
static inline const char *kbasename(const char *path)
{
	const char *tail = strrchr(path, '/');

	return tail ? tail + 1 : path;
}
#endif
