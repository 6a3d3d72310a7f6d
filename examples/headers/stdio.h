/* For machines whose own C headers are not for x86-64: the little of <stdio.h> that the programs here use. */
typedef struct FILE FILE;
FILE *fopen(const char *name, const char *mode);
__SIZE_TYPE__ fread(void *to, __SIZE_TYPE__ size, __SIZE_TYPE__ count, FILE *file);
int fclose(FILE *file);
int printf(const char *form, ...);
