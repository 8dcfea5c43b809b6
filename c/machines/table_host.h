/* How table.c runs: as a program of C, or as a WebAssembly module beside passkey.wasm, in whose memory it lies. */
static void run_table(void);

#ifdef __wasm__
void say(const char *text); /* is imported, as the calls of passkey.h are */

__attribute__((export_name("table"))) void table(void)
{
    run_table();
}

void *memcpy(void *to, const void *from, size_t size)
{
    for (size_t i = 0; i < size; i++)
        ((uint8_t *)to)[i] = ((const uint8_t *)from)[i];
    return to;
}

void *memset(void *to, int byte, size_t size)
{
    for (size_t i = 0; i < size; i++)
        ((uint8_t *)to)[i] = (uint8_t)byte;
    return to;
}

static size_t strlen(const char *text)
{
    size_t size = 0;
    while (text[size] != 0)
        size++;
    return size;
}
#else
#include <stdio.h>
#include <string.h>

static void say(const char *text)
{
    fputs(text, stdout);
}

int main(void)
{
    run_table();
    return 0;
}
#endif
