// Says hello, and which version of the interface it runs on.
#include "guest.h"

void run(u64 hart)
{
    (void)hart;
    u64 version = (u64)sbi_call(SBI_BASE, 0, 0, 0, 0).value;
    put_text("Hello from a guest on SBI ");
    put_number(version >> 24);
    put_char('.');
    put_number(version & 0xffffff);
    put_char('\n');
}
