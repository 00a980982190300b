/* ..: it calls printf, which isn't in this object
   ..extern.c:..: printf("%d", request->method);
   in C: a static function of your own, since there is no library, and no linker */
#include <fc.h>
int printf(const char *, ...);
fc_u64 run(const struct fc_request *request)
{
    printf("%d", request->method);
    return FC_OK;
}
