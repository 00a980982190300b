/* ..: 2 functions aren't static, and not one: name one by --entry; the functions are: first (.text), second (.text) */
#include <fc.h>
fc_u64 first(const struct fc_request *request) { return FC_OK; }
fc_u64 second(const struct fc_request *request) { return FC_OK; }
