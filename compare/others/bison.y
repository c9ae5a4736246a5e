/* Grammar G for bison. The list is left recursive, as suits an LR parser; a cycle in error is passed over up to its done. */
%define api.pure full
%define api.prefix {b}
%parse-param {struct source *source}
%lex-param {struct source *source}
%code requires { struct source; }
%code {
#include "others.h"
static int blex(BSTYPE *value, struct source *source) { (void)value; return next_token(source); }
static void berror(struct source *source, const char *text) { (void)source, (void)text; }
}
%token START 1 POLE 2 CRIMP 3 DONE 4 PAUSE 5 RESUME 6
%%
shift: %empty { rule(source, 1); } | shift cycle { rule(source, 0); };
cycle: START middle DONE { rule(source, 2); } | error DONE { rule(source, 9); };
middle: POLE rest CRIMP { rule(source, 3); };
rest: %empty { rule(source, 5); } | PAUSE RESUME { rule(source, 4); };
%%
int run_bison(struct source *source) { return bparse(source); }
