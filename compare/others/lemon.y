// Grammar G for lemon: the same grammar as bison's.
%name LemonG
%token_prefix L_
%extra_argument { struct source *source }
%include {
#include "others.h"
#include <assert.h>
#include <stddef.h>
}
%token START POLE CRIMP DONE PAUSE RESUME.
%start_symbol all
all ::= shift.
shift ::= . { rule(source, 1); }
shift ::= shift cycle. { rule(source, 0); }
cycle ::= START middle DONE. { rule(source, 2); }
cycle ::= error DONE. { rule(source, 9); }
middle ::= POLE rest CRIMP. { rule(source, 3); }
rest ::= . { rule(source, 5); }
rest ::= PAUSE RESUME. { rule(source, 4); }
