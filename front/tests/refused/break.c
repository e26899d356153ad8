// 2:18: error: BadJump: there is nothing that a `break` or `continue` could leave or go on with: it docs/LANGUAGE.md, Statements
int main(void) { break; }
